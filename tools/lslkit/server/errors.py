"""Why a request isn't answered as it was asked."""

PARSE, INVALID_REQUEST, NO_METHOD, INVALID_PARAMS, INTERNAL = -32700, -32600, -32601, -32602, -32603
NOT_INITIALIZED, FAILED, CANCELLED = -32002, -32803, -32800


class Refused(Exception):
    """A request that is well formed, and can't be done: its message is for the user."""


class Wrong(Exception):
    """A request whose parameters aren't those of its method."""
