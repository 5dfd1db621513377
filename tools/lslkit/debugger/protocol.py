"""The Debug Adapter Protocol's messages: what a request's arguments are, and what the adapter can do.

https://microsoft.github.io/debug-adapter-protocol/specification"""

# For each request its arguments and their kinds; one with `?` may be left out. Others are passed over.
REQUESTS = {
    "initialize": {"adapterID": str, "linesStartAt1?": bool, "columnsStartAt1?": bool, "pathFormat?": str},
    "launch": {"program": str, "args?": list, "cwd?": str, "stopOnEntry?": bool, "noDebug?": bool},
    "configurationDone": {},
    "setBreakpoints": {"source": dict, "breakpoints?": list, "lines?": list},
    "setFunctionBreakpoints": {"breakpoints": list},
    "setExceptionBreakpoints": {"filters": list},
    "dataBreakpointInfo": {"name": str, "variablesReference?": int},
    "setDataBreakpoints": {"breakpoints": list},
    "breakpointLocations": {"source": dict, "line": int, "endLine?": int},
    "threads": {},
    "stackTrace": {"threadId": int, "startFrame?": int, "levels?": int},
    "scopes": {"frameId": int},
    "variables": {"variablesReference": int, "start?": int, "count?": int},
    "evaluate": {"expression": str, "frameId?": int, "context?": str},
    "exceptionInfo": {"threadId": int},
    "continue": {"threadId": int},
    "reverseContinue": {"threadId": int},
    "next": {"threadId": int, "granularity?": str},
    "stepIn": {"threadId": int, "granularity?": str},
    "stepOut": {"threadId": int, "granularity?": str},
    "stepBack": {"threadId": int, "granularity?": str},
    "gotoTargets": {"source": dict, "line": int},
    "goto": {"threadId": int, "targetId": int},
    "restart": {},
    "terminate": {},
    "disconnect": {},
}
# Those that are answered before anything was launched.
BEFORE_LAUNCH = ("initialize", "launch", "terminate", "disconnect")
CAPABILITIES = {
    "supportsConfigurationDoneRequest": True,
    "supportsFunctionBreakpoints": True,
    "supportsConditionalBreakpoints": True,
    "supportsDataBreakpoints": True,
    "supportsBreakpointLocationsRequest": True,
    "supportsEvaluateForHovers": True,
    "supportsExceptionInfoRequest": True,
    "supportsGotoTargetsRequest": True,
    "supportsStepBack": True,
    "supportsRestartRequest": True,
    "supportsTerminateRequest": True,
    "supportsDelayedStackTraceLoading": True,
    "exceptionBreakpointFilters": [{"filter": "fault", "label": "A script stops for good", "default": True}],
}
KINDS = {str: "a text", int: "a number", bool: "true or false", list: "a list", dict: "an object"}


class Refused(Exception):
    """A request that can't be done: its message is for the user."""


def is_of(value, kind):
    return isinstance(value, kind) and not (kind is int and isinstance(value, bool))


def arguments_of(command, given):
    """The arguments of a request, whose kinds are right."""
    given = {} if given is None else given
    if not isinstance(given, dict):
        raise Refused(f"the arguments of {command} are no object")
    for name, kind in REQUESTS[command].items():
        value = given.get(name.rstrip("?"))
        if value is None and name.endswith("?"):
            continue
        if value is None:
            raise Refused(f"{command} takes `{name}`")
        if not is_of(value, kind):
            raise Refused(f"`{name.rstrip('?')}` of {command} is {KINDS[kind]}")
    return given


def text_in(holder, name):
    """A text that an object of a request may have."""
    value = holder.get(name)
    if value is not None and not isinstance(value, str):
        raise Refused(f"`{name}` is a text")
    return value
