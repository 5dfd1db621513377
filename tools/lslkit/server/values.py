"""Literals as the language reads them: the characters of a string, the value of an integer, and their charges."""
import re

from .positions import to_bytes

MOST = 4294967295


def integer(written):
    """The value of an integer literal."""
    value = int(written, 16) if written[:2] in ("0x", "0X") else int(written)
    if value > MOST:
        return -1
    return value - 2**32 if value >= 2**31 else value


def string(written):
    """The characters of a string literal."""
    inner = written[1:-1] if len(written) > 1 and written.endswith('"') else written[1:]
    return re.sub(r"(?s)\\(.)", lambda it: {"n": "\n", "t": "    "}.get(it[1], it[1]), inner)


def charge_of_text(text):
    return 16 + len(to_bytes(text))


def charge_of(token, constants):
    """The charge of a literal or a constant; none where a token is neither."""
    if token.sort == "integer":
        return 8
    if token.sort == "string":
        return charge_of_text(string(token.text))
    row = constants.get(token.text)
    if row is None:
        return None
    return 8 if row.kind == "integer" else charge_of_text(string(row.value))


def charge_of_list(tokens, constants):
    """The charge of a list of literals and constants, whose tokens are those between its brackets; or none."""
    charge, at = 16, 0
    while at < len(tokens):
        at += tokens[at].text == "-" and tokens[at].sort == "sign"
        element = charge_of(tokens[at], constants) if at < len(tokens) else None
        is_end = at + 1 >= len(tokens) or tokens[at + 1].text == ","
        if element is None or not is_end:
            return None
        charge, at = charge + 8 + element, at + 2
    return charge
