"""Messages as they cross standard input and output: a head with their length, and JSON."""
import json

MOST = 64 * 1024 * 1024


class Cut(Exception):
    """The input ended within a message, or its head can't be read."""


def read(stream, is_strict=False):
    """The next message, as its bytes; none where the input ended between two. Where it is strict, a head that has any
    other form than `Name: value`, or no length, can't be read."""
    length = None
    while True:
        line = stream.readline(65536)
        if not line:
            if length is None:
                return None
            raise Cut("the input ended within a message's head")
        if line.strip() == b"" and length is not None:
            break
        name, colon, value = line.partition(b":")
        if name.strip().lower() == b"content-length" and value.strip().isdigit():
            length = int(value)
        elif is_strict and (not colon or name.strip().lower() == b"content-length"):
            raise Cut("a message's head has no length")
    if length > MOST:
        raise Cut(f"a message has {length} bytes")
    body = stream.read(length)
    if len(body) < length:
        raise Cut("the input ended within a message")
    return body


def parsed(body):
    """What a message's bytes say. Fails with a ValueError."""
    try:
        return json.loads(body.decode("utf-8", "surrogatepass"))
    except RecursionError:
        raise ValueError("too deep") from None


def framed(message):
    """A message as bytes."""
    body = json.dumps(message, separators=(",", ":")).encode()
    return b"Content-Length: %d\r\n\r\n" % len(body) + body
