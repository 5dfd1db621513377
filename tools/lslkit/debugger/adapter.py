"""The debugger for an editor: reads requests of the Debug Adapter Protocol, and answers them in their order."""
import contextlib
import os
import sys

from ..server import framing
from .breakpoints import Wrong
from .core import Refused as CoreRefused
from .debuggee import Debuggee
from .protocol import BEFORE_LAUNCH, CAPABILITIES, REQUESTS, Refused, arguments_of

BROKEN = 1


class Adapter:
    """A session with an editor."""

    def __init__(self, source, sink):
        self.source, self.sink, self.number = source, sink, 0
        self.client, self.debuggee, self.is_over, self.is_configured = None, None, False, False

    # Messages

    def run(self):
        """Answers requests until the editor ends the session. The status."""
        try:
            while not self.is_over:
                body = framing.read(self.source, is_strict=True)
                if body is None:
                    return 0
                self.take(body)
            return 0
        except framing.Cut as error:
            self.refuse({}, f"{error}")
            return BROKEN
        finally:
            if self.debuggee:
                self.debuggee.close()

    def take(self, body):
        try:
            message = framing.parsed(body)
        except ValueError:
            self.refuse({}, "the message isn't JSON")
            return
        if not isinstance(message, dict):
            self.refuse({}, "the message is no object")
        elif message.get("type") == "response":
            pass
        elif message.get("type") != "request" or not isinstance(message.get("command"), str):
            self.refuse(message, "the message is no request")
        else:
            self.answer(message)

    def answer(self, request):
        """Answers a request, and sends the events that come after it."""
        command = request["command"]
        try:
            self.need_order(command)
            arguments = arguments_of(command, request.get("arguments"))
            body = self.result_of(command, arguments)
        except (Refused, Wrong) as error:
            self.refuse(request, f"{error}")
        except CoreRefused as error:
            self.refuse(request, f"the core can't do it: {error}")
        except Exception as error:  # pylint: disable=broad-except
            print(f"lsl: {command}: {type(error).__name__}: {error}", file=sys.stderr, flush=True)
            self.refuse(request, f"{command} can't be answered: {type(error).__name__}")
        else:
            self.reply(request, success=True, **({"body": body} if body is not None else {}))
        for event, content in self.debuggee.take_events() if self.debuggee else ():
            self.send({"type": "event", "event": event, **({"body": content} if content else {})})

    def need_order(self, command):
        """Refuses a request that there isn't, or that comes too early or twice."""
        if command not in REQUESTS:
            raise Refused(f"there is no request `{command}`")
        if (command == "initialize") == (self.client is not None):
            raise Refused("initialize comes once" if self.client is not None else f"{command} comes before initialize")
        if command not in BEFORE_LAUNCH and self.debuggee is None:
            raise Refused(f"{command} comes before launch")
        if command == "launch" and self.debuggee is not None:
            raise Refused("launch comes once")
        if command == "configurationDone" and self.is_configured:
            raise Refused("configurationDone comes once")

    def result_of(self, command, arguments):
        if command == "initialize":
            self.client = arguments
            return CAPABILITIES
        if command == "launch":
            self.debuggee = Debuggee(self.client, arguments)
            return None
        if command in ("disconnect", "terminate"):
            return self.end(command)
        self.is_configured = self.is_configured or command == "configurationDone"
        return self.debuggee.result_of(command, arguments)

    def end(self, command):
        if command == "disconnect":
            self.is_over = True
        elif self.debuggee:
            self.debuggee.send("terminated")
        return None

    def refuse(self, request, words):
        self.reply(request, success=False, message=words, body={"error": {"id": 1, "format": words, "showUser": True}})

    def reply(self, request, **more):
        number, command = request.get("seq"), request.get("command")
        head = {
            "request_seq": number if isinstance(number, int) else 0,
            "command": command if isinstance(command, str) else "",
        }
        self.send({"type": "response", **head, **more})

    def send(self, message):
        self.number += 1
        with contextlib.suppress(OSError, ValueError):
            self.sink.write(framing.framed({"seq": self.number, **message}))
            self.sink.flush()


def main():
    """Runs the adapter on standard input and output. The status."""
    if sys.stdin.isatty():
        print("lsl: an editor starts this, and talks to it: see docs/EDITORS.md", file=sys.stderr)
    sink = os.fdopen(os.dup(1), "wb")
    # Whatever prints has standard error: the output is for messages alone.
    os.dup2(2, 1)
    return Adapter(sys.stdin.buffer, sink).run()
