"""A client of the debug adapter for its checks, which looks at each message by the rules of the protocol."""
import os
import queue
import subprocess
import sys
import threading

from .checking import need
from .debugger.protocol import REQUESTS
from .places import TOP, in_top
from .server import framing

SECONDS = 60
ANY, NUMBER, TEXT, TRUTH = object, int, str, bool
# What an object has: for each name its kind, or a list of the kind of its items, or a table of its own. One with `?`
# may be left out.
SOURCE = {"name?": TEXT, "path?": TEXT}
BREAKPOINT = {"id?": NUMBER, "verified": TRUTH, "message?": TEXT, "line?": NUMBER, "source?": SOURCE}
FRAME = {"id": NUMBER, "name": TEXT, "line": NUMBER, "column": NUMBER, "source?": SOURCE}
BREAKPOINTS = {"breakpoints": [BREAKPOINT]}
BODIES = {
    "initialize": {"exceptionBreakpointFilters?": [{"filter": TEXT, "label": TEXT, "default?": TRUTH}]},
    "setBreakpoints": BREAKPOINTS,
    "setFunctionBreakpoints": BREAKPOINTS,
    "setDataBreakpoints": BREAKPOINTS,
    "dataBreakpointInfo": {"dataId": ANY, "description": TEXT, "accessTypes?": [TEXT]},
    "breakpointLocations": {"breakpoints": [{"line": NUMBER}]},
    "threads": {"threads": [{"id": NUMBER, "name": TEXT}]},
    "stackTrace": {
        "stackFrames": [FRAME],
        "totalFrames?": NUMBER,
    },
    "scopes": {"scopes": [{"name": TEXT, "variablesReference": NUMBER, "expensive": TRUTH}]},
    "variables": {"variables": [{"name": TEXT, "value": TEXT, "variablesReference": NUMBER, "type?": TEXT}]},
    "evaluate": {"result": TEXT, "variablesReference": NUMBER, "type?": TEXT},
    "continue": {"allThreadsContinued?": TRUTH},
    "gotoTargets": {"targets": [{"id": NUMBER, "label": TEXT, "line": NUMBER}]},
    "exceptionInfo": {"exceptionId": TEXT, "breakMode": TEXT, "description?": TEXT},
}
EVENTS = {
    "initialized": {},
    "stopped": {
        "reason": TEXT, "threadId?": NUMBER, "allThreadsStopped?": TRUTH, "description?": TEXT, "text?": TEXT,
        "hitBreakpointIds?": [NUMBER],
    },
    "output": {"output": TEXT, "category?": TEXT},
    "terminated": {},
}  # fmt: skip
REASONS = {"step", "breakpoint", "exception", "pause", "entry", "goto", "function breakpoint", "data breakpoint"}
# What a client may ask only where the adapter can do it.
NEEDED = {
    "configurationDone": "supportsConfigurationDoneRequest",
    "setFunctionBreakpoints": "supportsFunctionBreakpoints",
    "setDataBreakpoints": "supportsDataBreakpoints",
    "dataBreakpointInfo": "supportsDataBreakpoints",
    "breakpointLocations": "supportsBreakpointLocationsRequest",
    "exceptionInfo": "supportsExceptionInfoRequest",
    "gotoTargets": "supportsGotoTargetsRequest",
    "goto": "supportsGotoTargetsRequest",
    "stepBack": "supportsStepBack",
    "reverseContinue": "supportsStepBack",
    "restart": "supportsRestartRequest",
    "terminate": "supportsTerminateRequest",
}
# The requests after which the adapter says that a script stopped.
MOVING = (
    "continue", "reverseContinue", "next", "stepIn", "stepOut", "stepBack", "goto", "restart", "configurationDone",
)  # fmt: skip


def need_form(value, form, where):
    """Looks at a value by a table of what it has."""
    if isinstance(form, list):
        need(isinstance(value, list), where, "is no list:", value)
        for it in value:
            need_form(it, form[0], where)
    elif isinstance(form, dict):
        need(isinstance(value, dict), where, "is no object:", value)
        for name, kind in form.items():
            part = value.get(name.rstrip("?"))
            if part is None and name.endswith("?"):
                continue
            need(name.rstrip("?") in value, where, "has no", name, value)
            need_form(part, kind, f"{where}.{name}")
    elif form is not ANY:
        is_number = form is int and isinstance(value, bool)
        need(isinstance(value, form) and not is_number, where, "is", value)


class Client:
    """An adapter that was started, and what it said."""

    def __init__(self, **environment):
        how = {"stdin": subprocess.PIPE, "stdout": subprocess.PIPE, "stderr": subprocess.PIPE, "cwd": TOP}
        command = [sys.executable, in_top("lsl"), "debug", "--adapter"]
        self.process = subprocess.Popen(command, env={**os.environ, **environment}, **how)
        self.came, self.number, self.serial, self.said = queue.Queue(), 0, 0, b""
        self.capabilities, self.events, self.is_running = {}, [], False
        threading.Thread(target=self.read, daemon=True).start()
        threading.Thread(target=self.drain, daemon=True).start()

    def read(self):
        while True:
            try:
                body = framing.read(self.process.stdout)
            except (framing.Cut, ValueError, OSError):
                body = None
            self.came.put(None if body is None else framing.parsed(body))
            if body is None:
                return

    def drain(self):
        for line in self.process.stderr:
            self.said += line

    def write(self, piece):
        self.process.stdin.write(piece)
        self.process.stdin.flush()

    # Messages

    def next(self):
        """The next message, which is looked at."""
        try:
            message = self.came.get(timeout=SECONDS)
        except queue.Empty:
            need(False, "the adapter said nothing for", SECONDS, "seconds")
        need(message is not None, "the adapter ended:", self.said.decode(errors="replace"))
        need(message.get("seq") == self.serial + 1, "a number after", self.serial, "is", message.get("seq"))
        self.serial += 1
        need(message.get("type") in ("response", "event"), "no message:", message)
        if message["type"] == "event":
            self.look_at_event(message)
        return message

    def look_at_event(self, message):
        event, body = message.get("event"), message.get("body", {})
        need(event in EVENTS, "no event:", message)
        need_form(body, EVENTS[event], event)
        if event == "stopped":
            need(body["reason"] in REASONS, "no reason:", message)
            need(self.is_running, "a script stopped that didn't run:", message)
            self.is_running = False
        self.events.append(message)

    def send(self, command, arguments):
        self.number += 1
        message = {"seq": self.number, "type": "request", "command": command, "arguments": arguments}
        self.write(framing.framed(message))
        return self.number

    def response(self, number, command):
        """The response to a request. Only output may come before it."""
        while True:
            message = self.next()
            if message["type"] == "response":
                break
            need(message["event"] == "output", "before the response to", command, "came", message)
        need(message["request_seq"] == number, "the response to", command, "is", message)
        need(message["command"] == command and isinstance(message["success"], bool), "no response:", message)
        return message

    def ask(self, command, **arguments):
        """The body of a response that says that it was done."""
        need(command in REQUESTS, "no request:", command)
        can = NEEDED.get(command)
        need(can is None or self.capabilities.get(can) is True, command, "needs", can)
        self.is_running = self.is_running or command in MOVING
        message = self.response(self.send(command, arguments), command)
        need(message["success"], command, "wasn't done:", message.get("message"))
        body = message.get("body", {})
        need_form(body, BODIES.get(command, {}), command)
        return body

    def refused(self, command, **arguments):
        """The words by which a request isn't done."""
        message = self.response(self.send(command, arguments), command)
        need(not message["success"] and message.get("message"), command, "was done")
        need_form(message["body"]["error"], {"id": NUMBER, "format": TEXT}, command)
        return message["message"]

    def wait(self, event):
        """The body of the next event of a name."""
        while True:
            if self.events:
                message = self.events.pop(0)
                if message["event"] == event:
                    return message.get("body", {})
                need(message["event"] == "output", "for", event, "came", message)
            elif self.next()["type"] == "response":
                need(False, "a response without a request")

    # Sessions

    def begin(self, program, **more):
        """Begins a session up to where breakpoints are set."""
        self.capabilities = self.ask("initialize", adapterID="lsl", linesStartAt1=True)
        self.ask("launch", program=program, **more)
        self.wait("initialized")

    def go(self, command, thread=1):
        """Moves, and answers how it stopped."""
        self.ask(command, **({} if command == "configurationDone" else {"threadId": thread}))
        return self.wait("stopped")

    def stack(self, thread=1):
        """The names and lines of the calls of a script."""
        return [(it["name"], it["line"]) for it in self.frames(thread)]

    def frames(self, thread=1):
        return self.ask("stackTrace", threadId=thread)["stackFrames"]

    def values(self, scope, thread=1, depth=0):
        """The variables of a scope."""
        scopes = self.ask("scopes", frameId=self.frames(thread)[depth]["id"])["scopes"]
        number = next(it["variablesReference"] for it in scopes if it["name"].startswith(scope))
        return {it["name"]: it["value"] for it in self.ask("variables", variablesReference=number)["variables"]}

    def end(self):
        """Ends the session. The adapter's status."""
        self.ask("disconnect")
        return self.ended()

    def ended(self):
        status = self.process.wait(SECONDS)
        need(b"Traceback" not in self.said, "the adapter failed:", self.said.decode(errors="replace"))
        return status

    def __enter__(self):
        return self

    def __exit__(self, *_):
        self.process.kill()
        self.process.wait(SECONDS)
        for stream in (self.process.stdin, self.process.stdout):
            stream.close()
