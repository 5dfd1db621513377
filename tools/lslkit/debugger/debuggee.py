"""What an editor debugs: a session, its breakpoints, and the answers to requests about it."""
import os

from .breakpoints import Breakpoint, Wrong, condition_of, file_of, next_line, test_of
from .commands import find
from .console import Console
from .launching import launched
from .protocol import Refused, text_in
from .scopes import Scopes

# The moves of steps, and those of single statements back.
STEPS = {"next": "next", "stepIn": "step", "stepOut": "finish", "stepBack": "reverse-next"}
ANY_FAULT = Breakpoint(0, "fault", condition_of(None, "fault")[0])


class Debuggee:
    def __init__(self, client, arguments):
        self.client, self.events = client, []
        self.launch = arguments
        self.holder, self.session = launched(arguments)
        self.console = Console(self.session)
        self.scopes = Scopes(self.session)
        # The breakpoints that the editor asked for, by their sort and file.
        self.asked, self.count, self.on_fault, self.told = {}, 0, True, 0
        self.send("initialized")
        for it in self.console.notes():
            self.send("output", category="console", output=f"{it}\n")

    def close(self):
        self.session.close()
        self.holder.close()

    def send(self, event, **body):
        self.events.append((event, body))

    def take_events(self):
        events, self.events = self.events, []
        return events

    def result_of(self, command, arguments):
        """The body of the answer to a request; none where it has none."""
        if "threadId" in arguments and not 1 <= arguments["threadId"] <= len(self.session.world.scripts):
            raise Refused(f"there is no thread {arguments['threadId']}")
        return getattr(self, f"on_{command}")(arguments)

    # Lines and files

    @property
    def first_line(self):
        """The number that the editor gives to a file's first line."""
        return 0 if self.client.get("linesStartAt1") is False else 1

    def to_editor(self, line):
        return max(line, 1) - 1 + self.first_line

    def from_editor(self, line):
        return line + 1 - self.first_line

    def file_of(self, source):
        """The file of scripts that an editor names; none where it is another one."""
        path = text_in(source, "path")
        if path is None:
            raise Refused("the source has no path")
        try:
            return file_of(self.session.trace, path)
        except Wrong:
            return None

    # The run

    def on_configurationDone(self, _):
        if self.launch.get("noDebug"):
            self.go(self.session.end())
            self.send("terminated")
        elif self.launch.get("stopOnEntry", True):
            self.stopped("entry")
        else:
            self.run_on()

    def conditions(self):
        every = [it for kept in self.asked.values() for it in kept]
        return [*every, *self.session.breakpoints.values(), *([ANY_FAULT] if self.on_fault else [])]

    def run_on(self):
        found = self.session.run(self.conditions())
        if found:
            self.stop_at(*found)
        else:
            # The run has ended, and one may go back from there.
            self.go(self.session.end())
            self.stopped("pause", description="the end of the run")

    def stop_at(self, moment, stop):
        self.go(moment)
        if stop is ANY_FAULT:
            self.stopped("exception")
        else:
            words = stop.condition.words[0]
            reason = {"routine": "function breakpoint", "changes": "data breakpoint"}.get(words, "breakpoint")
            self.stopped(reason, hitBreakpointIds=[stop.number])

    def on_continue(self, _):
        self.run_on()
        return {"allThreadsContinued": True}

    def on_reverseContinue(self, _):
        found = self.session.run(self.conditions(), is_back=True)
        if found:
            self.stop_at(*found)
        else:
            self.go(self.session.first())
            self.stopped("entry")

    def on_restart(self, _):
        self.go(self.session.first())
        self.stopped("entry")

    def step(self, arguments, how):
        session = self.session
        session.script = arguments["threadId"]
        moment, is_back = session.move(how), how == "back" or how.startswith("reverse")
        is_alone = moment is not None and moment.script == session.script
        self.go(moment or (session.first() if is_back else session.end()))
        if session.fault():
            self.stopped("exception")
        else:
            where = {} if is_alone else {"description": "the beginning" if is_back else "the end of the run"}
            self.stopped("step", **where)

    def on_next(self, arguments):
        self.step(arguments, "next")

    def on_stepIn(self, arguments):
        self.step(arguments, "step")

    def on_stepOut(self, arguments):
        self.step(arguments, "finish")

    def on_stepBack(self, arguments):
        self.step(arguments, "back" if arguments.get("granularity") == "instruction" else "reverse-next")

    def on_gotoTargets(self, arguments):
        file, line = self.file_of(arguments["source"]), self.from_editor(arguments["line"])
        line = file and next_line(self.session.trace, file, line)
        targets = []
        for word, is_back in (("next", False), ("last", True)) if line else ():
            moment = self.session.until(f"{file}:{line}", is_back)
            if moment is not None:
                label = f"the {word} time at line {line}"
                targets.append({"id": moment.number, "label": label, "line": self.to_editor(line)})
        return {"targets": targets}

    def on_goto(self, arguments):
        if not 1 <= arguments["targetId"] <= self.session.trace.count:
            raise Refused(f"there is no moment {arguments['targetId']}")
        self.go(self.session.at(arguments["targetId"]))
        self.stopped("goto")

    def go(self, moment):
        """Goes to a moment, and sends what was said since the furthest one so far."""
        session = self.session
        if moment.number > self.told:
            lines = self.console.way(self.told, moment.number)
            if lines:
                self.send("output", category="stdout", output="".join(f"{it}\n" for it in lines))
            self.told = moment.number
        session.go(moment)

    def stopped(self, reason, **more):
        session = self.session
        if self.told < session.moment.number:
            self.go(session.moment)
        fault = session.fault()
        body = {"reason": reason, "threadId": session.script, "allThreadsStopped": True, **more}
        if fault:
            body.update(description=fault, text=fault)
        self.send("stopped", **body)

    # Breakpoints

    def breakpoint(self, text, condition, file=None):
        """A breakpoint for the core of these words, and the protocol's; only the latter where the words are wrong."""
        self.count += 1
        number = 1000 + self.count
        try:
            found, said = condition_of(self.session.trace, text, file)
            if condition:
                found = found._replace(test=test_of(self.session.trace, condition))
        except Wrong as error:
            return None, {"id": number, "verified": False, "message": f"{error}"}
        return Breakpoint(number, said, found), {"id": number, "verified": True}

    def set(self, key, made):
        """Keeps breakpoints in the place of those of this sort. The answer's body."""
        self.asked[key] = [it for it, _ in made if it]
        return {"breakpoints": [said for _, said in made]}

    def on_setBreakpoints(self, arguments):
        file, made = self.file_of(arguments["source"]), []
        given = arguments.get("breakpoints")
        for it in [{"line": line} for line in arguments.get("lines", [])] if given is None else given:
            line = self.from_editor(it["line"])
            kept, said = self.breakpoint(str(line), text_in(it, "condition"), file)
            said["line"] = it["line"]
            if file is None:
                kept, said = None, {**said, "verified": False, "message": "the world has no script of this file"}
            if kept:
                said["line"] = self.to_editor(int(kept.condition.words[2]))
            made.append((kept, said))
        return self.set(("lines", arguments["source"]["path"]), made)

    def on_setFunctionBreakpoints(self, arguments):
        every = arguments["breakpoints"]
        return self.set("functions", [self.breakpoint(it["name"], text_in(it, "condition")) for it in every])

    def on_setDataBreakpoints(self, arguments):
        every = arguments["breakpoints"]
        return self.set("data", [self.breakpoint(f"changes {it['dataId']}", text_in(it, "condition")) for it in every])

    def on_dataBreakpointInfo(self, arguments):
        name = arguments["name"]
        if not name.isidentifier():
            return {"dataId": None, "description": f"{name} is no variable"}
        return {"dataId": name, "description": f"{name} changes", "accessTypes": ["write"]}

    def on_setExceptionBreakpoints(self, arguments):
        self.on_fault = "fault" in arguments["filters"]

    def on_breakpointLocations(self, arguments):
        file = self.file_of(arguments["source"])
        first = self.from_editor(arguments["line"])
        last = self.from_editor(arguments.get("endLine", arguments["line"]))
        lines = sorted(self.session.trace.statement_lines(file)) if file else []
        return {"breakpoints": [{"line": self.to_editor(it)} for it in lines if first <= it <= last]}

    # What is there

    def on_threads(self, _):
        names = self.session.names.scripts
        return {"threads": [{"id": number, "name": name} for number, name in enumerate(names, 1)]}

    def on_stackTrace(self, arguments):
        frames = self.scopes.frames(arguments["threadId"])
        first = arguments.get("startFrame", 0)
        count = arguments.get("levels") or len(frames)
        shown = [self.frame(*it) for it in frames[first : first + count]]
        return {"stackFrames": shown, "totalFrames": len(frames)}

    def frame(self, number, name, file, line):
        if file is None:
            return {"id": number, "name": name, "line": 0, "column": 0, "presentationHint": "label"}
        source = {"name": os.path.basename(file), "path": os.path.abspath(file)}
        return {"id": number, "name": name, "line": self.to_editor(line), "column": self.first_line, "source": source}

    def on_scopes(self, arguments):
        return {"scopes": self.scopes.of(arguments["frameId"])}

    def on_variables(self, arguments):
        found = self.scopes.variables(arguments["variablesReference"])
        first = arguments.get("start", 0)
        return {"variables": found[first : first + (arguments.get("count") or len(found))]}

    def on_exceptionInfo(self, _):
        fault = self.session.fault()
        if not fault:
            raise Refused("no script stopped for good here")
        return {"exceptionId": fault, "description": self.console.fault_line(), "breakMode": "always"}

    def on_evaluate(self, arguments):
        """A variable's value; in the editor's console also what a command of the terminal says."""
        text, frame = arguments["expression"].strip(), arguments.get("frameId")
        found = self.scopes.variable(text, frame)
        if found is not None:
            return {"result": found.value, "type": found.kind, "variablesReference": 0}
        if arguments.get("context") != "repl":
            raise Refused(f"no variable `{text}` is visible here")
        find(text.partition(" ")[0])
        before = self.session.moment
        said = self.console.said_by(text)
        if self.session.moment is not before:
            after, self.session.moment = self.session.moment, before
            self.go(after)
            self.stopped("goto")
        return {"result": said, "variablesReference": 0}
