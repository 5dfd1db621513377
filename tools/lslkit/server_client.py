"""A client of the language server for its checks, which looks at each message by the rules of the protocol."""
import os
import queue
import subprocess
import sys
import threading
import time

from .checking import need
from .places import in_top
from .server import framing

NOTICES = {"textDocument/publishDiagnostics", "window/showMessage", "window/logMessage"}
SECONDS = 60


def is_number(value):
    return isinstance(value, int) and not isinstance(value, bool) and value >= 0


class Rules:
    """What the protocol says of the parts of a message about one text."""

    def __init__(self, text):
        self.lines = [it.rstrip("\r") for it in text.split("\n")]

    def width(self, number):
        return len(self.lines[number].encode("utf-16-le", "surrogatepass")) // 2

    def position(self, it):
        need(set(it) == {"line", "character"} and all(map(is_number, it.values())), "no position:", it)
        need(it["line"] < len(self.lines), "a position is after the text:", it)
        need(it["character"] <= self.width(it["line"]) + 1, "a position is after its line:", it)
        return it["line"], it["character"]

    def range(self, it):
        need(set(it) == {"start", "end"}, "no range:", it)
        start, end = self.position(it["start"]), self.position(it["end"])
        need(start <= end, "a range ends before it starts:", it)
        return start, end

    def edits(self, found):
        last = (0, 0)
        for start, end, new in sorted((*self.range(it["range"]), it["newText"]) for it in found):
            need(start >= last and isinstance(new, str), "edits overlap:", found)
            last = end

    def workspace_edit(self, it):
        for edits in it["changes"].values():
            self.edits(edits)

    # Results, by their methods

    def hover(self, it):
        need(it["contents"]["kind"] == "markdown" and it["contents"]["value"], "no contents:", it)
        self.range(it["range"])

    def completion(self, found):
        need(found["isIncomplete"] is False, "no list:", found)
        for it in found["items"]:
            need(it["label"] and 1 <= it["kind"] <= 25, "no item:", it)
            need(it.get("insertTextFormat", 1) in (1, 2), "no format:", it)
        labels = [(it["label"], it["kind"]) for it in found["items"]]
        twice = {it for it in labels if labels.count(it) > 1} if len(set(labels)) < len(labels) else ()
        need(not twice, "items come twice:", twice)

    def signature(self, it):
        for row in it["signatures"]:
            for param in row["parameters"]:
                start, end = param["label"]
                need(0 <= start < end <= len(row["label"]), "a parameter isn't in its signature:", row)
        need(is_number(it["activeParameter"]) and it["activeSignature"] < len(it["signatures"]), "no signature", it)

    def locations(self, found):
        for it in found if isinstance(found, list) else [found]:
            need(set(it) == {"uri", "range"}, "no location:", it)
            self.range(it["range"])

    def highlights(self, found):
        for it in found:
            self.range(it["range"])
            need(it.get("kind", 1) in (1, 2, 3), "no kind:", it)

    def symbols(self, found, around=None):
        for it in found:
            need(it["name"] and 1 <= it["kind"] <= 26, "no symbol:", it)
            whole, name = self.range(it["range"]), self.range(it["selectionRange"])
            need(whole[0] <= name[0] and name[1] <= whole[1], "a name isn't in its symbol:", it)
            need(around is None or around[0] <= whole[0] and whole[1] <= around[1], "a symbol isn't in its own:", it)
            self.symbols(it.get("children", ()), whole)

    def folds(self, found):
        for it in found:
            need(0 <= it["startLine"] < it["endLine"] < len(self.lines), "no fold:", it)
            need(it.get("kind", "region") in ("comment", "imports", "region"), "no kind:", it)

    def selections(self, found):
        for it in found:
            inner = self.range(it["range"])
            while "parent" in it:
                it = it["parent"]
                outer = self.range(it["range"])
                need(outer[0] <= inner[0] and inner[1] <= outer[1] and outer != inner, "a selection doesn't grow:", it)
                inner = outer

    def tokens(self, it):
        data = it["data"]
        need(len(data) % 5 == 0 and all(map(is_number, data)), "no tokens:", data[:20])
        line = character = end = 0
        for at in range(0, len(data), 5):
            down, right, length, sort, bits = data[at : at + 5]
            line, character = line + down, right if down else character + right
            need(length > 0 and (down or not at or character >= end), "tokens overlap at", line, character)
            end = character + length
            need(line < len(self.lines) and end <= self.width(line), "a token is after its line:", line, character)
            need(sort < 13 and bits < 16, "no type:", sort, bits)

    def actions(self, found):
        for it in found:
            need(it["title"] and it["kind"] == "quickfix", "no action:", it)
            self.workspace_edit(it["edit"])

    def lenses(self, found):
        for it in found:
            self.range(it["range"])
            need(it["command"]["title"] and it["command"]["command"], "no command:", it)

    def hints(self, found):
        for it in found:
            self.position(it["position"])
            need(it["label"], "no hint:", it)

    def links(self, found):
        for it in found:
            self.range(it["range"])
            need(it["target"].startswith("file://"), "no link:", it)

    def calls(self, found):
        for it in found:
            self.symbols([it])

    def linked_calls(self, found):
        for it in found:
            self.symbols([it.get("from") or it["to"]])
            need(it["fromRanges"], "no ranges:", it)
            for place in it["fromRanges"]:
                self.range(place)

    def prepared(self, it):
        self.range(it["range"])
        need(it["placeholder"], "no placeholder:", it)

    def diagnostics(self, found):
        for it in found:
            self.range(it["range"])
            need(it["severity"] in (1, 2, 3, 4) and it["source"] == "lsl" and it["message"], "no diagnostic:", it)
            for place in it.get("relatedInformation", ()):
                self.range(place["location"]["range"])


RULES = {
    "textDocument/hover": "hover",
    "textDocument/completion": "completion",
    "textDocument/signatureHelp": "signature",
    "textDocument/definition": "locations",
    "textDocument/declaration": "locations",
    "textDocument/references": "locations",
    "textDocument/documentHighlight": "highlights",
    "textDocument/documentSymbol": "symbols",
    "textDocument/foldingRange": "folds",
    "textDocument/selectionRange": "selections",
    "textDocument/semanticTokens/full": "tokens",
    "textDocument/semanticTokens/range": "tokens",
    "textDocument/formatting": "edits",
    "textDocument/rangeFormatting": "edits",
    "textDocument/onTypeFormatting": "edits",
    "textDocument/prepareRename": "prepared",
    "textDocument/rename": "workspace_edit",
    "textDocument/codeAction": "actions",
    "textDocument/codeLens": "lenses",
    "textDocument/inlayHint": "hints",
    "textDocument/documentLink": "links",
    "textDocument/prepareCallHierarchy": "calls",
    "callHierarchy/incomingCalls": "linked_calls",
    "callHierarchy/outgoingCalls": "linked_calls",
}
# Those whose result may be null.
ARRAYS = {
    "textDocument/semanticTokens/full", "textDocument/semanticTokens/range", "textDocument/formatting",
    "textDocument/completion", "textDocument/codeAction", "textDocument/codeLens",
}  # fmt: skip


class Client:
    """A server that was started, and what it said. `with Client() as it` ends it as the protocol says."""

    def __init__(self, binary=None, root=None, capabilities=None):
        environment = {**os.environ, **({"LSL_PROGRAM": binary} if binary else {})}
        how = {"stdin": subprocess.PIPE, "stdout": subprocess.PIPE, "stderr": subprocess.PIPE, "env": environment}
        self.process = subprocess.Popen([sys.executable, in_top("tools", "lsl-server")], **how)
        self.came, self.texts, self.number = queue.Queue(), {}, 0
        # The slowest answer by the clock, and the one that took most of the processor.
        self.notices, self.slowest, self.most, self.asked = [], (0, ""), (0, ""), {}
        threading.Thread(target=self.read, daemon=True).start()
        threading.Thread(target=self.drain, daemon=True).start()
        self.said = b""
        snippets = {"textDocument": {"completion": {"completionItem": {"snippetSupport": True}}}}
        params = {"processId": os.getpid(), "rootUri": f"file://{root}" if root else None}
        self.capabilities = self.ask("initialize", {**params, "capabilities": capabilities or snippets})["capabilities"]
        self.notify("initialized", {})

    def read(self):
        while True:
            try:
                body = framing.read(self.process.stdout)
            except (framing.Cut, ValueError, OSError):
                body = None
            self.came.put(None if body is None else framing.parsed(body))
            if body is None:
                return

    def drain(self):
        for line in self.process.stderr:
            self.said += line

    def processor(self):
        """The seconds of the processor that the server's own thread has taken."""
        try:
            with open(f"/proc/{self.process.pid}/schedstat", encoding="ascii") as file:
                return int(file.read().split()[0]) / 1e9
        except OSError:
            return 0.0

    # Messages

    def write(self, message):
        self.write_bytes(framing.framed({"jsonrpc": "2.0", **message}))

    def write_bytes(self, piece):
        self.process.stdin.write(piece)
        self.process.stdin.flush()

    def notify(self, method, params):
        self.write({"method": method, "params": params})

    def send(self, method, params):
        """Sends a request. Its number."""
        self.number += 1
        self.asked[self.number] = method, params
        self.write({"id": self.number, "method": method, "params": params})
        return self.number

    def next(self, seconds=SECONDS):
        """The next message, which is looked at."""
        try:
            message = self.came.get(timeout=seconds)
        except queue.Empty:
            need(False, "the server said nothing for", seconds, "seconds")
        need(message is not None, "the server ended:", self.said.decode(errors="replace"))
        self.look_at(message)
        return message

    def look_at(self, message):
        need(message.get("jsonrpc") == "2.0", "no version:", message)
        if "id" not in message:
            need(message["method"] in NOTICES and isinstance(message["params"], dict), "no notice:", message)
            self.notices.append(message)
            if message["method"] == "textDocument/publishDiagnostics" and message["params"]["uri"] in self.texts:
                version, text = self.texts[message["params"]["uri"]]
                if message["params"].get("version") == version:
                    Rules(text).diagnostics(message["params"]["diagnostics"])
            return
        need(("result" in message) != ("error" in message), "no answer:", message)
        if "error" in message:
            error = message["error"]
            need(isinstance(error["code"], int) and isinstance(error["message"], str), "no error:", message)

    def ask(self, method, params):
        """The result of a request; an error as it is."""
        used, begun = self.processor(), time.monotonic()
        number = self.send(method, params)
        while True:
            message = self.next()
            if message.get("id") == number and "method" not in message:
                break
        if method != "initialize":
            self.slowest = max(self.slowest, (time.monotonic() - begun, method))
            self.most = max(self.most, (self.processor() - used, method))
        if "error" in message:
            return message["error"]
        self.check_result(method, params, message["result"])
        return message["result"]

    def check_result(self, method, params, result):
        if result is None or method not in RULES:
            need(method not in ARRAYS, method, "is answered by null")
            return
        holder = params.get("textDocument") or params.get("item")
        _, text = self.texts[holder["uri"]]
        if method == "textDocument/definition" and result and result["uri"] not in self.texts:
            return
        getattr(Rules(text), RULES[method])(result)

    # Documents

    def open(self, uri, text, language="lsl"):
        self.texts[uri] = 1, text
        item = {"uri": uri, "languageId": language, "version": 1, "text": text}
        self.notify("textDocument/didOpen", {"textDocument": item})

    def change(self, uri, text):
        """Changes a document to a whole new text."""
        version = self.texts[uri][0] + 1
        self.texts[uri] = version, text
        document = {"uri": uri, "version": version}
        self.notify("textDocument/didChange", {"textDocument": document, "contentChanges": [{"text": text}]})

    def close(self, uri):
        self.texts.pop(uri, None)
        self.notify("textDocument/didClose", {"textDocument": {"uri": uri}})

    def at(self, method, uri, line, character, **more):
        """The result of a request at a position."""
        position = {"line": line, "character": character}
        return self.ask(f"textDocument/{method}", {"textDocument": {"uri": uri}, "position": position, **more})

    def of(self, method, uri, **more):
        return self.ask(f"textDocument/{method}", {"textDocument": {"uri": uri}, **more})

    def diagnostics(self, uri):
        """What is wrong with a document as it is, once the server has said it."""
        while True:
            for it in self.notices:
                is_of = it["method"] == "textDocument/publishDiagnostics" and it["params"]["uri"] == uri
                if is_of and it["params"].get("version") == self.texts[uri][0]:
                    return it["params"]["diagnostics"]
            self.next()

    def __enter__(self):
        return self

    def __exit__(self, *error):
        if error[0] is None:
            need(self.ask("shutdown", None) is None, "shutdown has a result")
            self.notify("exit", None)
        else:
            self.process.kill()
        self.process.wait(SECONDS)
        for stream in (self.process.stdin, self.process.stdout):
            stream.close()
        if error[0] is None:
            need(self.process.returncode == 0, "the server ended with", self.process.returncode)
