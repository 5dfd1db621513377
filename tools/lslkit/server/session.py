"""A session with a client: its messages in their order, until it ends."""
import os
import queue
import sys
import threading

from .. import about
from . import errors, features, framing, lenses, mending
from .diagnosing import Diagnosing
from .documents import Documents, path_of
from .errors import Refused, Wrong

MODULE_SYMBOLS = 200


class Session:
    def __init__(self, source, sink):
        self.source, self.sink = source, sink
        self.writing = threading.Lock()
        self.waiting = queue.Queue()
        # Requests that were read and not yet answered, and those of them that were cancelled.
        self.asked, self.cancelled = set(), set()
        self.documents, self.diagnosed = Documents(), {}
        self.diagnosing = Diagnosing(lambda reply: self.waiting.put(("diagnosed", reply)))
        self.root, self.has_snippets, self.can_show = None, False, False
        self.state, self.has_warned = "new", False

    # The client's messages

    def read(self):
        """Reads messages in a thread of its own, so that a request can be cancelled before its turn."""
        while True:
            try:
                body = framing.read(self.source)
            except (framing.Cut, OSError, ValueError):
                body = None
            if body is None:
                self.waiting.put(("end", None))
                return
            try:
                message = framing.parsed(body)
            except ValueError:
                message = None
            self.note(message)
            self.waiting.put(("message", message))

    def note(self, message):
        """Keeps which requests there are, and which of them were cancelled."""
        if not isinstance(message, dict):
            return
        if message.get("method") == "$/cancelRequest":
            number = (message.get("params") or {}).get("id") if isinstance(message.get("params"), dict) else None
            if isinstance(number, (int, str)) and number in self.asked:
                self.cancelled.add(number)
        elif "method" in message and isinstance(message.get("id"), (int, str)):
            self.asked.add(message["id"])

    def run(self):
        """Answers until the client ends the session. The status."""
        threading.Thread(target=self.read, daemon=True).start()
        try:
            while self.state != "ended":
                self.step()
        finally:
            self.diagnosing.ended()
        return self.status

    status = 1

    def step(self):
        try:
            sort, what = self.waiting.get(timeout=self.diagnosing.seconds())
        except queue.Empty:
            self.diagnose()
            return
        if sort == "end":
            self.state = "ended"
        elif sort == "diagnosed":
            self.take_diagnosed(what)
        elif sort == "reply":
            self.reply(*what)
        else:
            self.message(what)

    def diagnose(self):
        """Gives the worker the next document."""
        uri = self.diagnosing.next()
        document = self.documents.get(uri) if uri else None
        if document:
            self.diagnosing.give(document, self.folder_of(document))

    def message(self, message):
        if message is None:
            self.fail(None, errors.PARSE, "the message isn't JSON")
        elif not isinstance(message, dict):
            self.fail(None, errors.INVALID_REQUEST, "the message is no object")
        elif not isinstance(message.get("method"), str):
            # An answer to a request of this server needs nothing; anything else is wrong.
            if "result" not in message and "error" not in message:
                self.fail(message.get("id"), errors.INVALID_REQUEST, "the message has no method")
        elif "id" in message:
            self.request(message["id"], message["method"], message.get("params"))
        else:
            self.notification(message["method"], message.get("params"))

    def request(self, number, method, params):
        if not isinstance(number, (int, str)):
            self.fail(None, errors.INVALID_REQUEST, "a request's id is a number or a text")
        elif number in self.cancelled:
            self.fail(number, errors.CANCELLED, "cancelled")
        elif self.state == "new" and method != "initialize":
            self.fail(number, errors.NOT_INITIALIZED, "the session isn't initialized")
        elif self.state == "shut" or method == "initialize" and self.state != "new":
            self.fail(number, errors.INVALID_REQUEST, f"{method} comes too late")
        else:
            self.answer(number, method, params)

    def answer(self, number, method, params):
        try:
            result = self.result_of(number, method, params)
        except Refused as error:
            self.fail(number, errors.FAILED, str(error))
        except Wrong as error:
            self.fail(number, errors.INVALID_PARAMS, str(error))
        except (KeyError, TypeError, AttributeError) as error:
            # What a client may send has no end. Where it was well formed, this is a fault of ours.
            self.fail(number, errors.INVALID_PARAMS, f"{method} isn't in its form: {type(error).__name__} {error}")
        except Exception as error:  # pylint: disable=broad-except
            self.log(f"{method}: {type(error).__name__} {error}")
            self.fail(number, errors.INTERNAL, f"{method} can't be answered: {type(error).__name__}")
        else:
            if result is not LATER:
                self.reply(number, result)

    def result_of(self, number, method, params):
        if method == "initialize":
            return self.initialize(params)
        if method == "shutdown":
            self.state = "shut"
            return None
        if method == "workspace/executeCommand":
            return self.execute(number, params)
        if method == "workspace/symbol":
            return self.symbols(params)
        if method not in features.METHODS:
            self.fail(number, errors.NO_METHOD, f"there is no {method}")
            return LATER
        document = self.document_of(params)
        if method == "textDocument/codeAction":
            return mending.actions(document, params, self.diagnosed_of(document))
        return features.answer(method, document, params, self.has_snippets)

    def document_of(self, params):
        if not isinstance(params, dict):
            raise Wrong("the parameters are no object")
        holder = params.get("textDocument") or params.get("item") or {}
        uri = holder.get("uri") if isinstance(holder, dict) else None
        document = self.documents.get(uri) if isinstance(uri, str) else None
        if document is None:
            raise Wrong(f"no document {uri!r} is open")
        document.folder = self.folder_of(document)
        return document

    def initialize(self, params):
        params = params if isinstance(params, dict) else {}
        capabilities = params.get("capabilities") or {}
        completion = capabilities.get("textDocument", {}).get("completion", {}).get("completionItem", {})
        self.has_snippets = completion.get("snippetSupport") is True
        folders = params.get("workspaceFolders") or [{"uri": params.get("rootUri")}]
        root = folders[0].get("uri")
        self.root = path_of(root) if isinstance(root, str) else None
        self.state = "running"
        server = {"name": "lsl-server", "version": about.version()}
        return {"capabilities": features.CAPABILITIES, "serverInfo": server}

    def notification(self, method, params):
        if method == "exit":
            self.status = 0 if self.state == "shut" else 1
            self.state = "ended"
            return
        if self.state != "running":
            return
        try:
            self.notice(method, params)
        except Exception as error:  # pylint: disable=broad-except
            self.log(f"{method} isn't in its form: {type(error).__name__} {error}")

    def notice(self, method, params):
        if method == "textDocument/didOpen":
            document = self.documents.add(params["textDocument"])
            self.diagnosing.want(document.uri, 0)
            if not document.is_world:
                # The whole text is read once, before the first question.
                bool(document.script.own)
        elif method == "textDocument/didChange":
            document = self.documents.change(params["textDocument"], params["contentChanges"])
            if document:
                self.diagnosing.want(document.uri)
        elif method == "textDocument/didSave":
            # What is in a script's file matters to the worlds that name it.
            for uri, document in self.documents.open.items():
                if document.is_world:
                    self.diagnosing.want(uri)
        elif method == "textDocument/didClose":
            uri = params["textDocument"]["uri"]
            self.documents.remove(uri)
            self.diagnosing.forget(uri)
            self.diagnosed.pop(uri, None)
            self.send("textDocument/publishDiagnostics", {"uri": uri, "diagnostics": []})

    def folder_of(self, document):
        """The folder from which a world's files are read: that of the workspace, or the document's."""
        path = document.path
        folder = self.root or (os.path.dirname(path) if path else None)
        return folder if folder and os.path.isdir(folder) else os.getcwd()

    # What is wrong with documents

    def take_diagnosed(self, told):
        reply = self.diagnosing.take(told)
        if reply is None:
            return
        if reply["why"] and not self.has_warned:
            self.has_warned = True
            words = f"Scripts aren't checked: {reply['why']}"
            self.send("window/showMessage", {"type": 2, "message": words})
        document = self.documents.get(reply["uri"])
        if document is None or document.version != reply["version"]:
            return
        self.diagnosed[document.uri] = document, reply["found"]
        found = [mending.as_message(document, it) for it in reply["found"]]
        made = {"uri": document.uri, "diagnostics": found}
        if isinstance(document.version, int):
            made["version"] = document.version
        self.send("textDocument/publishDiagnostics", made)

    def diagnosed_of(self, document):
        """What was found in a document as it is now."""
        known, found = self.diagnosed.get(document.uri, (None, []))
        return found if known is document else []

    # The workspace

    def execute(self, number, params):
        command = params.get("command") if isinstance(params, dict) else None
        if command not in (lenses.PLAY, lenses.DEBUG):
            raise Wrong(f"the commands are {lenses.PLAY} and {lenses.DEBUG}")
        uri, *words = params.get("arguments") or [None]
        document = self.document_of({"textDocument": {"uri": uri}})
        if command == lenses.DEBUG:
            said = lenses.debug(document, [it for it in (words or [[]])[0] if isinstance(it, str)])
            self.send("window/showMessage", {"type": 3, "message": f"In a terminal: {said}"})
            return said

        def played():
            said = lenses.play(document, document.folder)
            self.send("window/showMessage", {"type": 3, "message": said})
            self.waiting.put(("reply", (number, said)))

        threading.Thread(target=played, daemon=True).start()
        return LATER

    def symbols(self, params):
        """The symbols of all open documents that have the asked letters."""
        wanted, found = params["query"].lower(), []
        for uri, document in self.documents.open.items():
            for it in features.answer("textDocument/documentSymbol", document, {}, False):
                for part in (it, *it.get("children", ())):
                    if wanted in part["name"].lower():
                        place = {"uri": uri, "range": part["selectionRange"]}
                        container = {} if part is it else {"containerName": it["name"]}
                        found.append({"name": part["name"], "kind": part["kind"], "location": place, **container})
        return found[:MODULE_SYMBOLS]

    # The server's messages

    def write(self, message):
        with self.writing:
            try:
                self.sink.write(framing.framed({"jsonrpc": "2.0", **message}))
                self.sink.flush()
            except (OSError, ValueError):
                self.state = "ended"

    def reply(self, number, result):
        self.answered(number)
        self.write({"id": number, "result": result})

    def fail(self, number, code, words):
        self.answered(number)
        self.write({"id": number, "error": {"code": code, "message": words}})

    def answered(self, number):
        if isinstance(number, (int, str)):
            self.asked.discard(number)
            self.cancelled.discard(number)

    def send(self, method, params):
        self.write({"method": method, "params": params})

    @staticmethod
    def log(words):
        print(f"lsl-server: {words}", file=sys.stderr, flush=True)


# What a request gives whose answer comes later.
LATER = object()
