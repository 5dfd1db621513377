"""Asks the language server about broken and cut scripts, and sends it wrong and cut messages."""
import random

from . import random_scripts
from .checking import need
from .server import framing
from .server_client import Client

URI, WORLD = "file:///fuzz/a.lsl", "file:///fuzz/a.world"
AT = (
    "hover", "completion", "signatureHelp", "definition", "documentHighlight", "prepareRename", "prepareCallHierarchy",
)  # fmt: skip
OF = ("documentSymbol", "foldingRange", "semanticTokens/full", "codeLens", "documentLink")
OPTIONS = {"options": {"tabSize": 4, "insertSpaces": True}}
START = (
    'object 00000000-0000-0000-0000-0000000000d0 "Box" 00000000-0000-0000-0000-00000000000f "North"\n'
    'prim 00000000-0000-0000-0000-00000000001a "Lid"\nscript "a" "a.lsl"\nnote "n" "n.txt"\nbegin\n# steps\nrun 10\n'
    'touch 1 2 00000000-0000-0000-0000-0000000000aa "Ann"\nclock 2000\nsay 5 "Ann" '
    '00000000-0000-0000-0000-0000000000aa "open"\ngo 1 5\npause 2 3\ncross 1 "South"\nend\n'
)
# Messages that aren't in their form.
WRONG = (
    b"[1, 2]", b"null", b"{", b"\xff\xfe", b'"x"', b"{}", b'{"method": 7}', b'{"id": {}, "method": "a"}', b"[" * 5000,
    b'{"jsonrpc": "2.0", "id": 90001, "method": "textDocument/hover"}',
    b'{"jsonrpc": "2.0", "id": 90002, "method": "textDocument/hover", "params": {"textDocument": 3}}',
    b'{"id": 90003, "method": "textDocument/hover", "params": {"textDocument": {"uri": "file:///fuzz/a.lsl"}}}',
    b'{"id": 90004, "method": "textDocument/hover", "params": {"textDocument": {"uri": "file:///fuzz/a.lsl"}, '
    b'"position": {"line": "a"}}}',
    b'{"jsonrpc": "2.0", "id": 90005, "method": "nothing/here", "params": {}}',
    b'{"method": "textDocument/didChange", "params": {"textDocument": {"uri": "file:///fuzz/a.lsl"}}}',
    b'{"jsonrpc": "2.0", "method": "textDocument/didOpen", "params": []}',
    b'{"jsonrpc": "2.0", "method": "$/cancelRequest", "params": {"id": 123456}}',
    b'{"jsonrpc": "2.0", "method": "workspace/didChangeConfiguration", "params": null}',
    b'{"jsonrpc": "2.0", "id": "text", "method": "workspace/executeCommand", "params": {"command": "rm"}}',
)  # fmt: skip
STRAY = (b"", b"nonsense\r\n", b"\r\n\r\n", b"Content-Type: x\r\n", b"Content-Length: -5\r\n", b"content-length: x\r\n")


class Fuzz:
    def __init__(self, seed, scripts):
        self.random, self.scripts = random.Random(seed), scripts

    def text(self, number):
        """A script that was broken; now and then one of the examples."""
        text = self.random.choice(self.scripts) if self.random.random() < 0.5 else random_scripts.script(number)
        return random_scripts.broken(text, number)

    def position(self, text):
        lines = text.split("\n")
        line = self.random.randrange(len(lines) + 1)
        width = len(lines[line]) if line < len(lines) else 0
        return {"line": line, "character": self.random.randrange(width + 3)}

    def ask(self, client, uri, text):
        """Some requests about a document."""
        for name in self.random.sample(AT, 3):
            client.ask(f"textDocument/{name}", {"textDocument": {"uri": uri}, "position": self.position(text)})
        client.of(self.random.choice(OF), uri)
        start, end = sorted((self.position(text) for _ in range(2)), key=lambda it: (it["line"], it["character"]))
        part = {"range": {"start": start, "end": end}}
        choice = self.random.randrange(8)
        if choice == 0:
            client.of("formatting", uri, **OPTIONS)
        elif choice == 1:
            client.of("rangeFormatting", uri, **OPTIONS, **part)
        elif choice == 2:
            client.of("selectionRange", uri, positions=[start, end])
        elif choice == 3:
            client.of("rename", uri, position=start, newName=self.random.choice(("z", "count", "llSay", "1")))
        elif choice == 4:
            client.of("references", uri, position=start, context={"includeDeclaration": True})
        elif choice == 5:
            client.of("semanticTokens/range", uri, **part)
        elif choice == 6:
            client.of("inlayHint", uri, **part)
        else:
            client.of("codeAction", uri, context={"diagnostics": []}, **part)

    def edit(self, client, uri):
        """Changes a part of a document, as a key does. The whole text then."""
        version, text = client.texts[uri]
        lines = text.split("\n")
        line = self.random.randrange(len(lines))
        first, last = sorted(self.random.randrange(len(lines[line]) + 1) for _ in range(2))
        new = self.random.choice(("x", "", " ", "{", "}", ";", "llSay(", "\n", '"', "é"))
        lines[line] = lines[line][:first] + new + lines[line][last:]
        row = text.split("\n")[line]
        units = [len(it.encode("utf-16-le", "surrogatepass")) // 2 for it in (row[:first], row[:last])]
        place = {"start": {"line": line, "character": units[0]}, "end": {"line": line, "character": units[1]}}
        client.texts[uri] = version + 1, "\n".join(lines)
        changes = [{"range": place, "text": new}]
        document = {"uri": uri, "version": version + 1}
        client.notify("textDocument/didChange", {"textDocument": document, "contentChanges": changes})
        return client.texts[uri][1]

    def disturb(self, client):
        """Sends something that is wrong, and a request that is answered all the same."""
        if self.random.random() < 0.5:
            client.write_bytes(self.random.choice(STRAY) + framing.framed({"jsonrpc": "2.0", "method": "x"}))
        body = self.random.choice(WRONG)
        body = body[: self.random.randrange(len(body) + 1)] if self.random.random() < 0.3 else body
        client.write_bytes(b"Content-Length: %d\r\n\r\n" % len(body) + body)

    def cancel(self, client, uri):
        """Cancels a request, which is answered or dropped, and once."""
        number = client.send("textDocument/foldingRange", {"textDocument": {"uri": uri}})
        client.notify("$/cancelRequest", {"id": number})

    def run(self, client, count):
        client.open(URI, "")
        client.open(WORLD, "", "lsl-world")
        for number in range(count):
            is_world = number % 10 == 9
            uri = WORLD if is_world else URI
            text = random_scripts.broken(START, number) if is_world else self.text(number)
            client.change(uri, text)
            self.ask(client, uri, text)
            if number % 3 == 0:
                self.ask(client, uri, self.edit(client, uri))
            if number % 5 == 0:
                self.disturb(client)
            if number % 7 == 0:
                self.cancel(client, uri)


def run(binary, scripts, count, seed=1):
    """The slowest answer, and the one that took most of the processor: seconds and methods."""
    with Client(binary) as client:
        Fuzz(seed, scripts).run(client, count)
        slowest = client.slowest, client.most
        need(client.ask("textDocument/hover", {}).get("code") == -32602, "it answers no more")
    said = client.said.decode(errors="replace")
    need("Traceback" not in said, said)
    faults = [it for it in said.splitlines() if "isn't in its form" not in it]
    need(not faults, "the server said", "\n".join(faults[:5]))
    return slowest


def cut_streams(count, seed=1):
    """Sends sessions that are cut at any byte: the server ends, by itself and without a trace."""
    chance = random.Random(seed)
    for _ in range(count):
        client = Client()
        whole = framing.framed({"jsonrpc": "2.0", "id": 7, "method": "shutdown", "params": None})
        client.write_bytes(whole[: chance.randrange(len(whole))])
        client.process.stdin.close()
        need(client.process.wait(20) == 1, "the server ended with", client.process.returncode)
        need(b"Traceback" not in client.said, client.said)
        client.process.stdout.close()
