"""The checks of the language server, and of the words that it shares with the page."""
import ast
import glob
import io
import os
import re
import signal
import tempfile
import time

from . import diagnostics, making, places, server_fuzz, tables, words
from .checking import check, need
from .server import framing, mending
from .server.documents import Document
from .server.session import Session
from .server_client import Client, Rules

TABLES = {"calls": tables.calls, "events": tables.events, "constants": tables.constants}
URI = "file:///trial/a.lsl"
# A script with a mark where the cursor is, the request, and a part of what it is answered.
ANSWERS = (
    ("default { timer() { llOwner|Say(1); } }", "hover", "llOwnerSay(string msg)"),
    ("default { ti|mer() { } }", "hover", "The period that llSetTimerEvent set has passed."),
    ("default { timer() { integer x = TR|UE; } }", "hover", "integer TRUE = 1"),
    ("default { timer() { llOwnerSay(NULL_|KEY); } }", "hover", "It is charged 52."),
    ("default { timer() { ll|Sin(1); } }", "hover", "LSL has the call `llSin`"),
    ("default { timer() { llOwnerSay(\"é|x\"); } }", "hover", "2 characters, 3 bytes. It is charged 19."),
    ("default { timer() { x = 0x1|F; } }", "hover", "`31`, `0x1F`"),
    ("list l = |[1, \"ab\", NULL_KEY]; default { timer() { } }", "hover", "It is charged 118."),
    ("// Counts.\ninteger c|ount = 1; default { timer() { count = 2;\n++count; } }", "hover", "Counts."),
    ("integer c|ount = 1; default { timer() { count = 2;\n++count; } }", "hover", "Set in lines 1, 2."),
    ("// Twice n.\ninteger f(integer n) { return n * 2; } default { timer() { |f(1); } }", "hover", "Twice n."),
    ("default { timer() { string s; { integer s; |s = 1; } } }", "hover", "integer s"),
    ("default { timer() { state o|pen; } } state open { timer() { } }", "hover", "state open"),
    ("integer a; integer f(integer n) { llO| } default { timer() { } }", "completion", "'label': 'llOwnerSay'"),
    ("integer a; f(integer n) { | } default { timer() { } }", "completion", "'label': 'n'"),
    ("integer a; f(integer n) { | } default { timer() { } }", "completion", "'label': 'a'"),
    ("default { | }", "completion", "touch_start(integer num_detected) {\\n\\t$0\\n}"),
    ("default { timer() { state | } } state open { timer() { } }", "completion", "'label': 'open'"),
    ("default { timer() { jump o|; @out; } }", "completion", "'label': 'out'"),
    ("default { timer() { llSay(1, |) } }", "signatureHelp", "'activeParameter': 1"),
    ("default { timer() { llSay(f(1, 2), [1, 2, |]) } }", "signatureHelp", "llSay(integer channel, string msg)"),
    ("f(integer a, key b) { } default { timer() { f(|) } }", "signatureHelp", "f(integer a, key b)"),
    ("integer a; default { timer() { |a = 1; } }", "definition", "'character': 8}"),
    ("default { timer() { { jump x|; } @x; } }", "definition", "'character': 34}"),
    ("integer a; default { timer() { integer a = |a; } }", "definition", "'character': 8}"),
    ("default {\n    timer() {\n        ;\n  }|\n}", "onTypeFormatting", "'newText': '    '"),
    ("f() {\n    if (1) {\n        ;\n            }|\n}", "onTypeFormatting", "'newText': '    '"),
)
# A script with the cursor, a new name, and the script afterwards, or why it isn't renamed.
RENAMES = (
    ("integer |a; default { timer() { a = a + 1; } }", "b", "integer b; default { timer() { b = b + 1; } }"),
    ("f() { } default { timer() { integer f; |f(); f = 1; } }", "g",
     "g() { } default { timer() { integer f; g(); f = 1; } }"),
    ("default { timer() { @x; { @x; jump |x; } jump x; } }", "y", "default { timer() { @x; { @y; jump y; } jump x; } }"),
    ("default { timer() { state |b; } } state b { timer() { } }", "timer",
     "default { timer() { state timer; } } state timer { timer() { } }"),
    ("integer |a; default { timer() { integer b; a = b; } }", "b", "b would mean something else"),
    ("integer |a; integer b; default { timer() { a = b; } }", "b", "b is taken there already"),
    ("integer |a; default { timer() { } }", "llSay", "llSay is a call of the language"),
    ("integer |a; default { timer() { } }", "if", "if is a word of the language"),
    ("integer |a; default { timer() { } }", "1a", "'1a' is no name"),
    ("default { timer() { ll|Say(0, \"\"); } }", "x", "llSay is a call of the language, and keeps its name"),
    ("|default { timer() { } }", "x", "the state default keeps its name"),
    ("integer |a; default { timer() { a = ; } }", "b", "mend the script's syntax first"),
)  # fmt: skip


def binary():
    return os.environ.get("LSL_PROGRAM") or making.last_program()


def texts(*pattern):
    """The texts of files, by their names."""
    names = sorted(glob.glob(places.in_top(*pattern), recursive=True))
    found = {}
    for name in names:
        with open(name, encoding="utf-8", errors="replace", newline="") as file:
            found[name] = file.read()
    return found


def marked(text):
    """A text without the mark of the cursor, and its position."""
    before, _, after = text.partition("|")
    line = before.count("\n")
    return before + after, line, len(before.rpartition("\n")[2].encode("utf-16-le")) // 2


# Words


@check
def words_fit_the_tables():
    for name, rows in TABLES.items():
        said = words.table(name)
        need(list(said) == list(rows()), name, "has words for other names:", set(said) ^ set(rows()))
        for word, row in rows().items():
            entry = said[word]
            need(entry["does"].endswith(".") and "\n" not in entry["does"], word, "has no plain line")
            wanted = {"does", "params"} if name != "constants" else {"does"}
            need(set(entry) == wanted, word, "has the fields", set(entry))
            need(len(entry.get("params", ())) == len(getattr(row, "params", ())), word, "has other parameters")
            need(len(set(entry.get("params", ()))) == len(entry.get("params", ())), word, "has a parameter twice")


# The server


@check
def the_server_answers():
    with Client(binary()) as client:
        client.open(URI, "")
        for text, method, wanted in ANSWERS:
            plain, line, character = marked(text)
            client.change(URI, plain)
            answer = client.at(method, URI, line, character)
            need(wanted in str(answer), method, "of", text, "is", answer)
        for text, new, wanted in RENAMES:
            plain, line, character = marked(text)
            client.change(URI, plain)
            answer = client.at("rename", URI, line, character, newName=new)
            said = answer["message"] if "message" in answer else edited(plain, answer["changes"][URI])
            need(wanted in said, "the rename of", text, "is", said)


def edited(text, edits):
    """A text of one line with edits made."""
    for it in sorted(edits, key=lambda it: -it["range"]["start"]["character"]):
        start, end = (it["range"][key]["character"] for key in ("start", "end"))
        text = text[:start] + it["newText"] + text[end:]
    return text


@check
def what_fits_nowhere_is_not_completed():
    with Client(binary()) as client:
        client.open(URI, "")
        in_text = 'default { timer() { llSay(0, "ll|"); } }'
        for text in (in_text, "// ll|\ndefault { timer() { } }", "/* | */", "integer |"):
            plain, line, character = marked(text)
            client.change(URI, plain)
            found = client.at("completion", URI, line, character)["items"]
            need(not found, text, "is completed by", found[:3])
        plain, line, character = marked("default { timer() { integer a; } touch(integer b) { | } }")
        client.change(URI, plain)
        labels = [it["label"] for it in client.at("completion", URI, line, character)["items"]]
        need("a" not in labels and "b" in labels and "timer" not in labels, "completed by", labels)


@check
def every_answer_keeps_the_protocol():
    with Client(binary(), places.TOP) as client:
        for name, text in {**texts("examples", "**", "*.lsl"), **texts("examples", "**", "*.world")}.items():
            uri = f"file://{name}"
            client.open(uri, text, "lsl-world" if name.endswith(".world") else "lsl")
            for line, row in enumerate(text.split("\n")):
                for character in range(0, len(row), 7):
                    for method in server_fuzz.AT[:5]:
                        client.at(method, uri, line, character)
            for method in server_fuzz.OF:
                client.of(method, uri)
            client.of("formatting", uri, options={"tabSize": 4, "insertSpaces": True})
            client.close(uri)


@check
def faults_are_published():
    with Client(binary(), places.TOP) as client:
        for name, text in texts("examples", "bad", "*.lsl").items():
            said = places.text_of(os.path.splitext(name)[0] + ".out")
            line, fault = re.match(r"[^:]+:(\d+):", said)[1], re.search(r"\(fault (\d+)\)", said)[1]
            uri = f"file://{name}"
            client.open(uri, text)
            found = client.diagnostics(uri)
            codes = [(it["range"]["start"]["line"] + 1, it["code"]) for it in found]
            need((int(line), fault) in codes, name, "has", codes, "and not", line, fault)
            client.close(uri)
        for name, text in texts("examples", "*", "*.world").items():
            uri = f"file://{name}"
            client.open(uri, text, "lsl-world")
            need(client.diagnostics(uri) == [], name, "has", client.diagnostics(uri))
            client.open(uri, text.replace("run ", "ran ", 1), "lsl-world")
            client.close(uri)


# A script with a fault, and what it is after the fix.
FIXED = (
    ('default { timer() { llSya(0, ""); } }', 'default { timer() { llSay(0, ""); } }'),
    ("default { timre() { } }", "default { timer() { } }"),
    ("default { timer() { llOwnerSay(1); } }", "default { timer() { llOwnerSay((string)1); } }"),
    ("default { timer() { llOwnerSay(f(1, 2)); } } ", None),
    ("integer n; default { timer() { llOwnerSay(n + 1); } }",
     "integer n; default { timer() { llOwnerSay((string)(n + 1)); } }"),
    ("integer f(integer n) { return n; } default { timer() { llOwnerSay(f(1)); } }",
     "integer f(integer n) { return n; } default { timer() { llOwnerSay((string)f(1)); } }"),
)  # fmt: skip


@check
def faults_are_fixed():
    with Client(binary()) as client:
        client.open(URI, "")
        for text, wanted in FIXED:
            client.change(URI, text)
            client.diagnostics(URI)
            whole = {"start": {"line": 0, "character": 0}, "end": {"line": 0, "character": len(text)}}
            made = client.of("codeAction", URI, range=whole, context={"diagnostics": []})
            fixed = [edited(text, it["edit"]["changes"][URI]) for it in made]
            need(fixed == ([wanted] if wanted else []), text, "is fixed as", fixed)
            if wanted:
                client.change(URI, wanted)
                need(not [it for it in client.diagnostics(URI) if it["severity"] == 1], wanted, "has a fault")


@check
def fixes_are_edits_of_the_text():
    text = 'default { timer() { llOwnerSay("é" + count); } }'
    document = Document(URI, "lsl", 1, text.encode())
    start = document.text.index(b"count")
    fix = diagnostics.Fix("Write (string)", [(start, start, b"(string)")])
    place = diagnostics.Related(0, 7, "here")
    found = diagnostics.Diagnostic("warning", "w", start, start + 5, "words", ["hint"], [place], [fix], False)
    rules, params = Rules(text), {"range": document.lines.range(start, start)}
    rules.diagnostics([mending.as_message(document, found)])
    made = mending.actions(document, params, [found])
    rules.actions(made)
    (edit,) = made[0]["edit"]["changes"][URI]
    column = text.index("count")
    need(edit["range"]["start"] == {"line": 0, "character": column} and edit["newText"] == "(string)", "made", edit)
    need(mending.actions(document, {"range": document.lines.range(0, 3)}, [found]) == [], "a fix is given elsewhere")
    only = {**params, "context": {"only": ["refactor"]}}
    need(mending.actions(document, only, [found]) == [], "a fix is given as something else")


@check
def worlds_name_their_files():
    name = places.in_top("examples", "door", "door.world")
    text, uri = places.text_of(name), f"file://{name}"
    with Client(binary(), places.TOP) as client:
        client.open(uri, text, "lsl-world")
        line = next(number for number, it in enumerate(text.split("\n")) if it.startswith("script"))
        goal = client.at("definition", uri, line, 20)
        need(goal["uri"].endswith("/examples/door/door.lsl"), "the definition is", goal)
        need(len(client.of("documentLink", uri)) == 3, "links", client.of("documentLink", uri))
        client.change(uri, text.replace("door.lsl", "none.lsl"))
        found = client.diagnostics(uri)
        need(len(found) == 1 and found[0]["range"]["start"]["line"] == line, "found", found)
        client.change(uri, text.replace("run 100", "run x").replace("clock 11000", "clack 1"))
        need(len(client.diagnostics(uri)) == text.count("run 100") + 1, "found", client.diagnostics(uri))


@check
def positions_count_units_of_utf_16():
    text = 'string s = "\U0001f600é"; string t = "\U0001f600"; default { timer() { t = s; } }'
    with Client(binary()) as client:
        client.open(URI, text)
        column = len(text[: text.index("t = \"")].encode("utf-16-le")) // 2
        found = client.at("documentHighlight", URI, 0, column)
        need(len(found) == 2 and found[0]["range"]["start"]["character"] == column, "found", found)
        changes = [{"range": {"start": {"line": 0, "character": 12}, "end": {"line": 0, "character": 14}}, "text": "x"}]
        document = {"uri": URI, "version": 2}
        client.texts[URI] = 2, text.replace("\U0001f600", "x", 1)
        client.notify("textDocument/didChange", {"textDocument": document, "contentChanges": changes})
        found = client.at("documentHighlight", URI, 0, column - 1)
        need(len(found) == 2 and found[0]["range"]["start"]["character"] == column - 1, "found", found)


@check
def changes_are_followed():
    """A document that is changed piece by piece is the one that is sent whole."""
    fuzz = server_fuzz.Fuzz(3, list(texts("examples", "door", "*.lsl").values()))
    with Client(binary()) as client:
        client.open(URI, fuzz.scripts[0])
        for number in range(60):
            text = fuzz.edit(client, URI)
            if number % 6 == 0:
                other = f"file:///trial/{number}.lsl"
                client.open(other, text)
                for method in ("documentSymbol", "semanticTokens/full", "foldingRange"):
                    need(client.of(method, URI) == client.of(method, other), method, "differs for", text)
                client.close(other)


@check
def sessions_begin_and_end():
    client = Client(binary())
    need(client.ask("initialize", {}).get("code") == -32600, "a second initialize is answered")
    client.open(URI, "default { timer() { } }")
    blocked = [client.send("textDocument/documentSymbol", {"textDocument": {"uri": URI}}) for _ in range(40)]
    client.notify("$/cancelRequest", {"id": blocked[-1]})
    answered = {}
    while len(answered) < len(blocked):
        message = client.next()
        if "id" in message:
            need(message["id"] not in answered, "a request is answered twice")
            answered[message["id"]] = message
    client.ask("shutdown", None)
    need(client.ask("textDocument/hover", {}).get("code") == -32600, "it answers after shutdown")
    client.notify("exit", None)
    need(client.process.wait(20) == 0, "the server ended with", client.process.returncode)
    ends = (lambda it: it.process.stdin.close(), 1), (lambda it: it.process.send_signal(signal.SIGINT), 130)
    for end, wanted in ends:
        client = Client(binary())
        client.open(URI, "default { timer() { } }")
        client.diagnostics(URI)
        end(client)
        need(client.process.wait(20) == wanted, "the server ended with", client.process.returncode)
        need(not children_of(client.process.pid), "a process is left")
        need(b"Traceback" not in client.said, client.said)


@check
def cancelled_requests_are_dropped():
    """All messages are there before the first is answered, as from a client that is quick."""
    asked = [("initialize", 1, {}), *(("textDocument/hover", it, {}) for it in (2, 3, 4)), ("shutdown", 5, None)]
    messages = [{"id": number, "method": method, "params": params} for method, number, params in asked]
    messages += [{"method": "$/cancelRequest", "params": {"id": it}} for it in (3, 4, 3, 99)] + [{"method": "exit"}]
    sink = io.BytesIO()
    session = Session(io.BytesIO(b"".join(framing.framed({"jsonrpc": "2.0", **it}) for it in messages)), sink)
    session.read()
    while session.state != "ended":
        session.step()
    sink.seek(0)
    answers = [framing.parsed(it) for it in iter(lambda: framing.read(sink), None)]
    codes = {it["id"]: it.get("error", {}).get("code") for it in answers}
    need(codes == {1: None, 2: -32602, 3: -32800, 4: -32800, 5: None} and len(answers) == 5, "answered", answers)
    need(not session.asked and not session.cancelled, "kept", session.asked, session.cancelled)


def children_of(number):
    found = []
    for name in glob.glob("/proc/[0-9]*/stat"):
        try:
            with open(name, encoding="utf-8", errors="replace") as file:
                row = file.read().rpartition(")")[2].split()
        except OSError:
            continue
        found += [name] if row[1] == str(number) else []
    return found


@check
def a_worker_that_is_late_gets_the_newest_text():
    """By a program that never answers about one text."""
    with tempfile.TemporaryDirectory() as room:
        name = os.path.join(room, "program")
        places.write_text(name, f"""#!/bin/sh\ngrep -q slow "$2" && exec sleep 600\nexec {binary()} "$@"\n""")
        os.chmod(name, 0o700)
        with Client(name) as client:
            client.open(URI, "default { slow() { } }")
            time.sleep(0.5)
            client.change(URI, "default { timer() { x; } }")
            need([it["code"] for it in client.diagnostics(URI)] == ["20"], "found", client.diagnostics(URI))


@check
def scripts_are_played_from_the_editor():
    with Client(binary(), places.TOP) as client:
        client.open(URI, 'default { state_entry() { llOwnerSay("é"); } }')
        lens = client.of("codeLens", URI)[0]["command"]
        said = client.ask("workspace/executeCommand", {"command": lens["command"], "arguments": lens["arguments"]})
        need('"é"' in said and "/tmp" not in said, "played as", said)
        name = places.in_top("examples", "counter", "counter.world")
        client.open(f"file://{name}", places.text_of(name), "lsl-world")
        lens = client.of("codeLens", f"file://{name}")[0]["command"]
        said = client.ask("workspace/executeCommand", {"command": lens["command"], "arguments": lens["arguments"]})
        need("touches" in said, "played as", said)


@check
def broken_scripts_and_messages_are_answered():
    server_fuzz.run(binary(), list(texts("examples", "**", "*.lsl").values()), int(os.environ.get("LSL_BROKEN", "60")))
    server_fuzz.cut_streams(2)


@check
def the_servers_modules_are_of_python_3_8():
    for name, text in {**texts("tools", "lslkit", "server", "*.py"), **texts("tools", "lsl-server")}.items():
        ast.parse(text, name, feature_version=(3, 8))
        need(text.count("\n") <= 500, name, "is too long")
