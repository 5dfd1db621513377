"""Tests of links and of names in a browser: bad ones change nothing, and hostile ones do nothing."""
import base64
import http.client
import json
import os
import subprocess
import threading
import zlib

from . import places, webserver
from .webpages import script
from .webtesting import need, test

GOOD = script('default { state_entry() { llOwnerSay("good"); } }')
BAD_STATUS = "document.getElementById('status').textContent.startsWith('the link is bad')"
HOSTILE = '"><img src=x onerror=window.bad=1><script>window.bad=1</script>'
MANY = 300


def packed(value):
    """A fragment with a value, whatever that is."""
    text = value if isinstance(value, bytes) else json.dumps(value).encode()
    made = zlib.compressobj(9, zlib.DEFLATED, -15)
    signs = base64.urlsafe_b64encode(made.compress(text) + made.flush()).decode()
    return "1." + signs.rstrip("=")


def changed(**parts):
    return packed({**GOOD, **parts})


BAD = {
    "unknown form": ("2.abc", "form"),
    "signs of no link": ("1.%%%%", "characters"),
    "cut in the middle": (packed(GOOD)[:40], "unpacked"),
    "no packing": ("1." + base64.urlsafe_b64encode(b"hello").decode().rstrip("="), "unpacked"),
    "no JSON": (packed(b"{files"), "form"),
    "a list": (packed([1, 2]), "no play"),
    "null": (packed(None), "no play"),
    "no files": (changed(files=[]), "no file"),
    "files that are a text": (changed(files="a"), "no list"),
    "a file without a text": (changed(files=[["a.lsl"]]), "no name with a text"),
    "two of a name": (changed(files=[["calc.lsl", "a"], ["calc.lsl", "b"]]), "two of its files"),
    "a file without a name": (changed(files=[["", "a"]], file=""), "has no name"),
    "a long name": (changed(files=[["a" * 300, "a"]], file="a" * 300), "longer than 255"),
    "too many files": (changed(files=[[f"{it}.lsl", ""] for it in range(20000)]), "20,000 files"),
    "no way to run": (changed(how="dance"), '"dance" is no way to run'),
    "a way of another sort": (changed(how={"a": 1}), "is no way to run"),
    "no file to run": (changed(file="other.lsl"), '"other.lsl"'),
    "steps that are a number": (changed(steps=5), "steps"),
    "too much": (packed({**GOOD, "files": [["calc.lsl", " " * 5000000]]}), "more than 4,000,000"),
}


@test
def bad_links_change_nothing(page):
    page.fresh()
    page.follow(GOOD)
    for name, (fragment, why) in BAD.items():
        page.value("(document.getElementById('status').textContent = '', true)")
        page.value(f"(location.hash = {json.dumps(fragment)}, true)")
        page.tab.until(BAD_STATUS)
        need(why in page.status, name, "is answered by", page.status)
        need(page.source == GOOD["files"][0][1] and page.tabs == ["calc.lsl"], name, "changed the files to", page.tabs)
    need(not page.tab.said, "the page says", page.tab.said)
    return f"{len(BAD)} kinds of bad links"


@test
def bad_links_keep_what_was_kept(page):
    page.fresh()
    page.edit("// mine\n")
    page.tab.until("(localStorage['dishhollow.play'] ?? '').includes('mine')")
    page.open(changed(how="dance"), ready=BAD_STATUS)
    need(page.source == "// mine\n", "the files are", page.source)
    return "a bad link at the start"


@test
def good_links_are_followed_and_can_be_taken_back(page):
    page.fresh()
    page.edit("// mine\n")
    page.follow(GOOD)
    need(page.status == "finished" and "good" in page.text("output"), "it says", page.status)
    page.tab.click("#undo-button")
    need(page.source == "// mine\n", "after Undo there is", page.source)
    return "a link, and Undo"


@test
def hostile_names_and_texts_do_nothing(page):
    page.fresh()
    text = f"default {{ state_entry() {{ llSay(0, {json.dumps(HOSTILE)}); integer a = 1 / 0; }} }}"
    page.follow(script(text, name=HOSTILE.replace("/", "|") + ".lsl"))
    for view in ("told", "journal", "timeline"):
        page.tab.click(f"#view-{view}")
    need(page.value("window.bad") is None, "the page was changed")
    need(page.value("document.getElementById('timeline').contentWindow.bad") is None, "the frame was changed")
    need("onerror" in page.text("output"), "the output has", page.text("output"))
    need(not page.tab.said, "the page says", page.tab.said)
    return "a hostile name and a hostile text"


@test
def nothing_is_asked_of_another_origin(page):
    page.fresh()
    page.tab.requests.clear()
    page.example("ferry")
    said = page.value("""fetch("http://127.0.0.2:9/x").then(() => "loaded", it => "refused")""")
    need(said == "refused", "a request to another origin was", said)
    own = [it for it in page.tab.requests if not it.startswith((page.url, "data:", "blob:", "about:"))]
    need(not [it for it in own if not it.startswith("http://127.0.0.2:9/")], "the page asks for", own)
    made = """(() => { const it = document.createElement("script"); it.textContent = "window.bad = 1";
      document.body.append(it); return window.bad ?? "refused"; })()"""
    need(page.value(made) == "refused", "a script in the page ran")
    return "the page's policy holds"


def answered(port, path, host):
    asked = http.client.HTTPConnection(webserver.HOST, port)
    asked.request("GET", path, headers={"Host": host})
    answer = asked.getresponse()
    answer.read()
    return answer.status, answer.headers


def serving(port):
    """What `tools/page serve` says at a port that it can't take."""
    words = [places.in_top("tools", "page"), "serve", str(port)]
    done = subprocess.run(words, stdout=subprocess.PIPE, stderr=subprocess.PIPE, cwd=os.sep, check=False)
    return done.returncode, done.stderr.decode().splitlines()[-1]


@test
def serving_is_for_this_machine_alone():
    with webserver.opened(0) as server:
        port = server.server_port
        threading.Thread(target=server.serve_forever, daemon=True).start()
        own = f"localhost:{port}"
        status, headers = answered(port, "/", own)
        need(status == 200 and headers["Content-Security-Policy"] == webserver.policy(), "the page is", status, headers)
        for path, host, wanted in (("/%00", own, 404), ("/../../etc/passwd", own, 404), ("/", "evil.example", 403)):
            status, _ = answered(port, path, host)
            need(status == wanted, path, "of", host, "is", status)
        said = serving(port)
        server.shutdown()
    need(said == (125, f"page: port {port} can't be taken: Address already in use; name another one"), "it says", said)
    said = serving(99999)
    need(said == (125, "page: a port is a number from 0 to 65535, and not 99999"), "it says", said)
    return "three requests, and two ports"


@test
def many_files_and_lines_do_not_block(page):
    page.fresh()
    files = [[f"{it}.lsl", "default { timer() { } }"] for it in range(MANY)]
    page.follow({"files": files, "how": "check", "file": "7.lsl", "steps": ""})
    need(page.status == "accepted: 7.lsl", "it says", page.status)
    loop = 'integer n; default { state_entry() { while (n < 100000) { ++n; ' + 'llOwnerSay("x"); ' * 13 + "} } }"
    page.follow(script(loop))
    need(page.status == "finished" and "1,300,003 lines" in page.text("more"), "it says", page.text("more"))
    need("the first 500,000 are shown" in page.text("more"), "it says", page.text("more"))
    rows = page.value("document.querySelectorAll('#output .row').length")
    need(0 < rows < 200, "the output has", rows, "rows")
    return f"{MANY} files, 1,300,003 lines"
