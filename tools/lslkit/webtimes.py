"""Tests of how long the page is busy, in Chromium: a key in a long script, a long journal, one that is cut."""
import json
import os
import time

from .webpages import script
from .webtesting import need, test

# For as many milliseconds the page may be busy at once: of the processor's time, which a machine that is busy itself
# doesn't change.
MOST_BUSY = 50
SECONDS = 900
LONG_SCRIPT = "integer f(integer a) {\n    return llAbs(a) + 1; // one more\n}\n" * 990
PINGS = 75000
PING = """default {
    state_entry() { llMessageLinked(2, 0, "", ""); }
    link_message(integer from, integer n, string text, key id) { if (n < PINGS) llMessageLinked(2, n + 1, "", ""); }
}
""".replace("PINGS", str(PINGS))
PONG = """default {
    link_message(integer from, integer n, string text, key id) { llMessageLinked(1, n, "", ""); }
}
"""
TABLE = """object 00000000-0000-4000-9000-000000000001 "Table" 00000000-0000-4000-8000-000000000001 "here"
script "ping" "ping.lsl"
prim 00000000-0000-4000-9000-000000000002 "Other side"
script "pong" "pong.lsl"
begin
run 1000000
end
"""
SAYS = 600000
CHATTER = "integer n;\ndefault { state_entry() { while (n < %d) { ++n; %s } } }\n" % (SAYS, 'llOwnerSay("x"); ' * 20)

def played(page, play):
    """The longest task of the page, and the seconds, until a play is drawn."""
    link, start = page.link(play), time.monotonic()
    follow = f"(location.hash = {json.dumps(link)}, true)"
    tasks = page.tab.tasks(lambda: page.run(lambda: page.value(follow), SECONDS))
    need(max(tasks) <= MOST_BUSY, "the page is busy for", max(tasks), "ms")
    return max(tasks), time.monotonic() - start


def loaded():
    """How many processes want a processor, which seconds are to be read with."""
    return f"with a load of {os.getloadavg()[0]:.1f} on {os.cpu_count()} processors"


@test
def a_key_in_a_long_script_takes_no_time(page):
    page.fresh()
    page.follow(script(LONG_SCRIPT, "check"))
    page.focus_editor(len(LONG_SCRIPT) // 2)
    keys = "integer many; "
    tasks = page.tab.tasks(lambda: page.tab.type(keys))
    need(len(page.source) == len(LONG_SCRIPT) + len(keys), "what was typed isn't there")
    need(max(tasks) <= MOST_BUSY, "the page is busy for", max(tasks), "ms at a key")
    return f"{len(LONG_SCRIPT):,} bytes; a key takes {sum(tasks) / len(keys):.1f} ms, at most {max(tasks):.1f} at once"


@test
def a_long_journal_is_drawn_in_slices(page):
    page.fresh()
    files = [["ping.lsl", PING], ["pong.lsl", PONG], ["table.world", TABLE]]
    longest, seconds = played(page, {"files": files, "how": "replay", "file": "table.world", "steps": ""})
    need(page.status == "finished", "the world is", page.status)
    lines = int(page.text("more").split(" ")[0].replace(",", ""))
    need(lines >= 4 * PINGS, "only", lines, "lines were written")
    return f"{lines:,} lines are drawn in {seconds:.1f} s, {loaded()}; at most {longest:.1f} ms at once"


@test
def a_journal_of_millions_of_lines_is_cut(page):
    page.fresh()
    longest, seconds = played(page, script(CHATTER))
    count = f"{20 * SAYS + 3:,}"
    need(page.text("more").startswith(f"{count} lines"), "it says", page.text("more"))
    need("the first 500,000 are shown" in page.text("more"), "it says", page.text("more"))
    need(page.value("document.querySelectorAll('.row').length") < 500, "all rows were made")
    heap = page.value("performance.memory.usedJSHeapSize") / 1e6
    need(heap < 200, "the page holds", heap, "MB")
    return f"{count} lines in {seconds:.1f} s, {loaded()}; at most {longest:.1f} ms at once, {heap:.0f} MB"
