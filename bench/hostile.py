#!/usr/bin/env python3
"""hostile.py [--program FILE] [WORD..]: what scripts and files cost that are made to cost much.

Each row is run at two sizes, of which the second is twice the first. A line has the row's name, and at both sizes the
greatest memory that was resident and the time of the processor, each less that of an empty world; then the power of the
size with which either grows. With words only the rows that have one of them in their names are run. A run has at most
6 GB of addresses and two minutes; 'status 7' is want of memory. It needs Debian's package `time`."""
import math
import os
import resource
import subprocess
import sys
import tempfile
from collections import namedtuple

TOP = os.path.join(os.path.dirname(os.path.abspath(__file__)), "..")
sys.path.insert(0, os.path.join(TOP, "tools"))
from lslkit import making, nesting

# What a row is called, its two sizes, and what writes its files into a folder and answers the command's words.
Row = namedtuple("Row", "name sizes made")
Cost = namedtuple("Cost", "status memory seconds")
MOST_ADDRESSES, MOST_SECONDS = 6 * 1024**3, 120
OBJECT = 'object 00000000-0000-0000-0000-000000000001 "Box" 00000000-0000-0000-0000-000000000002 "A"'
ROWS = []


def row(name, first, second):
    def added(made):
        ROWS.append(Row(name, (first, second), made))
        return made

    return added


def write(name, text):
    with open(name, "w", encoding="utf-8") as file:
        file.write(text)
    return name


def script(entry, before="", name="a.lsl"):
    """A script file with this body of state_entry."""
    return write(name, f"{before}default{{state_entry(){{{entry}}}}}")


def world(steps, scripts=("a.lsl",), notes=(), name="a.world"):
    """A world file of one prim with these scripts and notecards."""
    lines = [f'script "s" "{it}"' for it in scripts] + [f'note "{it}" "{it}"' for it in notes]
    return write(name, "\n".join([OBJECT, *lines, "begin", *steps, "end", ""]))


@row("calls that wait in a list: code", 500, 1000)
def code(count):
    calls = ",".join(["f()"] * count)
    return ["once", script(f"llOwnerSay((string)[{calls}]);", "integer f(){return 1;}")]


@row("long texts to part: calls", 500, 1000)
def parsed(count):
    grown = "a=a+a;" * 13 + "a=llGetSubString(a,0,6999);" + "b=b+b;" * 10
    marks = "b+=\"aaaaab\";l=[b,b,b,b,b,b,b,b];"
    script(grown + marks + "while(1)llParseString2List(a,l,l);", 'string a="a";string b="a";list l;')
    return ["replay", world([f"run {count}"])]


def speaking(size, count):
    text = f'string s="{"x" * size}";'
    return script("llMessageLinked(LINK_SET,0,s,NULL_KEY);" * count, text)


def hearers(count):
    write("h.lsl", "default{link_message(integer a,integer b,string c,key d){}}")
    return ["h.lsl"] * count


@row("messages lost by 255 scripts: bytes of each", 1000, 2000)
def lost(size):
    speaking(size, 130)
    return ["replay", world(["go 1 1"], ["a.lsl", *hearers(255)])]


@row("messages lost in a round: scripts that send", 4, 8)
def round_lost(count):
    speaking(0, 130)
    return ["replay", world(["run 1000"], ["a.lsl"] * count + hearers(256 - count))]


DEEP = "f(){if(llGetFreeMemory()>100)f();while(1);}"


@row("a loop under 2,000 calls: ticks", 250000, 500000)
def deep(ticks):
    script("f();", DEEP)
    return ["replay", world([f"run {ticks}"])]


@row("the same with a pause at each tick: ticks", 10000, 20000)
def deep_paused(ticks):
    script("f();", DEEP)
    return ["replay", world(["go 1 3000", "pause 1", f"run {ticks}"])]


@row("crossings to new regions: crossings", 10000, 20000)
def regions(count):
    return ["replay", world([f'cross 1 "r{n}"' for n in range(count)], [])]


@row("the same by notes: crossings", 5000, 10000)
def noted_regions(count):
    return ["replay", "--lossy", regions(count)[1]]


def cards(count, text):
    for number in range(count):
        write(f"n{number}", text)
    return [f"n{number}" for number in range(count)]


@row("notecards of 64 KB in lines of two bytes: cards", 128, 256)
def notecards(count):
    script("")
    return ["replay", world(["run 1"], notes=cards(count, "a\n" * 32768))]


@row("a notecard of long lines: lines that are read", 20000, 40000)
def long_lines(count):
    script('while(1)llGetNotecardLine("n0",7);')
    return ["replay", world([f"run {count}"], notes=cards(1, ("a" * 8191 + "\n") * 8))]


@row("frozen lists of texts of a character: scripts", 64, 128)
def frozen(count):
    script('integer i;for(;i<2500;++i)l+="a";', "list l;")
    with open("frozen", "wb") as file:
        subprocess.run([PROGRAM, "freeze", world([f"run {count * 2600}"], ["a.lsl"] * count)], stdout=file, check=True)
    return ["thaw", "frozen", world(["run 1"], ["a.lsl"] * count)]


@row("an element replaced in a list: elements", 650, 1300)
def replaced(count):
    script(f"while(llGetListLength(l)<{count})l+=i;while(1)l=llListReplaceList(l,[1],i,i);", "integer i;list l;")
    return ["replay", world(["run 30000"])]


@row("scripts that message all: scripts", 128, 256)
def chatty(count):
    write("a.lsl", 'default{link_message(integer a,integer b,string c,key d){llMessageLinked(LINK_SET,0,"",d);}}')
    script('llMessageLinked(LINK_SET,0,"",NULL_KEY);', name="b.lsl")
    return ["replay", world(["run 4000"], ["b.lsl"] + ["a.lsl"] * (count - 1))]


@row("resets of a script with 1,000 globals: resets", 25000, 50000)
def resets(count):
    script("llResetScript();", "".join(f"integer g{n};" for n in range(1000)))
    return ["replay", world([f"run {count}"])]


@row("events for 256 full queues: steps", 1000, 2000)
def changed(count):
    write("a.lsl", "default{changed(integer c){}}")
    return ["replay", world(["changed 1 1"] * count, ["a.lsl"] * 256)]


@row("clocks for 256 timers: steps", 2500, 5000)
def clocks(count):
    write("a.lsl", "default{state_entry(){llSetTimerEvent(1);}timer(){}}")
    steps = ["run 1000", *(f"clock {1000 * (n + 1)}" for n in range(count))]
    return ["replay", world(steps, ["a.lsl"] * 256)]


def cost_of(words):
    """What a run of the program costs."""

    def limit():
        resource.setrlimit(resource.RLIMIT_AS, (MOST_ADDRESSES, MOST_ADDRESSES))
        resource.setrlimit(resource.RLIMIT_CPU, (MOST_SECONDS, MOST_SECONDS))

    told = ["/usr/bin/time", "-q", "-o", "cost", "-f", "%x %M %U %S", PROGRAM, *words]
    subprocess.run(told, preexec_fn=limit, stdout=subprocess.DEVNULL, stderr=subprocess.DEVNULL, check=False)
    with open("cost", encoding="ascii") as file:
        status, memory, user, system = file.read().split()
    return Cost(int(status), int(memory) * 1024, float(user) + float(system))


def measured(made, size):
    with tempfile.TemporaryDirectory(prefix="hostile-") as room:
        os.chdir(room)
        words = made(size)
        cost = cost_of(words)
        os.chdir(TOP)
    return cost


def power(first, second):
    """With what power of the size something grows that this is at a size and at twice the size."""
    return f"{math.log2(second / first):4.1f}" if first > 0 and second > 0 else "   -"


def told(size, cost, base):
    end = f"status {cost.status}" if cost.status else f"{cost.seconds - base.seconds:8.2f} s"
    return f"{size:>7} {(cost.memory - base.memory) / 1e6:9.1f} MB {end:>10}"


def tell(it, base):
    first, second = (measured(it.made, size) for size in it.sizes)
    said = f"{it.name}\n    {told(it.sizes[0], first, base)}   {told(it.sizes[1], second, base)}"
    if first.status == second.status == 0:
        memory = power(first.memory - base.memory, second.memory - base.memory)
        said += f"   memory ^{memory}   time ^{power(first.seconds - base.seconds, second.seconds - base.seconds)}"
    print(said, flush=True)


def runs_in(size, name):
    """Whether a script is checked with so much stack."""

    def limit():
        resource.setrlimit(resource.RLIMIT_STACK, (size, size))

    how = {"stdout": subprocess.DEVNULL, "stderr": subprocess.DEVNULL, "check": False}
    return subprocess.run([PROGRAM, "once", name], preexec_fn=limit, **how).returncode == 0


def tell_stack():
    """Prints how much stack the texts need that are nested to the limit."""
    with tempfile.TemporaryDirectory(prefix="hostile-") as room:
        most = 0
        for sort in nesting.SORTS:
            name, low, high = write(os.path.join(room, "a.lsl"), nesting.script(sort)), 0, 8192
            while high - low > 1:
                middle = (low + high) // 2
                low, high = (low, middle) if runs_in(middle * 1024, name) else (middle, high)
            most = max(most, high)
    print(f"texts nested to the limit: {most} KB of stack")


def tell_devices():
    """Prints what a frozen world without an end costs."""
    with tempfile.TemporaryDirectory(prefix="hostile-") as room:
        os.chdir(room)
        cost = cost_of(["thaw", "/dev/zero", world([], [])])
        os.chdir(TOP)
    print(f"thaw /dev/zero: status {cost.status}, {cost.memory / 1e6:.1f} MB, {cost.seconds:.2f} s")


def main(words):
    base = measured(lambda _: ["replay", world([], [])], 0)
    print(f"an empty world: {base.memory / 1e6:.1f} MB, {base.seconds:.2f} s")
    for it in ROWS:
        if not words or any(word in it.name for word in words):
            tell(it, base)
    if not words:
        tell_stack()
        tell_devices()


if __name__ == "__main__":
    WORDS = sys.argv[1:]
    if WORDS[:1] in (["--help"], ["-h"]):
        print(__doc__)
        sys.exit(0)
    PROGRAM = os.path.abspath(WORDS[1]) if WORDS[:1] == ["--program"] else making.any_program()
    if PROGRAM is None:
        sys.exit(125)
    main(WORDS[2:] if WORDS[:1] == ["--program"] else WORDS)
