"""Random worlds of scripts that are accepted: calls within calls, loops, jumps, sleeps, changes of state, and
assignments within expressions."""
import random

from ..quoting import quoted

KINDS = ("integer", "string", "list")
EMPTY = {"integer": "0", "string": '""', "list": "[]"}
CALLS = {
    "integer": (
        ("llStringLength", "string"), ("llGetListLength", "list"), ("llAbs", "integer"),
        ("llList2Integer", "list", "integer"), ("llSubStringIndex", "string", "string"),
    ),
    "string": (
        ("llGetSubString", "string", "integer", "integer"), ("llList2String", "list", "integer"),
        ("llDumpList2String", "list", "string"), ("llStringTrim", "string", "integer"),
    ),
    "list": (("llList2List", "list", "integer", "integer"), ("llDeleteSubList", "list", "integer", "integer")),
}  # fmt: skip
EVENTS = (
    ("state_entry", ""), ("touch_start", "integer n"), ("timer", ""), ("listen", "integer n, string s, key k, string m"),
    ("link_message", "integer n, integer a, string s, key k"), ("state_exit", ""),
)  # fmt: skip
ANN = "00000000-0000-0000-0000-0000000000aa"


class Script:
    """A script, line by line; a statement of its own has a line of its own."""

    def __init__(self, chance):
        self.chance, self.lines, self.count, self.depth = chance, [], 0, 0
        self.functions, self.scopes, self.routine, self.left = [], [{}], None, 0

    def pick(self, *choices):
        return self.chance.choice(choices)

    def often(self, share=0.5):
        return self.chance.random() < share

    def add(self, text):
        self.lines.append("    " * self.depth + text)

    def name(self, kind, front="v"):
        self.count += 1
        # Now and then a name that hides an outer one.
        outer = [it for scope in self.scopes[:-1] for it in scope if it.startswith("v") and it not in self.scopes[-1]]
        made = self.pick(*outer) if outer and front == "v" and self.often(0.15) else f"{front}{self.count}"
        self.scopes[-1][made] = kind
        return made

    def variable(self, kind):
        every = {}
        for scope in self.scopes:
            every.update(scope)
        found = [it for it, of in every.items() if of == kind and not it.startswith("c")]
        return self.pick(*found) if found else None

    # Expressions

    def value(self, kind, depth=2):
        if depth == 0 or self.often(0.25):
            return self.plain(kind)
        choice = self.chance.randrange(9)
        if choice < 3:
            return self.called(kind, depth)
        if choice == 3 and self.variable(kind):
            name = self.variable(kind)
            if kind == "integer" and self.often():
                return self.pick(f"++{name}", f"{name}++", f"--{name}", f"{name}--")
            return f"({name} {self.pick('=', '=', '+=') if kind != 'list' else '='} {self.value(kind, depth - 1)})"
        if choice < 6 and kind == "integer":
            sign = self.pick("+", "-", "*", "<", ">", "==", "&&", "||", "&", "%", "/")
            return f"({self.value(kind, depth - 1)} {sign} {self.value(kind, depth - 1)})"
        if choice < 6:
            return f"({self.value(kind, depth - 1)} + {self.value(kind, depth - 1)})"
        if kind == "string":
            return f"(string){self.value('integer', depth - 1)}"
        if kind == "list":
            return f"[{self.value('integer', depth - 1)}, {self.value('string', depth - 1)}]"
        return self.pick(f"!{self.plain('integer')}", f"-{self.plain('integer')}")

    def plain(self, kind):
        name = self.variable(kind)
        if name and self.often(0.7):
            return name
        return {"integer": self.pick("0", "1", "2", "3", "7"), "string": self.pick('""', '"a"', '"b c"', '"é"'),
                "list": self.pick("[]", "[1]", '["a", 2]')}[kind]  # fmt: skip

    def called(self, kind, depth):
        own = [it for it in self.functions if it[1] == kind]
        if own and self.left > 0 and self.often(0.7):
            self.left -= 1
            name, _, kinds = self.pick(*own)
            return f"{name}({', '.join([self.fuel(), *(self.value(it, depth - 1) for it in kinds)])})"
        name, *kinds = self.pick(*CALLS[kind])
        return f"{name}({', '.join(self.value(it, depth - 1) for it in kinds)})"

    def fuel(self):
        """How deep calls may still go: a function's first parameter, which nothing else assigns."""
        return "cf - 1" if self.routine == "function" else self.pick("1", "2", "3")

    # Statements

    def block(self, count, depth, last=None):
        self.scopes.append({})
        self.depth += 1
        for _ in range(count):
            self.statement(depth)
        if last:
            last()
        self.depth -= 1
        self.scopes.pop()

    def braces(self, head, depth, tail="}"):
        self.add(f"{head} {{")
        self.block(self.chance.randrange(1, 4), depth - 1)
        self.add(tail)

    def statement(self, depth):
        choice = self.chance.randrange(16)
        if depth <= 0 or choice < 7:
            self.simple()
        elif choice < 10:
            self.braces(f"if ({self.value('integer')})", depth)
            if self.often(0.4):
                self.braces("else", depth)
        elif choice < 14:
            self.loop(depth)
        elif choice == 14:
            self.braces("", depth)
        else:
            self.labelled()

    def loop(self, depth):
        name, most = self.name("integer", "c"), self.chance.randrange(1, 4)
        self.add(f"integer {name};")
        form = self.chance.randrange(5)
        if form == 0:
            self.braces(f"for ({self.listed(f'{name} = 0')}; {name} < {most}; {self.listed(f'++{name}')})", depth)
        elif form == 4:
            self.braces(f"for ({self.listed()}; {name}++ < {most}; {self.listed()})", depth)
        elif form == 1:
            self.braces(f"while ({name}++ < {most})", depth)
        elif form == 2:
            self.add(f"for ({name} = 0; {name} < {most}; ++{name})")
            self.depth += 1
            self.simple(is_alone=True)
            self.depth -= 1
        else:
            self.braces("do", depth, f"}} while (++{name} < {most});")

    def listed(self, *items):
        """A list of a `for`, with these items."""
        every = [*items, *(self.item() for _ in range(self.pick(0, 0, 0, 1, 2)))]
        self.chance.shuffle(every)
        return ", ".join(every)

    def item(self):
        if self.routine == "handler" and self.often(0.02):
            return "llResetScript()"
        text = self.value("string", 1)
        return self.pick(self.value("integer", 1), self.value("string"), self.sleep(), f"llOwnerSay({text})")

    def sleep(self):
        return f"llSleep({self.pick('0', '1', self.value('integer') + ' & 1')})"

    def labelled(self):
        name = self.name("integer", "c")
        self.add(f"integer {name};")
        self.add(f"@l{name};")
        self.simple()
        self.add(f"if (++{name} < {self.pick(2, 3)}) jump l{name};")

    def simple(self, is_alone=False):
        choice, kind = self.chance.randrange(14), self.pick(*KINDS)
        name = self.variable(kind)
        if choice < 3 and not is_alone:
            value = self.value(kind)
            self.add(f"{kind} {self.name(kind)}{self.pick(f' = {value}', f' = {value}', '')};")
        elif choice < 7 and name:
            self.add(f"{name} {self.pick('=', '+=') if kind != 'list' else '='} {self.value(kind)};")
        elif choice == 7:
            self.add(f"llOwnerSay({self.value('string')});")
        elif choice == 8:
            self.add(f"llSay({self.pick(0, 0, 5)}, {self.value('string')});")
        elif choice == 9 and self.often(0.5):
            self.add(f"{self.sleep()};")
        elif choice == 10 and self.often(0.5):
            self.add(f'llMessageLinked(LINK_SET, {self.value("integer", 1)}, {self.value("string", 1)}, "");')
        elif choice == 11 and self.often(0.4):
            self.add(self.pick("llSetTimerEvent(2);", 'llListen(5, "", "", "");', "llSetTimerEvent(0);"))
        elif choice == 12 and self.routine == "handler" and self.often(0.3):
            self.add(self.pick("return;", "state other;", "state default;", "if (g0++ == 3) llResetScript();"))
        else:
            self.add(f"{self.called(kind, 2)};")

    # Routines

    def function(self, number):
        kind, kinds = self.pick(*KINDS), [self.pick(*KINDS) for _ in range(self.chance.randrange(3))]
        self.routine, self.left = "function", 3
        self.scopes.append({})
        params = ["integer cf", *(f"{it} {self.name(it)}" for it in kinds)]
        self.add(f"{kind} f{number}({', '.join(params)}) {{")
        self.add(f"    if (cf < 1) return {EMPTY[kind]};")
        self.functions.append((f"f{number}", kind, kinds))
        self.block(self.chance.randrange(1, 5), 2, last=lambda: self.add(f"return {self.value(kind)};"))
        self.add("}")
        self.scopes.pop()

    def handler(self, event, params):
        self.routine, self.left = "handler", 5
        self.scopes.append({it.split()[1]: it.split()[0] for it in params.split(", ") if params})
        self.depth = 1
        self.add(f"{event}({params}) {{")
        self.block(self.chance.randrange(1, 6), 3)
        self.add("}")
        self.depth = 0
        self.scopes.pop()

    def text(self):
        self.scopes[0]["g0"] = "integer"
        self.add("integer g0;")
        for kind in KINDS:
            name = self.name(kind, "g")
            self.add(f"{kind} {name} = {EMPTY[kind]};")
        for number in range(self.chance.randrange(4)):
            self.function(number)
        for head in ("default", "state other"):
            self.add(f"{head} {{")
            for at, (event, params) in enumerate(EVENTS):
                if at == 0 or self.often(0.5):
                    self.handler(event, params)
            self.add("}")
        return "\n".join(self.lines) + "\n"


def step(chance, scripts):
    return chance.choice(
        (
            f'touch 1 0 {ANN} "Ann"',
            f'say {chance.choice((0, 5))} "Ann" {ANN} "go"',
            f"run {chance.randrange(1, 30)}",
            f"go {chance.randrange(1, scripts + 1)} {chance.randrange(1, 6)}",
            'cross 1 "North"',
            f"pause {chance.randrange(1, 4)}",
        )
    )


def world(seed, folder):
    """The text of a world, and those of its scripts by the names of their files."""
    chance = random.Random(seed)
    texts = {f"{folder}/{at}.lsl": Script(chance).text() for at in range(chance.randrange(1, 4))}
    lines = ['object 00000000-0000-0000-0000-0000000000d0 "Box" 00000000-0000-0000-0000-00000000000f "South"']
    lines += [f'script "{at}" {quoted(name)}' for at, name in enumerate(texts)]
    lines += ["begin"] + [step(chance, len(texts)) for _ in range(chance.randrange(3, 9))]
    lines += ["clock 3000", f"run {chance.choice((20, 100))}", "end"]
    return "\n".join(lines) + "\n", texts
