"""Random scripts that stop for good, and where: they are written and worked out here, beside the program.

Expressions are tuples: their form, and what that takes. Statements have their line too. The meaning and the charges are
those of docs/LANGUAGE.md, of which only what is written here is known."""
import random
from collections import namedtuple

from .. import frozen

MATH, LISTENS, MEMORY = "Math Error", "Too Many Listens", "Stack-Heap Collision"
EMPTY = {"integer": 0, "string": ""}
MOST_STEPS = 20000
Routine = namedtuple("Routine", "name line params slots body")
# Where a script stops: its fault, the line of the statement, the function or event, its variables, how many calls, and
# the lines of the statements of all of them.
Stop = namedtuple("Stop", "fault line routine values depth lines")


class Stopped(Exception):
    pass


class Returned(Exception):
    pass


class TooLong(Exception):
    """It doesn't stop soon."""


class Writer:
    """Writes a script of integers and strings, with a statement in each line."""

    def __init__(self, seed):
        self.chance, self.lines, self.routines = random.Random(seed), [], {}
        self.globals, self.names, self.count, self.depth = {"g": 3, "t": "", "h": 0}, [], 0, 0
        self.sort = self.pick(MATH, LISTENS, MEMORY)

    def pick(self, *choices):
        return self.chance.choice(choices)

    def add(self, text):
        self.lines.append("    " * self.depth + text)
        return len(self.lines)

    # Expressions: the tuple and its text

    def integer(self, depth=2):
        choice = self.chance.randrange(8) if depth else self.chance.randrange(3)
        if choice == 0:
            number = self.chance.randrange(5)
            return ("value", number), str(number)
        if choice < 3:
            name = self.pick(*[it for it, kind in self.names if kind == "integer"], "g", "h")
            return ("name", name), name
        if choice == 6 and self.routines:
            return self.call(self.pick(*self.routines.values()), depth)
        if choice == 7:
            name, (value, text) = self.assignable("integer"), self.integer(depth - 1)
            return ("set", name, value), f"({name} = {text})"
        sign = self.pick("+", "-", "*", *("/%" if self.sort == MATH else "+"))
        (left, text), (right, more) = self.integer(depth - 1), self.integer(depth - 1)
        return (sign, left, right), f"({text} {sign} {more})"

    def text(self, depth=2):
        choice = self.chance.randrange(4) if depth else self.chance.randrange(2)
        if choice == 0:
            said = self.pick("", "a", "bcdefgh", "0123456789" * 3)
            return ("value", said), f'"{said}"'
        if choice == 1:
            name = self.pick(*[it for it, kind in self.names if kind == "string"], "t")
            return ("name", name), name
        if choice == 2:
            value, text = self.integer(depth - 1)
            return ("text", value), f"(string){text}"
        (left, text), (right, more) = self.text(depth - 1), self.text(depth - 1)
        return ("+", left, right), f"({text} + {more})"

    def call(self, routine, depth):
        args = [self.fuel(), *(self.integer(depth - 1) for _ in routine.params[1:])]
        return ("call", routine.name, [it for it, _ in args]), f"{routine.name}({', '.join(it for _, it in args)})"

    def fuel(self):
        """The first argument of a call, by which recursions end."""
        if self.is_function:
            return ("-", ("name", "n"), ("value", 1)), "n - 1"
        number = self.pick(2, 5, 40)
        return ("value", number), str(number)

    def assignable(self, kind):
        return self.pick(*[it for it, of in self.names if of == kind and it[0] == "v"], "g" if kind == "integer" else "t")

    def of(self, kind):
        return self.integer() if kind == "integer" else self.text()

    # Statements

    def block(self, depth):
        self.depth += 1
        known = len(self.names)
        body = [self.statement(depth) for _ in range(self.chance.randrange(1, 4))]
        del self.names[known:]
        self.depth -= 1
        return body

    def statement(self, depth):
        choice = self.chance.randrange(10) if depth else self.chance.randrange(6)
        kind = self.pick("integer", "integer", "string")
        value, text = self.of(kind)
        if choice < 2:
            self.count += 1
            name = f"v{self.count}"
            line = self.add(f"{kind} {name} = {text};")
            self.names.append((name, kind))
            self.slots.append((name, kind))
            return "let", line, name, value
        if choice < 4:
            name = self.assignable(kind)
            return "do", self.add(f"{name} = {text};"), ("set", name, value)
        if choice == 4:
            value, text = self.text()
            return "say", self.add(f"llOwnerSay({text});"), value
        if choice == 5:
            value, text = self.integer()
            if self.sort == LISTENS:
                return "listen", self.add(f'llListen({text}, "", "", "");'), value
            return "do", self.add(f"{text};") if value[0] in ("call", "set") else self.add(f"g = {text};"), (
                value if value[0] in ("call", "set") else ("set", "g", value)
            )
        if choice < 8:
            value, text = self.integer()
            line = self.add(f"if ({text}) {{")
            then = self.block(depth - 1)
            self.add("} else {")
            other = self.block(depth - 1)
            self.add("}")
            return "if", line, value, then, other
        return self.loop(depth)

    def loop(self, depth):
        self.count += 1
        name, most = f"c{self.count}", self.pick(2, 3, 30)
        self.slots.append((name, "integer"))
        first = self.add(f"integer {name} = 0;")
        line = self.add(f"while ({name} < {most}) {{")
        self.names.append((name, "integer"))
        self.depth += 1
        step = "do", self.add(f"{name} = {name} + 1;"), ("set", name, ("+", ("name", name), ("value", 1)))
        self.depth -= 1
        if self.sort == LISTENS:
            self.depth += 1
            heard = "listen", self.add(f'llListen(h = h + 1, "", "", "");'), ("set", "h", ("+", ("name", "h"), ("value", 1)))
            self.depth -= 1
        elif self.sort == MEMORY:
            self.depth += 1
            said, text = self.text(1)
            heard = "do", self.add(f"t = t + {text};"), ("set", "t", ("+", ("name", "t"), said))
            self.depth -= 1
        else:
            heard = None
        body = [step, *([heard] if heard else []), *self.block(depth - 1)]
        self.add("}")
        return "while", line, ("<", ("name", name), ("value", most)), body, (first, name)

    # Routines

    def function(self, number):
        self.is_function, self.slots = True, []
        params = [("n", "integer"), *((f"p{number}{at}", "integer") for at in range(self.chance.randrange(3)))]
        self.names = [*params]
        line = self.add(f"integer f{number}({', '.join(f'{kind} {name}' for name, kind in params)}) {{")
        guard = self.add("    if (n < 1) return 0;")
        # It may call itself.
        self.routines[f"f{number}"] = Routine(f"f{number}", line, params, self.slots, [])
        body = self.block(2)
        value, text = self.integer()
        back = self.add(f"    return {text};")
        self.add("}")
        body = [("if", guard, ("<", ("name", "n"), ("value", 1)), [("return", guard, ("value", 0))], []), *body]
        self.routines[f"f{number}"].body.extend([*body, ("return", back, value)])

    def script(self):
        self.add("integer g = 3;")
        self.add('string t = "";')
        self.add("integer h = 0;")
        for number in range(self.chance.randrange(1, 4)):
            self.function(number)
        self.add("default {")
        self.is_function, self.slots, self.names, self.depth = False, [], [], 1
        line = self.add("state_entry() {")
        limit = self.pick(1400, 1700, 2500, 6000) if self.sort == MEMORY else 65536
        first = self.add(f"    llSetMemoryLimit({limit});")
        body = [it for _ in range(3) for it in self.block(3)]
        self.depth = 1
        self.add("}")
        self.depth = 0
        self.add("}")
        self.routines["state_entry"] = Routine("state_entry", line, [], self.slots, [("limit", first, limit), *body])
        return "\n".join(self.lines) + "\n"


class Machine:
    """Works out a script that was written."""

    def __init__(self, writer):
        self.routines, self.globals, self.frames = writer.routines, dict(writer.globals), []
        self.waiting, self.limit, self.line, self.steps, self.listens = 0, 65536, [], 0, set()

    def stop(self):
        """Where it stops; none where it doesn't, or not soon."""
        try:
            self.enter(self.routines["state_entry"], [])
        except Stopped as error:
            name, values = self.frames[-1]
            return Stop(f"{error}", self.line[-1], name, {**values, **self.globals}, len(self.frames), self.line)
        except TooLong:
            pass
        return None

    def held(self):
        held = 1024 + sum(map(frozen.charge, self.globals.values())) + self.waiting
        return held + sum(32 + sum(map(frozen.charge, values.values())) for _, values in self.frames)

    def test(self):
        if self.held() > self.limit:
            raise Stopped(MEMORY)

    def give(self, value):
        self.waiting += frozen.charge(value)
        self.test()
        return value

    def take(self, *values):
        self.waiting -= sum(map(frozen.charge, values))

    def enter(self, routine, args):
        """A call, whose arguments wait no more. The value is given in the call."""
        values = {name: value for (name, _), value in zip(routine.params, args)}
        values.update({name: EMPTY[kind] for name, kind in routine.slots})
        self.take(*args)
        self.frames.append((routine.name, values))
        try:
            self.test()
        except Stopped:
            self.frames.pop()
            raise
        self.line.append(routine.line)
        self.steps += 1
        try:
            self.run(routine.body)
            result = None
        except Returned as back:
            result = back.args[0]
        self.line.pop()
        self.frames.pop()
        return result

    # Expressions

    def value(self, it):
        return getattr(self, f"of_{FORMS.get(it[0], it[0])}")(*it[1:] if it[0] not in FORMS else it)

    def of_value(self, value):
        return self.give(value)

    def of_name(self, name):
        held = self.frames[-1][1]
        return self.give(held[name] if name in held else self.globals[name])

    def of_set(self, name, value):
        found = self.value(value)
        holder = self.frames[-1][1] if name in self.frames[-1][1] else self.globals
        holder[name] = found
        self.test()
        return found

    def of_text(self, value):
        found = self.value(value)
        self.take(found)
        return self.give(str(found))

    def of_pair(self, sign, left, right):
        last, first = self.value(right), self.value(left)
        self.take(first, last)
        return self.give(worked_out(sign, first, last))

    def of_call(self, name, args):
        found = self.enter(self.routines[name], [self.value(it) for it in args])
        self.test()
        return found

    # Statements

    def run(self, body):
        for it in body:
            self.steps += 1
            if self.steps > MOST_STEPS or len(self.frames) > 60:
                raise TooLong
            self.line[-1] = it[1]
            getattr(self, f"do_{it[0]}")(*it[2:])

    def dropped(self, value):
        found = self.value(value)
        self.take(found)
        return found

    def do_limit(self, limit):
        self.dropped(("value", limit))
        if self.held() + frozen.charge(1) <= limit:
            self.limit = limit

    def do_let(self, name, value):
        self.frames[-1][1][name] = self.dropped(value)

    def do_do(self, value):
        self.dropped(value)

    def do_say(self, value):
        self.dropped(value)

    def do_listen(self, value):
        channel = self.value(value)
        for _ in range(3):
            self.give("")
        self.take(channel, "", "", "")
        if channel not in self.listens and len(self.listens) == 65:
            raise Stopped(LISTENS)
        self.listens.add(channel)
        self.take(self.give(1))

    def do_if(self, value, then, other):
        self.run(then if self.dropped(value) else other)

    def do_while(self, value, body, begun):
        first, name = begun
        line = self.line[-1]
        self.line[-1] = first
        self.do_let(name, ("value", 0))
        self.line[-1] = line
        while self.dropped(value):
            self.run(body)
            self.line[-1] = line

    def do_return(self, value):
        raise Returned(self.value(value))


FORMS = {it: "pair" for it in "+-*/%<"}


def wrapped(number):
    return (number + 2**31) % 2**32 - 2**31


def worked_out(sign, first, last):
    if isinstance(first, str):
        return first + last
    if sign in "/%":
        if last == 0:
            raise Stopped(MATH)
        whole = abs(first) // abs(last) * (1 if (first < 0) == (last < 0) else -1)
        return wrapped(whole if sign == "/" else first - whole * last)
    return {"+": wrapped(first + last), "-": wrapped(first - last), "*": wrapped(first * last), "<": int(first < last)}[sign]


def made(seed):
    """A script and where it stops; none where it doesn't."""
    writer = Writer(seed)
    text = writer.script()
    return text, Machine(writer).stop()
