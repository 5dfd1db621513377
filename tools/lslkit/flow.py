"""Which ways go through a script's statements: where one ends, what a condition is, how often a loop goes round."""
from . import tables
from .syntax import walk

LOOPS = ("while", "do", "for")
LEAVING = ("return", "state", "jump")
ENDING_CALLS = ("llResetScript",)


def constant(value):
    """The value of a condition that is made of numbers and constants alone, or none."""
    if value.form == "group":
        return constant(value.parts[0])
    if value.form == "literal" and value.kind == "integer":
        return int(value.text, 0 if value.text[:2].lower() == "0x" else 10)
    row = tables.constants().get(value.text) if value.form == "name" else None
    if row and row.kind == "integer":
        return int(row.value)
    inner = constant(value.parts[0]) if value.form == "unary" else None
    return None if inner is None else {"-": -inner, "!": int(not inner), "~": ~inner}[value.text]


def condition_of(node, tokens):
    """The condition of an `if` or a loop; none of any other statement."""
    if node.form in ("if", "while"):
        return node.parts[0]
    if node.form == "do":
        return node.parts[1]
    return for_parts(node, tokens)[1] if node.form == "for" else None


def for_parts(node, tokens):
    """What a `for` does first, its condition, its steps and its body: the condition is what follows the first `;`."""
    *values, body = node.parts
    at = next(at for at, it in enumerate(values) if tokens[it.first - 1].text == ";")
    return values[:at], values[at], values[at + 1 :], body


def body_of(node):
    return node.parts[0] if node.form == "do" else node.parts[-1]


def leaves(node):
    """Whether something in a statement leaves it, or has the script begin anew or wait."""
    calls = (*ENDING_CALLS, "llSleep")
    return any(it.form in LEAVING or (it.form == "call" and it.text in calls) for it in walk(node))


def is_endless(node, tokens):
    """Whether a loop goes round for ever, as it is written."""
    is_left = any(it.form == "jump" for it in walk(node))
    return node.form in LOOPS and not is_left and bool(constant(condition_of(node, tokens)))


def ends(node, tokens):
    """Whether what follows a statement is never reached."""
    if node.form in LEAVING:
        return True
    if node.form == "block":
        return ends_block(node, tokens)
    if node.form == "if":
        return len(node.parts) == 3 and all(ends(it, tokens) for it in node.parts[1:])
    if node.form == "do":
        return ends(node.parts[0], tokens) or is_endless(node, tokens)
    return is_endless(node, tokens)


def ends_block(node, tokens):
    """The same of a block: what follows its last label counts."""
    has_ended = False
    for part in node.parts:
        has_ended = False if part.form == "label" else has_ended or ends(part, tokens)
    return has_ended


def rounds(node, tokens):
    """How often a loop that counts between numbers goes round; none where that isn't written."""
    if node.form != "for":
        return None
    first, condition, steps, _ = for_parts(node, tokens)
    starts = [it for it in first if it.form == "assign" and it.text == "="]
    if condition.form != "binary" or not starts or not steps:
        return None
    low, high = constant(starts[0].parts[1]), constant(condition.parts[1])
    step = steps[0]
    by = 1 if step.form == "step" else constant(step.parts[1]) if step.form == "assign" and step.text == "+=" else None
    is_known = None not in (low, high, by) and by != 0 and condition.text in ("<", "<=")
    return max(0, (high - low) // by) if is_known else None
