"""Scripts whose constructs are nested in one another as deeply as the language allows."""

SCRIPT = "integer f(integer i) { return i; } default { state_entry() { %s } }"
# Of each sort: what comes before, what opens a construct, what is within, what closes one, what comes after, and
# how many of them are accepted.
SORTS = {
    "blocks": ("", "{", "", "}", "", 199),
    "loops": ("", "for (; 0;) ", ";", "", "", 199),
    "conditions": ("", "if (1) ", ";", "", "", 199),
    "brackets": ("integer i = ", "(", "1", ")", ";", 199),
    "sums": ("integer i = ", "(1 + ", "1", ")", ";", 199),
    "tests": ("integer i = ", "(1 && ", "1", ")", ";", 199),
    "signs": ("integer i = ", "- ", "1", "", ";", 199),
    "lists": ("list l = ", "([] + ", "1", ")", ";", 198),
    "calls": ("f(", "f(", "1", ")", ");", 198),
}


def script(sort, more=0):
    """The deepest script of a sort that is accepted, or one that is deeper by `more` constructs."""
    before, opening, within, closing, behind, count = SORTS[sort]
    count += more
    return SCRIPT % (before + opening * count + within + closing * count + behind)
