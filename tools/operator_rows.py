#!/usr/bin/env python3
"""Prints crates/tests_parts/data/computed.cases: what operators on 32-bit integers give.

Run it as `python3 tools/operator_rows.py > crates/tests_parts/data/computed.cases`.

For each operator it takes, out of all pairs of ten numbers, the thirty that tell most: those on which the
greatest number of likely wrong operators give another value.
"""

NUMBERS = [-2147483648, -2147483647, -1, 0, 1, 2, 31, 32, 33, 2147483647]
COUNT = 30


def wrap(n):
    return (n + 2**31) % 2**32 - 2**31


def quotient(a, b):
    q = abs(a) // abs(b)
    return wrap(q if (a < 0) == (b < 0) else -q)


def remainder(a, b):
    r = abs(a) % abs(b)
    return -r if a < 0 else r


def saturate(n):
    return max(-2**31, min(2**31 - 1, n))


def unsigned(n):
    return n % 2**32


RIGHT = {
    "ADD": lambda a, b: wrap(a + b),
    "SUB": lambda a, b: wrap(a - b),
    "MUL": lambda a, b: wrap(a * b),
    "DIV": quotient,
    "REM": remainder,
    "SHL": lambda a, b: wrap(a << (b & 31)),
    "SHR": lambda a, b: a >> (b & 31),
    "BIT_AND": lambda a, b: a & b,
    "BIT_OR": lambda a, b: a | b,
    "BIT_XOR": lambda a, b: a ^ b,
}

WRONG = {
    "ADD": [lambda a, b: saturate(a + b), lambda a, b: wrap(a - b), lambda a, b: a | b, lambda a, b: a ^ b],
    "SUB": [
        lambda a, b: saturate(a - b),
        lambda a, b: wrap(b - a),
        lambda a, b: wrap(a + b),
        lambda a, b: a ^ b,
    ],
    "MUL": [
        lambda a, b: saturate(a * b),
        lambda a, b: wrap(a + b),
        lambda a, b: wrap(abs(a) * abs(b)),
        lambda a, b: a & b,
    ],
    "DIV": [
        lambda a, b: saturate(a // b),
        lambda a, b: wrap(a // b),
        lambda a, b: wrap(unsigned(a) // unsigned(b)),
        remainder,
    ],
    "REM": [
        lambda a, b: a % b,
        lambda a, b: abs(remainder(a, b)),
        lambda a, b: wrap(unsigned(a) % unsigned(b)),
        quotient,
    ],
    "SHL": [
        lambda a, b: wrap(a << (b & 63)),
        lambda a, b: wrap(a << min(abs(b), 32)),
        lambda a, b: a >> (b & 31),
        lambda a, b: wrap(a << (b & 15)),
    ],
    "SHR": [
        lambda a, b: a >> (b & 63),
        lambda a, b: wrap(unsigned(a) >> (b & 31)),
        lambda a, b: a >> min(abs(b), 32),
        lambda a, b: quotient(a, 2 ** (b & 31)),
    ],
    "BIT_AND": [
        lambda a, b: a | b,
        lambda a, b: a ^ b,
        lambda a, b: abs(a) & abs(b),
        lambda a, b: int(a != 0 and b != 0),
    ],
    "BIT_OR": [
        lambda a, b: a & b,
        lambda a, b: a ^ b,
        lambda a, b: wrap(a + b),
        lambda a, b: int(a != 0 or b != 0),
    ],
    "BIT_XOR": [
        lambda a, b: a & b,
        lambda a, b: a | b,
        lambda a, b: wrap(a + b),
        lambda a, b: int((a != 0) != (b != 0)),
    ],
}


def rows(name):
    right = RIGHT[name]
    pairs = [(a, b) for a in NUMBERS for b in NUMBERS if b != 0 or name not in ("DIV", "REM")]
    told = {p: sum(wrong(*p) != right(*p) for wrong in WRONG[name]) for p in pairs}
    best = sorted(pairs, key=lambda p: -told[p])[:COUNT]
    return [(a, b, right(a, b)) for a, b in sorted(best)]


SIGNS = {
    "ADD": "+",
    "SUB": "-",
    "MUL": "*",
    "DIV": "/",
    "REM": "%",
    "SHL": "<<",
    "SHR": ">>",
    "BIT_AND": "&",
    "BIT_OR": "|",
    "BIT_XOR": "^",
}

told = [
    f"|op I{left} {SIGNS[name]} I{right} -> I{value}" for name in RIGHT for left, right, value in rows(name)
]
print("? operators-on-integers\n> operators\n@ rows\n|# left, sign, right, value")
print("\n".join(told))
print(f"= 0\n|{len(told)} rows hold")
