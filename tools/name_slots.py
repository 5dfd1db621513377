#!/usr/bin/env python3
"""Prints the slots by which crates/lsl_table finds names: for each table its `base` and its `slots`.

Run it at the top of the repository as `python3 tools/name_slots.py`, after a name was added, and copy what it
prints into the tables `CALLS` and `NAMES`. A wrong slot is refused by the proof.

A name's hash takes its bytes as digits to the base, modulo a prime. The base is the first at which no two names
of the table share a slot.
"""

import re

ROW = r'^ +\w+ "(\w+)" .*;$'
PRIME = 65521
NO_ROW = 255
TABLES = [
    ("calls", 256),
    ("events", 16),
    ("constants", 64),
]


def hash_of(base, name):
    number = 0
    for byte in name.encode():
        number = (number * base + byte) % PRIME
    return number


def first_base(names, size):
    for base in range(2, PRIME):
        if len({hash_of(base, name) % size for name in names}) == len(names):
            return base
    raise SystemExit("no base: take more slots")


for table, size in TABLES:
    with open(f"crates/lsl_table/src/{table}.rt", encoding="utf-8") as source:
        names = re.findall(ROW, source.read(), re.MULTILINE)
    base = first_base(names, size)
    slots = [NO_ROW] * size
    for number, name in enumerate(names):
        slots[hash_of(base, name) % size] = number
    print(f"{table}: {len(names)} names, base {base}, slots {slots}")
