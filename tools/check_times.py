"""check_times.py PROGRAM: how long `check` takes for scripts of growing size, of functions, of globals and of local
variables. Prints for each the bytes, the names and the shortest of three times in milliseconds."""
import os
import subprocess
import sys
import tempfile
import time

PARTS = {
    "functions": ("", "f{0}(integer a){{integer b=a;b=b+a;}}", "default{timer(){}}"),
    "globals": ("", "integer g{0}={0};", "default{timer(){}}"),
    "locals": ("default{timer(){", "integer v{0}=1;", "}}"),
}


def script(kind, limit):
    front, part, end = PARTS[kind]
    names = 0
    text = front
    while len(text) + len(part.format(names)) + len(end) <= limit:
        text += part.format(names)
        names += 1
    return text + end, names


def shortest(words):
    times = []
    for _ in range(3):
        begun = time.perf_counter()
        subprocess.run(words, stdout=subprocess.DEVNULL, check=True)
        times.append(time.perf_counter() - begun)
    return min(times) * 1000


program = os.path.abspath(sys.argv[1])
with tempfile.TemporaryDirectory() as folder:
    path = os.path.join(folder, "script.lsl")
    for kind in PARTS:
        for limit in (7000, 14000, 28000, 56000):
            text, names = script(kind, limit)
            with open(path, "w", encoding="ascii") as file:
                file.write(text)
            print(f"{kind:10} {len(text):6} bytes {names:5} names {shortest([program, 'check', path]):7.2f} ms")
