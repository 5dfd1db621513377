"""What the tools of this repository share: scripts, world files, journals and the program, seen by Python.

Python 3.8 and its standard library are enough. Each module does one thing, and says it in its first line."""
