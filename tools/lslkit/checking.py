"""Runs the checks of tools/check_tools."""
from . import syntax

CHECKS = []
# The words by which the checks of this run were chosen.
WORDS = []


class Failed(Exception):
    """What was wanted, and what came."""


class Skipped(Exception):
    """What a check needs that isn't there."""


def check(function):
    """Adds a function to the checks. Its name says what it shows."""
    CHECKS.append(function)
    return function


def need(holds, *said):
    if not holds:
        raise Failed(" ".join(map(str, said)))


def run(words, slow=(), share=(1, 1)):
    """Runs the checks that have one of the words in their names, but those of the slow modules. Of these only each Nth
    from the Kth on, if the share is (K, N). The status."""
    WORDS[:], failed, skipped = words, 0, 0
    chosen = [it for it in CHECKS if not words or any(word in it.__name__ for word in words)]
    chosen = [it for it in chosen if it.__module__.rpartition(".")[2] not in slow]
    chosen = chosen[share[0] - 1 :: share[1]]
    for it in chosen:
        name = it.__name__.replace("_", " ")
        try:
            it()
            print(f"ok      {name}", flush=True)
        except (Failed, SyntaxError, ValueError, syntax.Unexpected) as error:
            failed += 1
            print(f"FAILED  {name}: {error}", flush=True)
        except Skipped as error:
            skipped += 1
            print(f"skipped {name}: {error}", flush=True)
    if skipped:
        print(f"{skipped} not run: what they need isn't here")
    print(f"{len(chosen) - failed - skipped} passed, {failed} failed")
    return 1 if failed else 0
