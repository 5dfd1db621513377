"""The list of the page's tests, and how one fails."""

TESTS = []


class Failed(Exception):
    """What was wanted, and what came."""


def test(function):
    """Adds a function to the tests. Its name says what it shows; it answers what it counted. One with a parameter is
    handed an open page in a browser."""
    TESTS.append(function)
    return function


def need(holds, *said):
    if not holds:
        raise Failed(" ".join(map(str, said)))


def in_both(function):
    """Has a test be run in each browser, and not in Chromium alone."""
    function.is_in_both = True
    return test(function)
