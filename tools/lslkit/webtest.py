"""Runs the tests of the page: in node, and in the browsers that are here."""
import contextlib
import inspect
import threading

from . import browsers, webserver
from . import webaccess, weblinks, webnode, webstepping, webtimes, webwalks  # (for their tests)
from .webpages import Page
from .webtesting import TESTS, Failed

__all__ = ["webaccess", "weblinks", "webnode", "webstepping", "webtimes", "webwalks"]
SORTS = (browsers.Chromium, browsers.Firefox)


@contextlib.contextmanager
def served():
    """The page's address, while it is served."""
    with webserver.opened(0) as serving:
        threading.Thread(target=serving.serve_forever, daemon=True).start()
        yield f"http://{webserver.HOST}:{serving.server_port}/"
        serving.shutdown()


def is_of_browser(it):
    return bool(inspect.signature(it).parameters)


def ran(it, name, *page):
    """Whether a test passes; it prints a line."""
    try:
        said, is_good = f"ok, {it(*page)}", True
    except (Failed, browsers.Faulty) as error:
        said, is_good = f"FAILED: {str(error)[:2000]}", False
    print(f"{name}: {said}", flush=True)
    return is_good


def in_browser(sort, tests):
    """How many of these tests pass in a browser."""
    name = sort.__name__.lower()
    with served() as url, browsers.opened(sort) as tab:
        return sum(ran(it, f"{it.__name__} ({name})", Page(tab, url)) for it in tests)


def main(words):
    """Runs the tests that have one of the words in their names; after `--node` those in node alone. The status."""
    is_quick = words[:1] == ["--node"]
    words = words[1:] if is_quick else words
    chosen = [it for it in TESTS if not words or any(word in it.__name__ for word in words)]
    passed = sum(ran(it, it.__name__) for it in chosen if not is_of_browser(it))
    count = sum(not is_of_browser(it) for it in chosen)
    for sort in () if is_quick else SORTS:
        tests = [it for it in chosen if is_of_browser(it) and (sort is SORTS[0] or hasattr(it, "is_in_both"))]
        if not browsers.path_of(sort.names):
            print(f"page: there is no {sort.__name__}, so nothing is shown in it")
            continue
        count += len(tests)
        passed += in_browser(sort, tests) if tests else 0
    print(f"{passed} passed, {count - passed} failed")
    return 1 if passed < count or not count else 0
