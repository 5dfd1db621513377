"""The page in a browser, as the tests use it."""
import json

from . import browsers, webpage

# A run has ended, and what there is of it is drawn.
ENDED = """(() => { const it = document.getElementById("result");
  return it.dataset.runs !== undefined && it.getAttribute("aria-busy") === "false"
    && document.getElementById("stop").disabled
    && (document.getElementById("timeline").className === "empty" || it.dataset.drawn === it.dataset.runs); })()"""
FRAMES = 4


class Page:
    """The page in a tab."""

    def __init__(self, tab, url):
        self.tab, self.url = tab, url

    def fresh(self, fragment="", ready=ENDED):
        """Opens the page as for the first time."""
        # The page itself would keep its files once more when it is left.
        self.tab.open(self.url + "style.css")
        self.tab.until("location.pathname === '/style.css' && (localStorage.clear(), true)")
        self.tab.said.clear()
        self.open(fragment, ready)

    def open(self, fragment="", ready=ENDED):
        self.tab.open(self.url + (f"#{fragment}" if fragment else ""))
        self.tab.until(ready)

    def value(self, expression):
        return self.tab.value(expression)

    def text(self, name):
        """The text of an element, or none where it isn't seen."""
        return self.value(f"(it => it.checkVisibility() ? it.innerText : '')(document.getElementById({json.dumps(name)}))")

    def is_seen(self, name):
        return self.value(f"document.getElementById({json.dumps(name)}).checkVisibility()")

    def drawn(self):
        """Waits until the browser has drawn what has changed: sizes are observed in one frame, and followed by the next."""
        self.value(f"new Promise(done => (function wait(left) {{ "
                   f"requestAnimationFrame(() => left ? wait(left - 1) : done(true)); }})({FRAMES}))")

    @property
    def status(self):
        return self.value("document.getElementById('status').textContent")

    @property
    def source(self):
        """The text in the editor."""
        return self.value("document.querySelector('#sheet textarea').value")

    @property
    def tabs(self):
        return self.value("[...document.querySelectorAll('#tabs button')].map(it => it.textContent)")

    @property
    def focus(self):
        """The id of the element that has the focus, or its tag."""
        return self.value("document.activeElement.id || document.activeElement.tagName")

    def run(self, act, seconds=browsers.SECONDS):
        """Does what begins a run, and waits for its end."""
        before = self.value("Number(document.getElementById('result').dataset.runs ?? 0)")
        act()
        self.tab.until(f"Number(document.getElementById('result').dataset.runs) > {before} && {ENDED}", seconds)

    def press_run(self):
        """Presses the button Run by a key, where the browser can."""
        self.value("(document.getElementById('run').focus(), true)")
        self.run(lambda: self.tab.press("Enter", *([] if self.tab.keys_press_buttons else ["Control"])))

    def click_run(self):
        self.run(lambda: self.tab.click("#run"))

    def example(self, title):
        """Chooses an example."""
        self.example_at([it["title"] for it in webpage.examples()].index(title))

    def example_at(self, number):
        self.run(lambda: self.value(f"""(() => {{ const list = document.getElementById("examples");
          list.value = {number}; list.dispatchEvent(new Event("change")); return true; }})()"""))

    def edit(self, text):
        """Types a text in place of the one in the editor."""
        self.focus_editor()
        self.tab.press("a", "Control")
        self.tab.insert(text)

    def focus_editor(self, place=None):
        self.value("(document.querySelector('#sheet textarea').focus(), true)")
        if place is not None:
            self.select(place, place)

    def select(self, start, end):
        self.value(f"(document.querySelector('#sheet textarea').setSelectionRange({start}, {end}), true)")

    @property
    def selection(self):
        return self.value("(it => [it.selectionStart, it.selectionEnd])(document.querySelector('#sheet textarea'))")

    def link(self, play):
        """The fragment of a link."""
        return self.value(f"import('./share.js').then(it => it.packed({json.dumps(play)}))")

    def follow(self, play):
        """Follows a link in the open page."""
        link = self.link(play)
        self.run(lambda: self.value(f"(location.hash = {json.dumps(link)}, true)"))


def script(text, how="once", name="calc.lsl", steps=""):
    """A play of one script."""
    return {"files": [[name, text]], "how": how, "file": name, "steps": steps}
