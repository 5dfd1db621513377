// The faults of files: their lines are marked in the editor with the words beside them, and listed below the editor.

const at = id => document.getElementById(id);

export class Problems {
  // `go` is called with a file's name, a line and a place of it.
  constructor(play, editor, go) {
    Object.assign(this, { play, editor, go, found: [] });
    at("problems").addEventListener("click", event => {
      const item = event.target.closest("button");
      if (item) this.visit(this.found[Number(item.dataset.at)]);
    });
  }

  visit({ name, line, place }) {
    this.go(name, line, place);
  }

  show(faults) {
    this.found = faults;
    const list = at("problems");
    list.hidden = !faults.length;
    list.replaceChildren(...this.found.map((it, place) => this.item(it, place)));
    this.mark();
  }

  item({ said, hints }, place) {
    const [item, button, hint] = ["li", "button", "span"].map(it => document.createElement(it));
    button.textContent = said.split("\n")[0];
    button.dataset.at = place;
    hint.textContent = hints.join("; ");
    item.append(button, hint);
    return item;
  }

  // Marks the lines of the file that is shown.
  mark() {
    const here = this.found.filter(it => it.name === this.play.shown.name);
    const words = ({ says, hints }) => [says, ...hints].join("; ");
    this.editor.mark(here.map(it => ({ line: it.line - 1, text: words(it), sort: "" })));
  }

  // Forgets the faults of a file that has changed.
  forget(name) {
    if (this.found.some(it => it.name === name)) this.show(this.found.filter(it => it.name !== name));
  }
}
