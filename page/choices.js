// Completions: a list under the caret while a name is typed, or at Ctrl and the space bar.
import { isWorld } from "./state.js";

const at = id => document.getElementById(id);
const LEAST = 2;
const WIDTH = 360;

export class Choices {
  constructor(editor, play, lookup) {
    Object.assign(this, { editor, play, lookup, found: [], chosen: 0, caret: -1 });
    editor.taken = event => this.key(event);
    at("sheet").addEventListener("input", event => {
      const isTyping = event.inputType === "insertText" && /\w/.test(event.data ?? "");
      if (isTyping) this.offer(LEAST);
      else this.shut();
    });
    at("sheet").addEventListener("focusout", () => this.shut());
    // A caret that went elsewhere shuts the list.
    editor.listen(() => this.isOpen && editor.area.selectionEnd !== this.caret && this.shut());
    at("choices").addEventListener("pointerdown", event => {
      event.preventDefault();
      const item = event.target.closest("li");
      if (item) this.take([...at("choices").children].indexOf(item));
    });
  }

  get isOpen() {
    return !at("choices").hidden;
  }

  // The name that ends at the caret.
  get start() {
    const { line, place } = this.editor.caret;
    return /[A-Za-z_]\w*$/.exec(this.editor.lines.lines[line].slice(0, place))?.[0] ?? "";
  }

  offer(least) {
    const { start } = this;
    const { line, place } = this.editor.caret;
    const isFirst = this.editor.lines.lines[line].slice(0, place - start.length).trim() === "";
    const isName = this.isPlain(line, place);
    this.found = [];
    const isInWorld = isWorld(this.play.shown.name);
    if (start.length >= least && isInWorld) this.found = isFirst ? this.lookup.worldChoices(start) : [];
    else if (start.length >= least && isName) this.found = this.lookup.choices(start, this.editor.lines.text);
    this.chosen = 0;
    this.caret = this.editor.area.selectionEnd;
    this.draw();
  }

  // Whether a place is in no text and no comment.
  isPlain(line, place) {
    let end = 0;
    for (const [text, className] of this.editor.lines.pieces(line)) {
      end += text.length;
      if (end >= place) return !/^c-(string|comment)/.test(className);
    }
    return true;
  }

  draw() {
    const list = at("choices");
    list.hidden = this.found.length === 0;
    const { area } = this.editor;
    if (list.hidden) {
      area?.removeAttribute("aria-activedescendant");
      return;
    }
    list.replaceChildren(...this.found.map((it, place) => this.item(it, place)));
    const caret = this.editor.caret;
    const point = this.editor.pointOf({ line: caret.line, place: caret.place - this.start.length });
    const { scrollLeft, clientWidth } = this.editor.element;
    const left = Math.max(0, Math.min(point.x, scrollLeft + clientWidth - WIDTH));
    Object.assign(list.style, { left: `${left}px`, top: `${point.y + point.height}px`, maxWidth: `${WIDTH}px` });
    area.setAttribute("aria-controls", "choices");
    area.setAttribute("aria-activedescendant", `choice-${this.chosen}`);
  }

  item({ name, signature, does }, place) {
    const item = document.createElement("li");
    Object.assign(item, { id: `choice-${place}`, role: "option", ariaSelected: `${place === this.chosen}` });
    item.append(name);
    item.title = does ? `${signature}\n${does}` : signature;
    return item;
  }

  shut() {
    this.found = [];
    this.draw();
  }

  move(step) {
    this.chosen = (this.chosen + step + this.found.length) % this.found.length;
    for (const [place, item] of [...at("choices").children].entries()) item.ariaSelected = `${place === this.chosen}`;
    at("choices").children[this.chosen].scrollIntoView({ block: "nearest" });
    this.editor.area.setAttribute("aria-activedescendant", `choice-${this.chosen}`);
    this.said?.(this.found[this.chosen]);
  }

  take(place) {
    const { name } = this.found[place];
    const end = this.editor.area.selectionEnd;
    const start = end - this.start.length;
    this.shut();
    this.editor.change(start, end, name);
    this.shut();
  }

  // Whether a key was for the list.
  key(event) {
    if (event.key === " " && event.ctrlKey) {
      event.preventDefault();
      this.offer(0);
      return true;
    }
    if (!this.isOpen) return false;
    const act = {
      ArrowDown: () => this.move(1), ArrowUp: () => this.move(-1), Escape: () => this.shut(),
      Enter: () => this.take(this.chosen), Tab: () => this.take(this.chosen),
    }[event.key];
    if (!act || event.shiftKey) return false;
    event.preventDefault();
    act();
    return true;
  }
}
