// The editor: a text area for each file, so that each keeps its own undo, over a painting of the lines that are seen.
import { bracketsAt } from "./brackets.js";
import { Lines } from "./lines.js";
import { PaintedRows } from "./painting.js";
import { newLine, put, shut, tab } from "./typing.js";

const at = id => document.getElementById(id);
const HEIGHT = 18;
const PAD = 6;
const BEYOND = 15;

export class Editor {
  // `grammarOf` answers the grammar of a file's name.
  constructor(play, grammarOf) {
    Object.assign(this, { play, grammarOf, areas: new WeakMap(), lines: new Lines(), marks: [], heard: [] });
    this.element = at("editor");
    this.rows = new PaintedRows(at("paint"));
    this.element.addEventListener("scroll", () => this.paint());
    new ResizeObserver(() => this.measure()).observe(this.element);
    document.addEventListener("selectionchange", () => this.area === document.activeElement && this.move());
  }

  // `heard` is called when the text or the caret has changed.
  listen(heard) {
    this.heard.push(heard);
  }

  areaOf(file) {
    if (!this.areas.has(file)) this.areas.set(file, this.made(file));
    return this.areas.get(file);
  }

  made(file) {
    const area = document.createElement("textarea");
    Object.assign(area, { value: file.text, wrap: "off", spellcheck: false, ariaLabel: `Text of ${file.name}` });
    for (const name of ["autocapitalize", "autocomplete", "autocorrect"]) area.setAttribute(name, "off");
    area.setAttribute("aria-describedby", "hint");
    area.addEventListener("input", () => this.keep(file, area));
    area.addEventListener("keydown", event => this.key(event));
    return area;
  }

  // Shows the file that is chosen.
  show() {
    const file = this.play.shown;
    const area = this.areaOf(file);
    area.ariaLabel = `Text of ${file.name}`;
    if (area === this.area && area.isConnected) return this.set();
    if (this.area) this.area.remove();
    if (area.value !== file.text) area.value = file.text;
    this.area = area;
    // The sheet gets its size before it has the text area, which is laid out once then.
    this.element.scrollTo(0, 0);
    this.set();
    at("sheet").append(area);
    return undefined;
  }

  set() {
    const { name, text } = this.play.shown;
    this.lines.set(text, this.grammarOf(name));
    this.measure();
  }

  keep(file, area) {
    this.play.setText(area.value, file);
    this.set();
    this.move();
  }

  // Changes a part of the file that is shown, so that undo takes it back.
  change(start, end, text) {
    put(this.area, start, end, text);
  }

  // Sizes the sheet: the text area itself never scrolls, so that the painting stays on it.
  measure() {
    if (!this.area) return;
    this.character ??= this.characterWidth();
    const { clientWidth, clientHeight } = this.element;
    const count = this.lines.lines.length;
    this.margin = Math.ceil((String(count).length + 1) * this.character) + 10;
    const width = Math.max(clientWidth, this.margin + (this.lines.widest + 2) * this.character + 2 * PAD);
    const height = Math.max(clientHeight, count * HEIGHT + 2 * PAD);
    Object.assign(at("sheet").style, { width: `${Math.ceil(width)}px`, height: `${height}px` });
    Object.assign(this.area.style, { width: `${Math.ceil(width) - this.margin}px`, height: `${height}px` });
    at("gutter").style.width = `${this.margin}px`;
    for (const it of [this.area, at("paint")]) it.style.left = `${this.margin}px`;
    this.painted = null;
    this.paint();
  }

  characterWidth() {
    const probe = document.createElement("span");
    probe.textContent = "0".repeat(100);
    at("paint").append(probe);
    const width = probe.getBoundingClientRect().width / 100 || 7;
    probe.remove();
    return width;
  }

  // Paints the lines that are seen, and some beyond them.
  paint() {
    const { scrollTop, clientHeight } = this.element;
    const first = Math.max(0, Math.floor((scrollTop - PAD) / HEIGHT));
    const last = Math.min(this.lines.lines.length, Math.ceil((scrollTop + clientHeight) / HEIGHT));
    if (this.painted && first >= this.painted.from && last <= this.painted.to) return;
    const from = Math.max(0, first - BEYOND);
    const to = Math.min(this.lines.lines.length, last + BEYOND);
    this.painted = { from, to };
    const numbers = Array.from({ length: to - from }, (_, line) => from + line + 1).join("\n");
    if (at("numbers").textContent !== numbers) at("numbers").textContent = numbers;
    const rows = Array.from({ length: to - from }, (_, line) => this.row(from + line));
    this.rows.paint(rows, from);
    for (const it of [at("numbers"), at("paint")]) it.style.transform = `translateY(${from * HEIGHT}px)`;
  }

  // What a line is painted with: its pieces, and the words beside it.
  row(line) {
    const mark = this.marks.find(it => it.line === line);
    const pairs = (this.pair ?? []).filter(it => it.line === line).map(it => it.place);
    return { text: this.lines.lines[line], state: this.lines.state(line), mark, pairs, lines: this.lines, line };
  }

  // Where the caret is.
  get caret() {
    return this.lines.at(this.area.selectionEnd);
  }

  move() {
    const pair = this.area.selectionStart === this.area.selectionEnd ? bracketsAt(this.lines, this.caret) : [];
    if (JSON.stringify(pair) !== JSON.stringify(this.pair ?? [])) {
      this.pair = pair;
      this.painted = null;
      this.paint();
    }
    this.reveal(this.caret);
    for (const heard of this.heard) heard();
  }

  // Scrolls so that a place is seen.
  reveal({ line, place }) {
    const { scrollTop, scrollLeft, clientHeight, clientWidth } = this.element;
    const [top, x] = [PAD + line * HEIGHT, this.margin + PAD + this.lines.columns(line, place) * this.character];
    if (top < scrollTop) this.element.scrollTop = top - PAD;
    if (top + 2 * HEIGHT > scrollTop + clientHeight) this.element.scrollTop = top + 2 * HEIGHT - clientHeight;
    if (x < scrollLeft + this.margin + 20) this.element.scrollLeft = Math.max(0, x - this.margin - 40);
    if (x > scrollLeft + clientWidth - 20) this.element.scrollLeft = x - clientWidth + 60;
  }

  // Where a place is drawn, from the sheet's corner.
  pointOf({ line, place }) {
    const x = this.margin + PAD + this.lines.columns(line, place) * this.character;
    return { x, y: PAD + line * HEIGHT, height: HEIGHT };
  }

  // The place under a point of the window, or nothing.
  placeUnder(x, y) {
    const sheet = at("sheet").getBoundingClientRect();
    const line = Math.floor((y - sheet.y - PAD) / HEIGHT);
    const column = (x - sheet.x - this.margin - PAD) / this.character;
    if (line < 0 || line >= this.lines.lines.length || column < 0) return null;
    return { line, place: this.lines.placeAt(line, column) };
  }

  // Marks lines, with words beside them: `{line, text, sort}`, lines counted from 0.
  mark(marks) {
    this.marks = marks;
    this.painted = null;
    this.paint();
  }

  // Puts the caret at a place of a line, and sees to it that it is seen.
  go(line, place) {
    const start = this.lines.startOf(line) + place;
    const end = Math.min(start + 1, this.lines.text.length);
    this.area.focus({ preventScroll: true });
    this.area.setSelectionRange(start, end);
    this.element.scrollTop = Math.max(0, line * HEIGHT - this.element.clientHeight / 2);
    this.reveal({ line, place });
  }

  // Keys that the list of completions hasn't taken.
  key(event) {
    if (this.taken?.(event) || event.altKey || event.ctrlKey || event.metaKey || event.isComposing) return;
    const act = {
      Tab: () => tab(this.area, event.shiftKey),
      Enter: () => newLine(this.area),
      Escape: () => at("run").focus(),
      "}": () => shut(this.area),
    }[event.key];
    if (act && act() !== false) event.preventDefault();
  }
}
