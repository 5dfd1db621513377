// What the name at the caret is, in the line below the editor, and what the one under the pointer is.
import { isWorld } from "./state.js";

const at = id => document.getElementById(id);

export class Hints {
  constructor(editor, play, lookup) {
    Object.assign(this, { editor, play, lookup });
    editor.listen(() => this.show(this.of(this.editor.caret)));
    editor.element.addEventListener("pointermove", event => this.hover(event));
    editor.element.addEventListener("pointerleave", () => (at("tip").hidden = true));
    editor.element.addEventListener("keydown", () => (at("tip").hidden = true));
  }

  of({ line, place }) {
    const text = this.editor.lines.lines[line] ?? "";
    return isWorld(this.play.shown.name) ? this.lookup.ofWorld(text, place) : this.lookup.ofScript(text, place);
  }

  show(found) {
    const hint = at("hint");
    if (!found) return hint.replaceChildren();
    const name = document.createElement("b");
    name.textContent = found.signature;
    return hint.replaceChildren(name, found.does ? ` ${found.does}` : "");
  }

  hover(event) {
    const tip = at("tip");
    const isFree = event.pointerType === "mouse" && event.buttons === 0;
    const place = isFree && this.editor.placeUnder(event.clientX, event.clientY);
    const mark = place && this.editor.marks.find(it => it.line === place.line);
    const found = place && (mark ? { signature: mark.text, does: "" } : this.of(place));
    const isOnName = found && (mark || /\w/.test(this.editor.lines.lines[place.line][place.place] ?? ""));
    tip.hidden = !isOnName;
    if (tip.hidden) return;
    tip.textContent = found.does ? `${found.signature}\n${found.does}` : found.signature;
    const { x, y, height } = this.editor.pointOf(place);
    Object.assign(tip.style, { left: `${x}px`, top: `${y + height + 2}px` });
  }
}
