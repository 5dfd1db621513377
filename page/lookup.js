// What is known of the names of the language and of the lines of a world file: for completions, for the line below the
// editor and for what is under the pointer.
import { wordsOf } from "./worlds.js";

const NAME = /[A-Za-z_]\w*/g;
const MOST = 60;

export class Lookup {
  // `names` has for each name its sort, its signature and a line of what it does; `steps` the lines of world files.
  constructor(names, { fields, declarations, steps }) {
    Object.assign(this, { names, fields, forms: { ...declarations, ...steps } });
  }

  // The name around a place of a line, or nothing.
  nameAt(line, place) {
    const found = [...line.matchAll(NAME)].find(it => it.index <= place && place <= it.index + it[0].length);
    return found?.[0];
  }

  // The call whose arguments a place of a line is in, or nothing.
  callAround(line, place) {
    let depth = 0;
    for (let at = place - 1; at >= 0; at--) {
      if (line[at] === ")") depth++;
      if (line[at] === "(" && depth-- === 0) return /([A-Za-z_]\w*)\s*$/.exec(line.slice(0, at))?.[1];
    }
    return undefined;
  }

  // What is known of the name at a place, or of the call around it: its signature and what it does.
  ofScript(line, place) {
    for (const name of [this.nameAt(line, place), this.callAround(line, place)]) {
      if (name !== undefined && Object.hasOwn(this.names, name)) return this.names[name];
    }
    return null;
  }

  // The form of a line of a world file, and what its words mean.
  ofWorld(line, place) {
    const words = wordsOf(line);
    const form = words.length && Object.hasOwn(this.forms, words[0].text) ? this.forms[words[0].text] : null;
    if (!form) return null;
    const signature = [words[0].text, ...form.fields].join(" ");
    const at = words.findLastIndex(it => it.start <= place) - 1;
    const field = form.fields[Math.min(Math.max(at, -1), form.fields.length - 1)];
    const does = field ? `${form.does}. ${field}: ${this.fields[field].means}` : form.does;
    return { signature, does };
  }

  // The names that go on from a beginning: those of the language, and those of the text.
  choices(start, text) {
    const low = start.toLowerCase();
    const own = [...new Set(text.match(NAME))].filter(it => it !== start && !Object.hasOwn(this.names, it));
    const fits = name => name.toLowerCase().startsWith(low) || name.toLowerCase().startsWith(`ll${low}`);
    const known = Object.keys(this.names).filter(fits).map(name => ({ name, ...this.names[name] }));
    const fitting = own.filter(it => it.toLowerCase().startsWith(low));
    const others = fitting.map(name => ({ name, signature: name, does: "" }));
    return [...known, ...others].filter(it => it.name !== start).slice(0, MOST);
  }

  // The first words of a world file's lines.
  worldChoices(start) {
    const found = Object.keys(this.forms).filter(it => it.startsWith(start) && it !== start);
    const signature = name => [name, ...this.forms[name].fields].join(" ");
    return found.map(name => ({ name, signature: signature(name), does: this.forms[name].does }));
  }
}
