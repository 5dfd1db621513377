// Who is likely to have sent what an event is of: the journal says it of chat by text and speaker alone.
import { CHAT, TOOK } from "./journal.js";
import { quoted } from "./quoting.js";

// Where something happened, for each key, and how many of these places each script took.
class Places {
  constructor() {
    this.found = new Map();
  }

  add(key, place) {
    const known = this.found.get(key);
    if (known) known.places.push(place);
    else this.found.set(key, { places: [place], taken: null });
  }

  // The next place that a script hasn't taken, if it fits: it is taken then.
  take(key, script, fits) {
    const known = this.found.get(key);
    if (!known) return undefined;
    const count = known.taken?.get(script) ?? 0;
    if (count >= known.places.length || !fits(known.places[count])) return undefined;
    known.taken ??= new Map();
    known.taken.set(script, count + 1);
    return known.places[count];
  }
}

// Where the quoted text that begins at a place ends.
function quotedEnd(text, start) {
  let at = start + 1;
  while (text[at] !== '"') at += text[at] === "\\" ? 2 : 1;
  return at + 1;
}

export class Arrows {
  constructor(journal, world) {
    Object.assign(this, { journal, world, found: [] });
    // Where each text was said and each object touched, and the last handler of each script.
    this.said = new Places();
    this.touched = new Places();
    this.latest = new Map();
  }

  prim(script) {
    return this.world.scripts[script - 1]?.prim;
  }

  // The speaker of a text: nobody is known where there is no world.
  speaker(key) {
    return this.world.begin ? key : "";
  }

  // Pairs, one after another, of the line or step from which an arrow leads, and the line to which it leads. Steps are
  // below 0. `places` has for each step the first line after it.
  all(places) {
    places.forEach((place, at) => this.addStep(this.world.steps[at], -place - 1));
    const { kinds, numbers, count } = this.journal;
    for (let line = 0; line < count; line++) {
      if (kinds[line] === CHAT) this.addChat(line, numbers[line]);
      else if (kinds[line] === TOOK) this.addTaken(line, numbers[line]);
    }
    return Int32Array.from(this.found);
  }

  addChat(line, script) {
    const rest = this.journal.rest(line);
    const voice = rest.indexOf(" ");
    const channel = rest.indexOf(" ", voice + 1);
    this.said.add(`${rest.slice(voice + 1, channel)} ${this.prim(script)?.key ?? ""} ${rest.slice(channel + 1)}`, line);
  }

  addStep({ word, fields }, place) {
    if (word === "say") {
      this.said.add(`${fields[0]} ${this.speaker(fields[2])} ${quoted(fields[3])}`, place);
    }
    if (word === "touch") this.touched.add(Number(fields[0]), place);
  }

  addTaken(line, script) {
    const [event, args] = this.journal.event(line);
    const prim = this.prim(script);
    if (event === "listen") {
      this.addHeard(line, script, args);
    } else if (event === "link_message" && prim) {
      this.addMessage(line, prim, Math.max(Number(args.split(" ")[0]), 1));
    } else if (event === "touch_start" && prim) {
      this.add(this.touched.take(prim.object, script, () => true), line);
    }
    this.latest.set(script, line);
  }

  addMessage(line, prim, link) {
    let place = -1;
    for (const [script, at] of this.latest) if (this.isSender(script, prim.object, link) && at > place) place = at;
    if (place >= 0) this.found.push(place, line);
  }

  addHeard(line, script, args) {
    const name = args.indexOf(" ") + 1;
    const key = quotedEnd(args, name) + 1;
    const text = quotedEnd(args, key) + 1;
    const said = `${args.slice(0, name - 1)} ${this.speaker(args.slice(key + 1, text - 2))} ${args.slice(text)}`;
    this.add(this.said.take(said, script, place => place < line), line);
  }

  add(place, line) {
    if (place !== undefined) this.found.push(place, line);
  }

  isSender(script, object, link) {
    const prim = this.prim(script);
    return prim !== undefined && prim.object === object && prim.link === link;
  }
}
