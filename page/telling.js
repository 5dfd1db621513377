// A journal's lines and a world's steps in plain words, with names in place of numbers and keys. The phrases are data
// (tools/words), which tools/lslkit/telling.py fills the same way.
import { CHAT, CLEAR, DONE, DROP, FAULT, HOME, OWNER, TOOK, fields } from "./journal.js";
import { quoted } from "./quoting.js";
import { filled } from "./words.js";
import { KEY } from "./worlds.js";

const MOST_SHOWN = 240;
const WHOLE_KEY = new RegExp(`^${KEY.source}$`);
const EACH_KEY = new RegExp(KEY.source, "g");

// A text that is shown in a line of its own, or its front.
function cut(text) {
  if (text.length <= MOST_SHOWN) return text;
  const signs = Array.from(text);
  return signs.length <= MOST_SHOWN ? text : signs.slice(0, MOST_SHOWN).join("") + "..";
}

const grouped = number => number.replace(/\B(?=(\d{3})+$)/g, ",");

export function seconds(milliseconds) {
  return `${Math.floor(milliseconds / 1000)}.${String(milliseconds % 1000).padStart(3, "0")}`;
}

// The clock after each step, in milliseconds.
export function clocksOf(world) {
  let clock = 0;
  return world.steps.map(step => {
    if (step.word === "clock") clock = Math.max(clock, Number(step.fields[0]));
    return clock;
  });
}

// The names of a world's scripts and objects, and of those whose keys come up in it. `words` are the tables of
// tools/words, and `known` what was found before in the world's steps.
export class Names {
  constructor(world, words, known) {
    Object.assign(this, { world, words });
    const counts = new Map();
    for (const { name } of world.scripts) counts.set(name, (counts.get(name) ?? 0) + 1);
    const isAlone = name => name !== "" && counts.get(name) === 1;
    this.scripts = world.scripts.map(({ name }, at) => (isAlone(name) ? name : `${name} (${at + 1})`));
    if (known) Object.assign(this, known);
    else this.readSteps();
  }

  readSteps() {
    this.keys = new Map();
    const prims = this.world.objects.flatMap(it => it.prims);
    for (const { key, name } of prims) if (name) this.keys.set(key, name);
    for (const { word, fields: said } of this.world.steps) {
      if (word === "say") this.addKey(said[2], said[1]);
      if (word === "touch") this.addKey(said[2], said[3]);
    }
    this.followCrossings();
  }

  addKey(key, name) {
    if (!this.keys.has(key.toLowerCase())) this.keys.set(key.toLowerCase(), name);
  }

  // For the line of each crossing the region that the object is to leave, and for each object where it is to end.
  followCrossings() {
    this.ways = new Map();
    this.homes = new Map(this.world.objects.map((it, at) => [at + 1, it.region]));
    for (const { line, word, fields: said } of this.world.steps) {
      if (word !== "cross") continue;
      this.ways.set(line, this.homes.get(Number(said[0])));
      this.homes.set(Number(said[0]), said[1]);
    }
  }

  say(name, values) {
    return filled(this.words.journal[name], values ?? {});
  }

  sayStep(name, values) {
    return filled(this.words.steps.says[name], values);
  }

  script(number) {
    return this.scripts[number - 1] ?? this.say("script", { number });
  }

  object(number) {
    return this.world.objects[number - 1]?.prims[0].name ?? this.say("object", { number });
  }

  prim(number, link) {
    return this.world.objects[number - 1]?.prims[Math.max(link, 1) - 1]?.name ?? this.say("prim", { number: link });
  }

  region(name) {
    return name || this.say("no name");
  }

  // A value as it is shown: known keys by their names.
  value(text, isQuoted) {
    if (!isQuoted) return text;
    const name = WHOLE_KEY.test(text) ? this.keys.get(text.toLowerCase()) : undefined;
    if (name !== undefined) return `<${name}>`;
    return quoted(cut(text.replace(EACH_KEY, key => this.namedKey(key))));
  }

  namedKey(key) {
    const name = this.keys.get(key.toLowerCase());
    return name === undefined ? key : `<${name}>`;
  }

  event(journal, line) {
    const [event, args] = journal.event(line);
    return `${event}(${fields(args).map(it => this.value(...it)).join(", ")})`;
  }

  // A line of the journal, without its script's name. `state` is the one of a `clear`, where it is known.
  entry(journal, line, state) {
    const rest = journal.rest(line);
    const words = () => fields(rest).map(it => it[0]);
    switch (journal.kinds[line]) {
      case TOOK: return this.say("took", { event: this.event(journal, line) });
      case DROP: return this.say("drop", { event: this.event(journal, line) });
      case CLEAR: return this.clear(rest, state);
      case CHAT: return this.chat(...words());
      case OWNER: return this.say("owner", { text: this.value(words()[0], true) });
      case DONE: return this.say("done", { charge: grouped(rest) });
      case FAULT: return this.say("fault", { reason: words()[0] });
      case HOME: return this.home(journal.numbers[line], words()[0]);
      default: return `${journal.word(line)} ${cut(rest)}`;
    }
  }

  clear(count, state) {
    const said = state ? this.say("clear in", { state }) : this.say("clear");
    return count === "0" ? said : this.say("clear gone", { said, count });
  }

  chat(voice, channel, text) {
    const name = `chat ${voice}` in this.words.journal ? `chat ${voice}` : "chat";
    return this.say(name, { voice, channel, text: this.value(text, true) });
  }

  home(number, region) {
    const wanted = this.homes.get(number);
    const values = { object: this.object(number), region: this.region(region), wanted: this.region(wanted) };
    return this.say(wanted === undefined || wanted === region ? "home" : "home missed", values);
  }

  crossing(number, region, left) {
    const name = left === region ? "cross stays" : left === undefined ? "cross" : "cross from";
    const values = { object: this.object(number), region: this.region(region), left: this.region(left) };
    return this.sayStep(name, values);
  }

  segments(count) {
    return this.sayStep(count === "1" ? "segment" : "segments", { count });
  }

  pauses(gaps) {
    if (gaps.length === 1 && gaps[0] === "0") return this.sayStep("pause end", {});
    if (gaps.length === 1) return this.sayStep("pause", { segments: this.segments(gaps[0]) });
    return this.sayStep("pause gaps", { gaps: gaps.join(", ") });
  }

  touch(number, link, name) {
    const values = { name, object: this.object(number), link };
    return link > 1 ? this.sayStep("touch prim", { ...values, prim: this.prim(number, link) })
      : this.sayStep("touch", values);
  }

  // A step of the world file.
  step({ line, word, fields: said }) {
    const someone = name => name || this.say("someone");
    switch (word) {
      case "say": return this.sayStep("say", { name: someone(said[1]), channel: said[0], text: quoted(cut(said[3])) });
      case "touch": return this.touch(Number(said[0]), Number(said[1]), someone(said[3]));
      case "clock": return this.sayStep("clock", { seconds: seconds(Number(said[0])) });
      case "cross": return this.crossing(Number(said[0]), said[1], this.ways.get(line));
      case "pause": return this.pauses(said);
      case "changed":
      case "rez": return this.sayStep(word, { object: this.object(Number(said[0])), number: said[1] });
      case "go": return this.sayStep("go", { script: this.script(Number(said[0])), segments: this.segments(said[1]) });
      case "run": return this.sayStep("run", { segments: this.segments(said[0]) });
      default: return [word, ...said].join(" ");
    }
  }
}
