// What is known at each moment of a trace: which calls are active, and what was told of their variables by then. It is
// folded from the trace's own lines; the moves between moments are the core's.
import { AGAIN, LEAVE, NOTE, RESULT, SAID, STMT } from "./trace.js";

const STOPS = [STMT, AGAIN, LEAVE];

// The places of so many values, gathered by their keys: those of a key are in order.
class Gathered {
  constructor(count, keyOf) {
    let most = 0;
    for (let at = 0; at < count; at++) most = Math.max(most, keyOf(at));
    this.starts = new Uint32Array(most + 2);
    for (let at = 0; at < count; at++) this.starts[keyOf(at) + 1]++;
    for (let key = 0; key <= most; key++) this.starts[key + 1] += this.starts[key];
    const next = this.starts.slice();
    this.places = new Uint32Array(count);
    for (let at = 0; at < count; at++) this.places[next[keyOf(at)]++] = at;
  }

  // The places of a key up to a value that `read` gives of each, the last one first.
  *backwards(key, value, read) {
    let [low, high] = [this.starts[key] ?? 0, this.starts[key + 1] ?? 0];
    const first = low;
    while (low < high) {
      const middle = (low + high) >> 1;
      if (read(this.places[middle]) <= value) low = middle + 1;
      else high = middle;
    }
    for (let at = low - 1; at >= first; at--) yield this.places[at];
  }
}

export class Moments {
  constructor(trace) {
    Object.assign(this, trace.moments, { trace, count: trace.moments.steps.length });
    const { serials, slots } = trace.told;
    this.toldAt = trace.told.moments;
    const calls = this.serials.reduce((most, it) => Math.max(most, it), 0);
    this.follow(calls);
    const isLine = at => this.sorts[at] !== SAID && this.sorts[at] !== NOTE;
    this.ofCall = new Gathered(this.count, at => (isLine(at) ? this.serials[at] : 0));
    // A script's own variables have a key of their own, after those of the calls.
    this.keyOf = script => calls + script;
    this.told = new Gathered(serials.length, at => serials[at] || this.keyOf(this.scripts[this.toldAt[at]]));
    this.slotOf = at => slots[at];
  }

  // Finds the stops, for each call the one around it, and for each moment the call that is active.
  follow(calls) {
    const { text } = this.trace;
    const [active, stops] = [new Map(), []];
    const isTold = this.sorts.some(it => it !== SAID);
    Object.assign(this, { active: new Uint32Array(this.count), outerOf: new Uint32Array(calls + 1) });
    for (let at = 0; at < this.count; at++) {
      const [sort, script, start] = [this.sorts[at], this.scripts[at], this.texts[at]];
      const starts = word => sort === SAID && text.startsWith(`${word} `, start);
      if (sort !== SAID) this.outerOf[this.serials[at]] = this.outers[at];
      const isDrop = starts("drop");
      this.active[at] = sort !== SAID ? this.serials[at] : isDrop ? 0 : active.get(script) ?? 0;
      const after = sort === LEAVE ? this.outers[at] : starts("done") || starts("fault") ? 0 : this.active[at];
      if (!isDrop) active.set(script, after);
      if (STOPS.includes(sort) || starts("fault") || (!isTold && starts("took"))) stops.push(at);
    }
    this.stops = Uint32Array.from(stops);
  }

  // What was told of a variable by a moment, or nothing.
  value(key, slot, moment) {
    for (const at of this.told.backwards(key, moment, it => this.toldAt[it])) {
      if (this.slotOf(at) !== slot) continue;
      const start = this.trace.told.starts[at];
      return this.trace.text.slice(start, this.trace.text.indexOf("\n", start));
    }
    return undefined;
  }

  // Variables with their values at a moment, and whether these changed after an earlier one.
  variables(names, key, moment, since) {
    return names.map(({ slot, kind, name }) => {
      const [value, before] = [moment, since].map(it => this.value(key, slot, it));
      return { name, kind, value: value ?? "?", isChanged: value !== undefined && value !== before };
    });
  }

  // The mark at which a call is: its last one by a moment.
  markOf(serial, moment) {
    const [at] = this.ofCall.backwards(serial, moment, it => it);
    return at === undefined ? null : this.trace.marks[this.marks[at]];
  }

  // The calls at a moment, the innermost first. Of variables with one name the inner one is seen.
  calls(moment, since) {
    const found = [];
    for (let serial = this.active[moment]; serial; serial = this.outerOf[serial]) {
      const mark = this.markOf(serial, moment);
      if (!mark) continue;
      const isInside = found.length > 0 || this.sorts[moment] !== LEAVE;
      const seen = [...new Map(mark.names.map(it => [it.name, it])).values()];
      const slots = this.variables(seen.filter(it => !isInside || it.slot !== RESULT), serial, moment, since);
      found.push({ name: mark.routine, file: this.trace.files[mark.unit].name, line: mark.first, slots });
    }
    return found;
  }

  // All that is known at a moment. `since` is the one from which changes are marked.
  at(moment, since) {
    const [script, calls] = [this.scripts[moment], this.calls(moment, since)];
    const { unit, name } = this.trace.scripts[script] ?? {};
    const globals = this.variables(this.trace.globals[unit] ?? [], this.keyOf(script), moment, since);
    return {
      moment, script, scriptName: name, calls, globals, sort: this.sorts[moment], step: this.steps[moment],
      segment: this.segments[moment], lines: this.lines[moment],
    };
  }
}
