// Steps through a run: which of its stops is seen, and what was asked of the worker. It knows nothing of the page's
// elements.

const WAIT = 80;
export const WHOLE = { first: 1, last: Number.MAX_SAFE_INTEGER, isHandlers: false };

export class Debugging {
  // `seen` has `begin`, `traced`, `untraced`, `look`, `state`, `nowhere` and `fail`, which show what came. `module` is
  // a promise.
  constructor(module, seen) {
    Object.assign(this, { module, seen, number: 0, worker: null });
    this.close();
  }

  // Begins with a run: its request and its scene. `wanted` has the steps that are traced, or says that only handlers
  // are; `start` gives the stop at which it begins.
  async open(asked, scene, wanted = WHOLE, start = () => 0) {
    this.close();
    Object.assign(this, { asked, scene, wanted, start });
    const { number } = this;
    this.seen.begin();
    const module = await this.module;
    if (number !== this.number) return;
    this.worker = new Worker("stepworker.js", { type: "module" });
    this.worker.addEventListener("message", ({ data }) => data.number === this.number && this.hear(data));
    this.worker.addEventListener("error", ({ message }) => this.seen.fail(message || "the worker didn't start"));
    this.worker.postMessage({ module });
    this.post("trace", { files: asked.files, world: asked.world, ...wanted });
  }

  // Ends what is under way. What it would answer isn't heard.
  close() {
    clearTimeout(this.timer);
    this.worker?.terminate();
    Object.assign(this, { worker: null, traced: null, view: null, stop: 0, isAsking: false, number: this.number + 1 });
  }

  get isOpen() {
    return this.worker !== null;
  }

  get count() {
    return this.traced?.lines.length ?? 0;
  }

  post(task, asked) {
    this.worker?.postMessage({ number: this.number, task, ...asked });
  }

  hear(answer) {
    const act = {
      traced: () => this.begun(answer), untraced: () => this.refused(answer), looked: () => this.looked(answer),
      sought: () => this.sought(answer), state: () => this.seen.state(answer, this.view),
      failed: () => this.seen.fail(answer.error),
    }[answer.kind];
    act?.();
  }

  begun(answer) {
    this.traced = answer;
    this.seen.traced(answer, this.wanted);
    this.go(this.start(this));
  }

  // Where no trace can be made only handlers are stepped through.
  refused({ status }) {
    if (this.wanted.isHandlers) return this.seen.fail(`status ${status}`);
    this.seen.untraced(status);
    return this.open(this.asked, this.scene, { ...this.wanted, isHandlers: true }, this.start);
  }

  // The first stop after a line of the journal was written.
  stopAfter(line) {
    const at = this.traced.lines.findIndex(it => it > line);
    return at < 0 ? this.count - 1 : at;
  }

  // The last stop before the first crossing, or the first stop of all.
  get stopToCross() {
    const [crossing] = this.scene.crossed;
    const at = crossing ? this.traced.steps.findIndex(it => it > crossing.step) : 0;
    return Math.max((at < 0 ? this.count : at) - 1, 0);
  }

  // Goes to a stop; changes are marked since another one. Of those that are asked for while the worker is busy the last
  // one is shown.
  go(stop, since = null) {
    if (!this.count) return;
    this.stop = Math.min(Math.max(stop, 0), this.count - 1);
    this.since = since;
    if (this.isAsking) return;
    this.isAsking = true;
    this.post("look", { stop: this.stop, since });
  }

  looked(view) {
    this.isAsking = false;
    if (view.stop !== this.stop) return this.go(this.stop, this.since);
    this.view = view;
    this.seen.look(view);
    clearTimeout(this.timer);
    this.timer = setTimeout(() => this.post("state", this.placeOf(view)), WAIT);
    return undefined;
  }

  // Where the world is looked at: before the moment's segment, or before the step where only the journal is known.
  placeOf({ step, segment, lines }) {
    if (step) return { step, segment: Math.max(segment - 1, 0) };
    return { step: Math.max(this.scene.stepsBy(lines - 1), 1), segment: 0 };
  }

  // Makes a move, in the core's words, and goes to the stop that is so many after it.
  seek(move, after = 0) {
    if (this.count) this.post("seek", { stop: this.stop, move, after });
  }

  sought({ from, to, move }) {
    if (to === null || to === from || to < 0 || to >= this.count) return this.seen.nowhere(move);
    return this.go(to, from);
  }

  // Goes to the next handler where only these are known.
  beside(isBack) {
    const to = this.stop + (isBack ? -1 : 1);
    if (to < 0 || to >= this.count) this.seen.nowhere(["handler"]);
    else this.go(to);
  }

  // The crossings after the stop before this one and by this one, and those before the next one: steps of the scene.
  get crossings() {
    const { steps } = this.traced;
    const between = (low, high) => this.scene.crossed.filter(({ step }) => step + 1 > low && step + 1 <= high);
    const [before, now, after] = [steps[this.stop - 1] ?? 0, steps[this.stop], steps[this.stop + 1] ?? Infinity];
    return now ? { past: between(before, now), next: between(now, after) } : { past: [], next: [] };
  }

  // Goes to the stop after the next crossing, or to the one before the last.
  cross(isBack) {
    const all = this.scene.crossed.map(({ step }) => step + 1);
    const now = this.traced.steps[this.stop];
    const found = isBack ? all.filter(it => it <= now).at(-1) : all.find(it => it > now);
    if (found === undefined) this.seen.nowhere(["crossing"]);
    else this.seek(["at", `${found}`, "0"], isBack ? -1 : 0);
  }
}
