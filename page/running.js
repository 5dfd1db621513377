// Runs what is chosen, and keeps what came of it until another run.
import { explained } from "./faults.js";
import { Receiver } from "./pieces.js";
import { Runner } from "./runner.js";
import { Scene } from "./scene.js";
import { stagedWorld } from "./stage.js";
import { sizeOf, statusOf } from "./status.js";
import { worldOfOnce } from "./worlds.js";

const STAGED = "steps.world";
const MOST_LOCATED = 40000000;
const MOST_SECONDS = 60;

// What is run, as the words of a command, its files, and the world that it plays, if it plays one.
export function requestOf(play, words) {
  const { files, file, how, steps } = play.parts;
  if (how === "once") return { word: "once", file, files, world: worldOfOnce(file) };
  if (how === "check") return { word: "check", file, files };
  if (how === "replay" || how === "freeze") return { word: how, file, files, world: play.textOf(file) ?? "" };
  const world = stagedWorld(file, steps, words.steps);
  const name = play.freeName(STAGED);
  const stage = /^\s*(wait|after)\b/m.test(steps) ? { file, steps, words: words.steps } : null;
  return { word: "replay", file: name, files: [...files, [name, world]], world, stage };
}

export class Running {
  // `seen` has `begin`, `end`, `status`, `faults`, `draw` and `save`, which show what came.
  constructor(play, words, seen) {
    Object.assign(this, { play, words, seen, isRunning: false, isLocating: false, answer: null, scene: null });
    this.receiver = new Receiver();
    this.runner = new Runner(answer => this.hear(answer), seen.wire);
  }

  // Begins a run. One that is under way is ended, and so is a search for the lines of the last one.
  run() {
    const asked = requestOf(this.play, this.words);
    if (this.isRunning || this.isLocating) this.runner.stop();
    Object.assign(this, { isRunning: true, isLocating: false, asked, answer: null, scene: null });
    this.receiver = new Receiver();
    const { word, file, files, world, stage } = asked;
    this.seen.begin(this.runner.run({ word, file, files, world, stage }));
  }

  stop() {
    if (!this.isRunning) return;
    this.runner.stop();
    this.isRunning = false;
    this.seen.end();
    this.seen.status({ text: "stopped by you", sort: "open" }, "");
  }

  hear(answer) {
    const act = {
      ran: () => this.ran(answer), stepped: () => this.show(this.scene.with(answer), true),
      piece: () => this.receiver.take(answer), drawn: () => this.drawn(this.receiver.take(answer)),
      located: () => this.located(answer.lines),
      saved: () => this.seen.save(answer.file, this.asked), failed: () => this.failed(answer.error),
    }[answer.kind];
    act?.();
  }

  failed(error) {
    this.isRunning = this.isLocating = false;
    this.seen.end();
    this.seen.status({ text: error, sort: "bad" }, "");
  }

  ran(answer) {
    this.answer = answer;
    Object.assign(this.asked, answer.named, answer.staged);
    this.faults = answer.heads.map(it => explained(it, this.asked.files, this.words)).filter(it => it);
    this.tell();
    this.seen.faults(this.faults);
    const isDrawn = this.asked.world !== undefined && ![2, 3, 8].includes(answer.status);
    if (!isDrawn) {
      this.isRunning = false;
      this.seen.draw(null, answer, this.asked, false, this.faults);
      this.seen.end();
    }
  }

  tell() {
    const shown = this.scene?.journal.count;
    this.seen.status(statusOf(this.answer, this.asked, this.faults[0]), sizeOf(this.answer, shown));
  }

  drawn(parts) {
    this.show(new Scene(parts, this.words), false);
    this.isRunning = false;
    this.seen.end();
    this.locate();
  }

  // Shows a scene: first without the steps, and then with them.
  show(scene, isSame) {
    this.scene = scene;
    this.seen.draw(scene, this.answer, this.asked, isSame);
    this.tell();
  }

  // Asks for the lines of scripts that stopped, and of those that were cut.
  locate() {
    const { outcome, size, milliseconds } = this.answer;
    const isLong = size > MOST_LOCATED || milliseconds > MOST_SECONDS * 1000;
    const asked = [...outcome.faults, ...outcome.cut.map(it => ({ ...it, line: outcome.lines }))];
    if (!asked.length || isLong || this.scene.journal.count < outcome.lines || this.asked.word === "freeze") return;
    this.isLocating = true;
    this.runner.locate(asked);
  }

  located(lines) {
    this.isLocating = false;
    this.answer.lines = lines;
    this.show(this.scene, true);
  }

  // The world file of the steps.
  async stage() {
    const { files, world, stage } = requestOf(this.play, this.words);
    if (!stage) return world;
    const { world: made, error } = await this.runner.ask("stage", { files, stage });
    if (error) throw new Error(error);
    return made;
  }

  // A world file that waits so many milliseconds after its steps.
  async wait(world, milliseconds) {
    const { world: made, error } = await this.runner.ask("wait", { files: this.play.parts.files, world, milliseconds });
    if (error) throw new Error(error);
    return made;
  }

  save() {
    this.runner.save();
  }
}
