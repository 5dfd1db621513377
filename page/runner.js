// Hands requests to two workers: one runs a request and reads its journal, and the other runs the same world again for
// its steps and lines. Both are ended where a run is stopped.

async function compiled() {
  const answer = await fetch("lsl_page.wasm");
  if (!answer.ok) throw new Error(`lsl_page.wasm isn't there (${answer.status}): make it by tools/page build`);
  return WebAssembly.compile(await answer.arrayBuffer());
}

export class Runner {
  // `heard` is called with each answer that belongs to the last run. `wire` gets a port, on which the frame of the
  // timeline hears the worker.
  constructor(heard, wire) {
    Object.assign(this, { number: 0, heard, wire, questions: new Map(), asked: 0 });
    this.module = compiled();
    this.start();
  }

  start() {
    [this.first, this.second] = [this.worker(), this.worker()];
    const [frame, peers] = [new MessageChannel(), new MessageChannel()];
    this.first.postMessage({ toFrame: frame.port1, toPeer: peers.port1 }, [frame.port1, peers.port1]);
    this.second.postMessage({ toPeer: peers.port2 }, [peers.port2]);
    this.wire(frame.port2);
  }

  worker() {
    const worker = new Worker("worker.js", { type: "module" });
    worker.addEventListener("message", ({ data }) => this.hear(data));
    worker.addEventListener("error", ({ message }) => this.fail(message || "the worker didn't start"));
    this.module.then(module => worker.postMessage({ module }), error => this.fail(error.message));
    return worker;
  }

  hear(answer) {
    if (answer.number === this.number) this.heard(answer);
    this.questions.get(answer.number)?.done(answer);
    this.questions.delete(answer.number);
  }

  fail(error) {
    this.heard({ kind: "failed", error });
  }

  // Runs `{word, file, files, world}`. What it answers has the number that this gives.
  run(asked) {
    this.number += 1;
    this.begin(this.number, asked);
    return this.number;
  }

  async begin(number, asked) {
    await this.module.catch(() => null);
    if (number !== this.number) return;
    this.first.postMessage({ number, task: "run", ...asked });
  }

  // What the worker answers to a task that belongs to no run: its number is below 0. Where a worker is ended the next
  // one is asked.
  async ask(task, asked) {
    await this.module;
    const question = { number: -(this.asked += 1), task, ...asked };
    return new Promise(done => {
      this.questions.set(question.number, { question, done });
      this.first.postMessage(question);
    });
  }

  // Asks for the lines at which scripts stopped or were cut.
  locate(asked) {
    this.first.postMessage({ number: this.number, task: "find", asked });
  }

  save() {
    this.first.postMessage({ number: this.number, task: "save" });
  }

  stop() {
    this.number += 1;
    this.first.terminate();
    this.second.terminate();
    this.start();
    this.module.then(() => this.questions.forEach(({ question }) => this.first.postMessage(question)));
  }
}
