// Talks to a language server on its standard input and output.
'use strict';
const { spawn } = require('child_process');

class Connection {
  // `notified` is called with the method and parameters of each notification, `ended` once the server has ended.
  constructor(command, words, folder, { notified, ended }) {
    this.notified = notified;
    this.number = 0;
    this.waiting = new Map();
    this.held = Buffer.alloc(0);
    this.process = spawn(command, words, { cwd: folder, stdio: ['pipe', 'pipe', 'inherit'] });
    this.process.stdout.on('data', (piece) => this.take(piece));
    this.process.stdin.on('error', () => {});
    this.process.on('error', (error) => this.end(error, ended));
    this.process.on('exit', () => this.end(new Error('the server has ended'), ended));
  }

  take(piece) {
    this.held = Buffer.concat([this.held, piece]);
    for (;;) {
      const head = this.held.indexOf('\r\n\r\n');
      if (head < 0) return;
      const length = Number(/content-length: *(\d+)/i.exec(this.held.toString('latin1', 0, head))[1]);
      if (this.held.length < head + 4 + length) return;
      const body = this.held.toString('utf8', head + 4, head + 4 + length);
      this.held = this.held.subarray(head + 4 + length);
      this.message(JSON.parse(body));
    }
  }

  message(message) {
    if (message.method && message.id !== undefined) {
      this.write({ id: message.id, error: { code: -32601, message: `there is no ${message.method}` } });
    } else if (message.method) {
      this.notified(message.method, message.params);
    } else if (this.waiting.has(message.id)) {
      const { resolve, reject } = this.waiting.get(message.id);
      this.waiting.delete(message.id);
      if (message.error) reject(new Error(message.error.message));
      else resolve(message.result);
    }
  }

  write(message) {
    const body = Buffer.from(JSON.stringify({ jsonrpc: '2.0', ...message }));
    this.process.stdin.write(`Content-Length: ${body.length}\r\n\r\n`);
    this.process.stdin.write(body);
  }

  notify(method, params) {
    this.write({ method, params });
  }

  // Where `token` is cancelled, so is the request.
  ask(method, params, token) {
    const id = ++this.number;
    return new Promise((resolve, reject) => {
      if (this.hasEnded) return reject(new Error('the server has ended'));
      this.waiting.set(id, { resolve, reject });
      token?.onCancellationRequested?.(() => this.notify('$/cancelRequest', { id }));
      this.write({ id, method, params });
    });
  }

  end(error, ended) {
    if (this.hasEnded) return;
    this.hasEnded = true;
    for (const { reject } of this.waiting.values()) reject(error);
    this.waiting.clear();
    ended(error);
  }

  async close() {
    if (this.hasEnded) return;
    await this.ask('shutdown', null).catch(() => {});
    this.notify('exit', null);
  }
}

module.exports = { Connection };
