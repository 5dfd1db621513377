// Keeps what is played in the browser's storage, and what was there before it.
import { checked } from "./share.js";

const PLAY = "dishhollow.play";
const BEFORE = "dishhollow.before";
const WAIT = 300;

function read(name) {
  try {
    return JSON.parse(localStorage.getItem(name));
  } catch {
    return null;
  }
}

function write(name, value) {
  if (value) localStorage.setItem(name, JSON.stringify(value));
  else localStorage.removeItem(name);
}

function isPlay(parts) {
  try {
    return Boolean(checked(parts));
  } catch {
    return false;
  }
}

export class Keeper {
  // `fail` is called where the browser keeps no more.
  constructor(play, fail) {
    Object.assign(this, { play, fail });
    play.listen(what => (what === "before" ? this.keep() : this.keepSoon()));
    addEventListener("pagehide", () => this.keep());
    addEventListener("visibilitychange", () => this.keep());
  }

  // What was kept last, or nothing.
  kept() {
    const before = read(BEFORE);
    if (before && typeof before.said === "string" && isPlay(before.parts)) this.play.before = before;
    const parts = read(PLAY);
    return isPlay(parts) ? parts : null;
  }

  keepSoon() {
    this.isStale = true;
    clearTimeout(this.timer);
    this.timer = setTimeout(() => this.keep(), WAIT);
  }

  keep() {
    clearTimeout(this.timer);
    if (!this.play.files.length) return;
    try {
      write(PLAY, this.play.parts);
      write(BEFORE, this.play.before);
    } catch {
      this.fail("This browser keeps no more: the files are lost when the page is closed.");
    }
  }
}
