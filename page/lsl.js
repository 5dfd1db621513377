// Calls the module: a command over files that are handed to it. For the page's workers, and for node.
//
// The module exports its memory and functions (crates/lsl_page). Each takes a slice as a pointer and a length, and
// answers the status. What is handed to it lies in pages that this code grew; the module's heap keeps off them.

const PAGE_BYTES = 65536;
const FIRST_ROOM = 1 << 23;
const MOST_ROOM = 1 << 28;
const PLACE_BYTES = 24;
const OUTPUT_FULL = 5;

// A module that is nothing but a memory of 64 bits.
const PROBE = new Uint8Array([0, 97, 115, 109, 1, 0, 0, 0, 5, 3, 1, 4, 0]);

export const NEEDS =
  "This page needs a browser with 64-bit WebAssembly memories: Chrome and Edge from 133 on, Firefox from 134 on.";

// What each number means that the module answers.
export const MEANINGS = [
  "ran to its end",
  "the words are no command",
  "the world isn't in its form",
  "a script isn't accepted",
  "a file that is named isn't here",
  "the output is longer than this page takes, and is cut",
  "the frozen form isn't of this world",
  "there isn't memory enough",
  "a notecard isn't one",
  "the request isn't in its form: a fault of this page",
  "there isn't memory enough for the request",
];

export function hasMemory64() {
  return typeof WebAssembly === "object" && WebAssembly.validate(PROBE);
}

// Where the memory ends, when it has grown by so many bytes. Old engines take a number for 64-bit memories, new ones a
// BigInt.
function grown(memory, bytes) {
  const pages = Math.ceil(bytes / PAGE_BYTES);
  let before;
  try {
    before = memory.grow(BigInt(pages));
  } catch (error) {
    if (!(error instanceof TypeError)) throw error;
    before = memory.grow(pages);
  }
  return Number(before) * PAGE_BYTES;
}

// Bytes that are laid out one behind the other.
class Layout {
  constructor(start) {
    this.end = start;
    this.parts = [];
  }

  add(bytes) {
    const place = this.end;
    this.parts.push([place, bytes]);
    this.end += bytes.length;
    return place;
  }

  write(memory) {
    const all = new Uint8Array(memory.buffer);
    for (const [place, bytes] of this.parts) all.set(bytes, place);
  }
}

const encoded = text => (typeof text === "string" ? new TextEncoder().encode(text) : text);

// The names and texts of files, one behind the other, and where each stands.
function packed(files) {
  const pieces = [];
  const places = new BigUint64Array(3 * files.length);
  let length = 0;
  const add = text => {
    const bytes = encoded(text);
    pieces.push(bytes);
    length += bytes.length;
  };
  files.forEach(([name, text], at) => {
    places[3 * at] = BigInt(length);
    add(name);
    places[3 * at + 1] = BigInt(length);
    add(text);
    places[3 * at + 2] = BigInt(length);
  });
  const bytes = new Uint8Array(length);
  let at = 0;
  for (const piece of pieces) {
    bytes.set(piece, at);
    at += piece.length;
  }
  return { bytes, places: new Uint8Array(places.buffer) };
}

export class Lsl {
  // `module` is compiled already. Each run has an instance of its own, so that none leaves anything to the next.
  constructor(module) {
    this.module = module;
  }

  // Runs `word file` over files, which are pairs of a name and a text or its bytes: the status, and the bytes that were
  // written. Where the room was full it is tried again with more.
  run(word, file, files, room = FIRST_ROOM, most = MOST_ROOM) {
    return this.call("lsl_page_run", [word, file], files, room, most);
  }

  runOnce(word, file, files, room) {
    return this.callOnce("lsl_page_run", [word, file], files, room);
  }

  // Calls an export with words, which are texts, bytes or numbers, and with files.
  call(name, words, files, room = FIRST_ROOM, most = MOST_ROOM) {
    const ran = this.callOnce(name, words, files, room);
    if (ran.status !== OUTPUT_FULL || room >= most) return ran;
    return this.call(name, words, files, Math.min(room * 8, most), most);
  }

  callOnce(name, words, files, room) {
    const { memory, [name]: called } = new WebAssembly.Instance(this.module).exports;
    const { bytes, places } = packed(files);
    const all = [...words.map(it => (typeof it === "number" ? it : encoded(it))), bytes];
    const slicesSize = all.reduce((sum, it) => sum + (it.length ?? 0), 0);
    const written = grown(memory, 8 + places.length + slicesSize + room);
    const layout = new Layout(written + 8);
    const placesAt = layout.add(places);
    const slice = it => [BigInt(layout.add(it)), BigInt(it.length)];
    const given = all.flatMap(it => (typeof it === "number" ? [BigInt(it)] : slice(it)));
    const roomAt = layout.end;
    layout.write(memory);
    const status = called(
      ...given, BigInt(placesAt), BigInt(places.length / PLACE_BYTES), BigInt(roomAt), BigInt(room), BigInt(written),
    );
    // The memory may have grown, so it is looked at anew.
    const count = Number(new DataView(memory.buffer).getBigUint64(written, true));
    return { status, output: new Uint8Array(memory.buffer, roomAt, count).slice(), memory: memory.buffer.byteLength };
  }
}
