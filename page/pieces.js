// Hands a scene over in pieces, none of which takes long to receive: its journal's text in parts, and then all arrays,
// which are moved and not copied.

const PIECE = 500000;

// The buffers of all arrays of a value.
function buffersOf(value, found = new Set()) {
  if (ArrayBuffer.isView(value)) found.add(value.buffer);
  else if (Array.isArray(value)) value.forEach(it => buffersOf(it, found));
  else if (value && typeof value === "object" && !(value instanceof Map)) {
    Object.values(value).forEach(it => buffersOf(it, found));
  }
  return found;
}

// Sends the parts of a scene through `post`.
export function handOver(parts, post) {
  const { text } = parts.journal;
  for (let at = 0; at < text.length; at += PIECE) post({ kind: "piece", text: text.slice(at, at + PIECE) });
  const scene = { ...parts, journal: { ...parts.journal, text: "" } };
  post({ kind: "drawn", scene }, [...buffersOf(scene)]);
}

// Puts pieces together again.
export class Receiver {
  constructor() {
    this.texts = [];
  }

  // A scene's parts, when they are whole.
  take({ kind, text, scene }) {
    if (kind === "piece") this.texts.push(text);
    if (kind !== "drawn") return null;
    scene.journal.text = this.texts.join("");
    this.texts = [];
    return scene;
  }
}
