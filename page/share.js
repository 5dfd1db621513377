// What is played, as a link's fragment: its files and how they are run, packed. Every part of a link is checked.
import { WAYS } from "./state.js";

const FORM = "1.";
const MOST_LINK = 2000000;
const MOST_BYTES = 4000000;
const MOST_FILES = 600;
const MOST_NAME = 255;
const MOST_STEPS = 200000;

// A link that holds no play: its message says why.
export class BadLink extends Error {}

async function through(stream, bytes) {
  const chunks = [];
  let length = 0;
  for await (const chunk of new Blob([bytes]).stream().pipeThrough(stream)) {
    chunks.push(chunk);
    length += chunk.length;
    if (length > MOST_BYTES) throw new BadLink(`it holds more than ${MOST_BYTES.toLocaleString("en")} bytes`);
  }
  return new Uint8Array(await new Blob(chunks).arrayBuffer());
}

const ofBytes = bytes => btoa(Array.from(bytes, it => String.fromCharCode(it)).join(""));

// The fragment, without its `#`.
export async function packed(play) {
  const text = new TextEncoder().encode(JSON.stringify(play));
  const bytes = await through(new CompressionStream("deflate-raw"), text);
  return FORM + ofBytes(bytes).replaceAll("+", "-").replaceAll("/", "_").replace(/=+$/, "");
}

function need(holds, why) {
  if (!holds) throw new BadLink(why);
}

const isText = it => typeof it === "string";
const shown = it => JSON.stringify(it)?.slice(0, 40) ?? "nothing";

function checkFile(file, names) {
  need(Array.isArray(file) && file.length === 2 && file.every(isText), "one of its files is no name with a text");
  const [name] = file;
  need(name !== "", "one of its files has no name");
  need(new TextEncoder().encode(name).length <= MOST_NAME, `a file's name is longer than ${MOST_NAME} bytes`);
  need(!names.has(name), `two of its files are called ${shown(name)}`);
  names.add(name);
}

// The play of a value, or a `BadLink`.
export function checked(value) {
  need(value !== null && typeof value === "object" && !Array.isArray(value), "it holds no play");
  const { files, how, file, steps } = value;
  need(Array.isArray(files), "its files are no list");
  need(files.length > 0, "it has no file");
  const count = files.length.toLocaleString("en");
  need(files.length <= MOST_FILES, `it has ${count} files, and at most ${MOST_FILES} are taken`);
  const names = new Set();
  for (const it of files) checkFile(it, names);
  const size = files.reduce((sum, [, text]) => sum + text.length, 0);
  need(size <= MOST_BYTES, `its files are longer than ${MOST_BYTES.toLocaleString("en")} characters`);
  need(WAYS.includes(how), `${shown(how)} is no way to run: ${WAYS.join(", ")}`);
  need(names.has(file), `it runs ${shown(file)}, which is none of its files`);
  need(isText(steps) && steps.length <= MOST_STEPS, "its steps are no text, or are too long");
  return { files: files.map(it => [...it]), how, file, steps };
}

function bytesOf(text) {
  need(/^[\w-]*$/.test(text), "it has characters that no link has");
  try {
    return Uint8Array.from(atob(text.replaceAll("-", "+").replaceAll("_", "/")), it => it.charCodeAt(0));
  } catch {
    throw new BadLink("it was cut");
  }
}

async function inflated(bytes) {
  try {
    return await through(new DecompressionStream("deflate-raw"), bytes);
  } catch (error) {
    if (error instanceof BadLink) throw error;
    throw new BadLink("it can't be unpacked: it was cut or changed");
  }
}

// What a fragment holds; nothing where there is none.
export async function unpacked(fragment) {
  if (fragment === "") return null;
  need(fragment.startsWith(FORM), "it isn't of the form that this page makes");
  need(fragment.length <= MOST_LINK, `it has more than ${MOST_LINK.toLocaleString("en")} characters`);
  const text = new TextDecoder().decode(await inflated(bytesOf(fragment.slice(FORM.length))));
  let value;
  try {
    value = JSON.parse(text);
  } catch {
    throw new BadLink("what it holds isn't in its form: it was cut or changed");
  }
  return checked(value);
}
