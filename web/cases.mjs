// Golden cases: what an archive holds, and whether the module does what a case says.
import { joined } from "./bytes.mjs";
import { inMemory, run } from "./host.mjs";

const decoder = new TextDecoder();
const LINE_END = 10;
const DASH = 45;
const ENOSPC = -28;

/** The lines of some bytes, each with its end. */
function* linesOf(bytes) {
  for (let at = 0; at < bytes.length; ) {
    const end = bytes.indexOf(LINE_END, at);
    const next = end < 0 ? bytes.length : end + 1;
    yield bytes.subarray(at, next);
    at = next;
  }
}

/** The files of an archive: name -> lines. A line `-- CASE/FILE --` begins a file. */
function filesOf(archive) {
  const files = new Map();
  let lines = [];
  for (const line of linesOf(archive)) {
    const heading = line[0] === DASH ? /^-- (.+) --\n$/.exec(decoder.decode(line)) : null;
    if (heading) files.set(heading[1], (lines = []));
    else lines.push(line);
  }
  return files;
}

/** The bytes that pairs of hexadecimal digits stand for. */
const bytesOfHex = (text) =>
  Uint8Array.from(text.replace(/\s/g, "").match(/../g) ?? [], (digits) => parseInt(digits, 16));

/** The cases of an archive: name -> file -> bytes. A file `NAME.hex` holds the bytes of NAME. */
export function casesOf(archive) {
  const cases = new Map();
  for (const [path, lines] of filesOf(archive)) {
    const [name, file] = path.split(/\/(.*)/s);
    if (!file) continue;
    if (!cases.has(name)) cases.set(name, new Map());
    const bytes = joined(lines);
    if (file.endsWith(".hex")) cases.get(name).set(file.slice(0, -4), bytesOfHex(decoder.decode(bytes)));
    else cases.get(name).set(file, bytes);
  }
  return cases;
}

const areEqual = (some, others) => some.length === others.length && some.every((byte, at) => byte === others[at]);

/** What a case's command does: its status, or why the engine ended it, and what it writes. */
function outcomeOf(module, files) {
  const written = { 1: [], 2: [] };
  const system = inMemory(files, (descriptor, bytes) => written[descriptor].push(bytes));
  const { write } = system;
  if (files.has("full")) system.write = (descriptor, bytes) => (descriptor === 1 ? ENOSPC : write(descriptor, bytes));
  const words = files.has("cmd") ? decoder.decode(files.get("cmd")).replace(/\n$/, "") : "";
  let status;
  try {
    status = String(run(module, words ? words.split("\n") : [], system));
  } catch (error) {
    status = error.message;
  }
  return { status, stdout: joined(written[1]), stderr: joined(written[2]) };
}

/** What differs from what a case says; nothing if it passes. A stream that is `loose` only has to say something. */
export function judge(module, files) {
  const outcome = outcomeOf(module, files);
  const textOf = (name) => (files.has(name) ? decoder.decode(files.get(name)).trim() : "");
  if (outcome.status !== (textOf("status") || "0")) return `status ${outcome.status}`;
  const loose = textOf("loose").split(/\s+/);
  for (const stream of ["stdout", "stderr"]) {
    const wanted = files.get(stream) ?? new Uint8Array();
    if (loose.includes(stream) ? !outcome[stream].length : !areEqual(outcome[stream], wanted)) return stream;
  }
}
