// The files of the page: in memory, listed, and edited as text or, if they aren't text, in hexadecimal.
import { at, button, element } from "./dom.mjs";

/** Name -> Blob. */
export const files = new Map();

/** The longest file that is edited, in bytes. */
const MOST_EDITED = 1 << 18;

/** The name of the file that is edited, and true if it is shown in hexadecimal. */
let edited;
let isHex = false;

let changed = () => {};

/** Calls `hear` after each change of a file or of the list. */
export const whenFilesChange = (hear) => (changed = hear);

/** The text of some bytes, if they are one. */
export function textOf(bytes) {
  if (bytes.includes(0)) return undefined;
  try {
    return new TextDecoder("utf-8", { fatal: true, ignoreBOM: true }).decode(bytes);
  } catch {
    return undefined;
  }
}

const hexOf = (bytes) => [...bytes].map((byte) => byte.toString(16).padStart(2, "0"));

/** Bytes in hexadecimal, 16 a line. */
function hexText(bytes) {
  const digits = hexOf(bytes);
  const lines = [];
  for (let from = 0; from < digits.length; from += 16) lines.push(digits.slice(from, from + 16).join(" "));
  return lines.join("\n");
}

/** The bytes of a text in hexadecimal; nothing if it isn't one. */
function bytesOfHex(text) {
  const digits = text.replace(/\s/g, "");
  if (digits.length % 2 || /[^\da-f]/i.test(digits)) return undefined;
  return Uint8Array.from(digits.match(/../g) ?? [], (pair) => parseInt(pair, 16));
}

/** Shows the editor for a file, or says why it can't be edited; hides it if it shows this file already. */
export async function editFile(name) {
  if (name === edited) {
    closeEditor();
    return listFiles();
  }
  edited = name;
  isHex = false;
  at("editor").hidden = false;
  at("wrong").textContent = "";
  const file = files.get(name);
  let text = "";
  if (file.size > MOST_EDITED) at("wrong").textContent = "Too large to be edited here.";
  else {
    const bytes = await file.arrayBuffer().then((found) => new Uint8Array(found), () => undefined);
    if (edited !== name) return;
    if (!bytes) at("wrong").textContent = "The browser can't read this file.";
    isHex = bytes !== undefined && textOf(bytes) === undefined;
    text = bytes ? (isHex ? hexText(bytes) : textOf(bytes)) : "";
  }
  at("text-name").textContent = isHex ? `${name}, in hexadecimal` : name;
  at("text").value = text;
  at("text").disabled = at("wrong").textContent !== "";
  listFiles();
}

/** Puts what was typed into the file. */
export function takeTyped() {
  const text = at("text").value;
  const bytes = isHex ? bytesOfHex(text) : text;
  const wrong = "These aren't pairs of hexadecimal digits: the file stays as it was.";
  at("wrong").textContent = bytes === undefined ? wrong : "";
  if (bytes !== undefined) files.set(edited, new Blob([bytes]));
  listFiles();
  changed();
}

function closeEditor() {
  edited = undefined;
  at("editor").hidden = true;
}

function entry(name, file) {
  const show = button(name, () => editFile(name), `Edit ${name}`);
  show.setAttribute("aria-expanded", String(name === edited));
  const remove = () => {
    files.delete(name);
    if (name === edited) closeEditor();
    listFiles();
    changed();
  };
  const row = element("li");
  const size = element("span", `${file.size.toLocaleString("en")} bytes`);
  row.append(show, size, button("×", remove, `Remove ${name}`));
  return row;
}

function listFiles() {
  at("files").replaceChildren(...[...files].map(([name, file]) => entry(name, file)));
}

/** Adds files, in place of those that have their names. */
export function addToFiles(found) {
  for (const [name, file] of found) files.set(name, file);
  listFiles();
  changed();
}

export function removeFiles() {
  files.clear();
  closeEditor();
  listFiles();
  changed();
}

/** The most files of a folder that is dropped. */
const MOST_DROPPED = 1000;

/** The files of an entry that was dropped, a file or a folder: pairs of a path and a file. */
async function filesOf(dropped, found) {
  if (found.length >= MOST_DROPPED) return;
  if (dropped.isFile) {
    const file = await new Promise((done, failed) => dropped.file(done, failed));
    found.push([dropped.fullPath.replace(/^\//, ""), file]);
    return;
  }
  const reader = dropped.createReader();
  for (;;) {
    const some = await new Promise((done, failed) => reader.readEntries(done, failed));
    if (!some.length) return;
    for (const one of some) await filesOf(one, found);
  }
}

/** All files that were dropped, those of folders too. */
export async function droppedFiles(transfer) {
  const entries = [...transfer.items].map((item) => item.webkitGetAsEntry?.()).filter(Boolean);
  if (!entries.length) return [...transfer.files].map((file) => [file.name, file]);
  const found = [];
  for (const one of entries) await filesOf(one, found);
  return found;
}
