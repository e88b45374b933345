#!/usr/bin/env node
// Packs the page, its worker, the module and the examples into one file, which opens from a disk with no server and no
// network.
//
//   web/pack.mjs MODULE.wasm PAGE.html
import crypto from "node:crypto";
import fs from "node:fs";
import zlib from "node:zlib";
import { bundled, ownText } from "./bundle.mjs";
import { EXAMPLES } from "./views.mjs";

const [moduleFile, pageFile] = process.argv.slice(2);
const base64 = (bytes) => Buffer.from(bytes).toString("base64");

const examples = Object.fromEntries(
  EXAMPLES.flatMap(({ files }) => files).map((name) => [
    name,
    base64(fs.readFileSync(new URL(`../examples/${name}`, import.meta.url))),
  ]),
);

/** What the page's modules find in it: the program's module, files of examples, and the text of the worker. */
const FINDERS = `
const held = (id) => document.getElementById(id).textContent;
function bytesOf(text) {
  const characters = atob(text);
  const bytes = new Uint8Array(characters.length);
  for (let at = 0; at < bytes.length; at += 1) bytes[at] = characters.charCodeAt(at);
  return bytes;
}
const unpacked = (bytes) => new Response(new Blob([bytes]).stream().pipeThrough(new DecompressionStream("gzip")));
globalThis.tomexModule = unpacked(bytesOf(held("module"))).arrayBuffer().then((bytes) => WebAssembly.compile(bytes));
const examples = JSON.parse(held("examples"));
globalThis.exampleFile = (name) => new Blob([bytesOf(examples[name])]);
const workerAddress = URL.createObjectURL(new Blob([held("worker")], { type: "text/javascript" }));
globalThis.newWorker = () => new Worker(workerAddress);
`;

/** Text within a script element: nothing in it may look like its end. */
function within(attributes, text) {
  if (/<\/script|<!--/i.test(text)) throw new Error(`the script ${attributes} holds what ends a script`);
  return `<script ${attributes}>${text}</script>`;
}

const MODULES = ["bytes.mjs", "dom.mjs", "words.mjs", "views.mjs", "runner.mjs", "files.mjs", "output.mjs", "page.mjs"];
const script = FINDERS + bundled(...MODULES);
const hash = crypto.createHash("sha256").update(script).digest("base64");
// No address is allowed but those that the page makes itself: so nothing can be sent anywhere.
const policy = [
  "default-src 'none'",
  `script-src 'sha256-${hash}' 'wasm-unsafe-eval' blob:`,
  "worker-src blob:",
  "style-src 'unsafe-inline'",
  "form-action 'none'",
].join("; ");
const packed = zlib.gzipSync(fs.readFileSync(moduleFile), { level: 9 });
const scripts = [
  within('type="text/plain" id="module"', base64(packed)),
  within('type="application/json" id="examples"', JSON.stringify(examples)),
  within('type="text/plain" id="worker"', bundled("host.mjs", "worker.mjs")),
  within('type="module"', script),
].join("\n");
const page = ownText("index.html").replace("POLICY", () => policy).replace("SCRIPTS", () => scripts);
fs.writeFileSync(pageFile, page);
console.log(`${pageFile}: ${Buffer.byteLength(page)} bytes`);
