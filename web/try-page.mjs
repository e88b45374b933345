#!/usr/bin/env node
// Tries the packed page in Chromium, from a file and from a local server, as a person would.
//
//   web/try-page.mjs [--shots FOLDER]
//
// Prints what is wrong, and last how many things were tried. With --shots pictures of the page go to a folder.
import fs from "node:fs";
import http from "node:http";
import os from "node:os";
import path from "node:path";
import { Chromium, pageUrl } from "./chromium.mjs";
import { inMemory, run } from "./host.mjs";
import { packedModule } from "./packed.mjs";
import { joined } from "./bytes.mjs";

const words = process.argv.slice(2);
const shots = words[0] === "--shots" ? words[1] : undefined;
if (shots) fs.mkdirSync(shots, { recursive: true });
const pageFile = new URL("tomex.html", import.meta.url);
const module = new WebAssembly.Module(packedModule(fs.readFileSync(pageFile)));
const example = (name) => new Uint8Array(fs.readFileSync(new URL(`../examples/${name}`, import.meta.url)));
const EXPLORE = ["explore.toml", "primes.elf", "matrix.elf"];

let tried = 0;
let failed = 0;
function check(what, isRight, detail = "") {
  tried += 1;
  if (isRight) return;
  failed += 1;
  console.log(`failed: ${what}${detail ? `: ${String(detail).slice(0, 300)}` : ""}`);
}

/** What the program prints on these words, on the files of the study explore.toml. */
function printed(...given) {
  const files = new Map(EXPLORE.map((name) => [name, example(name)]));
  const pieces = [];
  run(module, given, inMemory(files, (descriptor, bytes) => descriptor === 1 && pieces.push(bytes)));
  return new TextDecoder().decode(joined(pieces));
}

/** The text that the page shows, without the buttons in it. */
const SHOWN = `(() => {
  const copy = document.querySelector(".output pre")?.cloneNode(true);
  copy?.querySelectorAll(".more").forEach((more) => more.remove());
  return copy?.textContent ?? "";
})()`;
const STATE = 'document.getElementById("state").textContent';
const SAID = 'document.getElementById("said").textContent';
const IDLE = 'document.getElementById("outputs").getAttribute("aria-busy") === "false"';

/** Text that hardly stands out from what it stands on: contrast below 4.5. */
const FAINT = `(() => {
  const parts = (color) => [...color.match(/[\\d.]+/g).map(Number), 1].slice(0, 4);
  const over = (top, below) => [0, 1, 2].map((at) => top[at] * top[3] + below[at] * (1 - top[3])).concat(1);
  const light = (color) => color.slice(0, 3).map((part) => part / 255)
    .map((part) => (part <= 0.04045 ? part / 12.92 : ((part + 0.055) / 1.055) ** 2.4))
    .reduce((sum, part, at) => sum + part * [0.2126, 0.7152, 0.0722][at], 0);
  const ownGround = (it) => parts(getComputedStyle(it).backgroundColor);
  const behind = (it) => (it ? over(ownGround(it), behind(it.parentElement)) : [255, 255, 255, 1]);
  const hasText = (it) => [...it.childNodes].some((node) => node.nodeType === 3 && node.data.trim());
  return [...document.querySelectorAll("body *")]
    .filter((it) => it.checkVisibility() && !it.disabled && hasText(it) && it.tagName !== "SCRIPT")
    .filter((it) => {
      const ground = behind(it);
      const [one, other] = [light(over(parts(getComputedStyle(it).color), ground)), light(ground)];
      return (Math.max(one, other) + 0.05) / (Math.min(one, other) + 0.05) < 4.5;
    })
    .map((it) => it.tagName + " " + it.className + " " + it.textContent.slice(0, 30));
})()`;

class Page {
  constructor(chromium) {
    this.chromium = chromium;
  }

  value(expression) {
    return this.chromium.value(expression);
  }

  /** Clicks the only element with a selector and a text. */
  async click(selector, text = "") {
    const found = `[...document.querySelectorAll(${JSON.stringify(selector)})]
      .filter((it) => (it.getAttribute("aria-label") ?? it.textContent).includes(${JSON.stringify(text)}))`;
    const count = await this.value(`${found}.length`);
    check(`one ${selector} says ${text}`, count === 1, count);
    await this.value(`${found}[0]?.click()`);
    await this.chromium.until(IDLE);
  }

  async type(selector, text) {
    const field = `document.querySelector(${JSON.stringify(selector)})`;
    await this.value(`${field}.focus(), ${field}.select()`);
    await this.chromium.ask("Input.insertText", { text });
  }

  async command(text) {
    await this.type("#words", text);
    await this.value("document.getElementById('go').click()");
    await this.chromium.until(IDLE);
  }

  async picture(name) {
    if (shots) await this.chromium.picture(path.join(shots, `${name}.png`));
  }

  async choose(files) {
    const { root } = await this.chromium.ask("DOM.getDocument");
    const { nodeId } = await this.chromium.ask("DOM.querySelector", { nodeId: root.nodeId, selector: "#chosen" });
    await this.chromium.ask("DOM.setFileInputFiles", { nodeId, files });
    await this.chromium.until(IDLE);
  }
}

/** The first view: the example's front, with its picture, and no request but the page. */
async function tryFirstView(page, url) {
  const begun = Date.now();
  await page.chromium.open(url);
  await page.chromium.until("document.querySelector('.output pre')");
  const milliseconds = Date.now() - begun;
  await page.chromium.until(IDLE);
  check("the front is the program's", (await page.value(SHOWN)) === printed("front", "explore.toml"));
  check("its picture is there", (await page.value("document.querySelectorAll('.output iframe').length")) === 1);
  return milliseconds;
}

/** A machine of the front is one click from its loops, its path, its stalls and its tables. */
async function tryRows(page) {
  for (const view of ["loops", "path", "stalls"]) {
    await page.click(".questions button", "Which machines");
    await page.click(".more button", `${view} of machine 132`);
    check(`${view} of a row`, (await page.value(SHOWN)) === printed(view, "explore.toml", "132", "matrix"));
  }
  await page.click(".questions button", "Which machines");
  await page.click(".more button", "animate of machine 132");
  const inside = "document.querySelector('.output iframe').contentDocument";
  await page.chromium.until(`${inside}?.querySelector("nav a[href^='#']")`);
  await page.value(`${inside}.querySelector("nav a[href^='#']").click()`);
  await page.chromium.until(`${inside}.URL.includes("#")`);
  check("a link of the tables stays in their frame", (await page.value(`${inside}.URL`)).startsWith("about:srcdoc#"));
  await page.picture("tables");
  await page.click(".questions button", "All of it");
  await page.chromium.until(`${inside}?.querySelector("#r132 .more button")`);
  await page.picture("report");
  await page.value(`${inside}.querySelector("#r132 .more button").click()`);
  await page.chromium.until(`${IDLE} && document.querySelector(".output pre")`);
  const loops = printed("loops", "explore.toml", "132", "matrix");
  check("a row of the report leads to its loops", (await page.value(SHOWN)) === loops);
}

async function tryEditing(page) {
  await page.click("#files button", "Edit explore.toml");
  await page.type("#text", '[[program]]\nname = "matrix"\nfile = "matrix.elf"\nbase = 65536\n[axes]\nalu = [1, 2]\n');
  await page.click(".questions button", "Which machines");
  const front = await page.value(SHOWN);
  check("an edited study has at most two machines", front.trim().split("\n").length <= 3, front);
  await page.type("#text", "alu = 1");
  await page.click(".questions button", "Which machines");
  check("a refusal is the program's", (await page.value(SAID)).startsWith("tomex: study: "), await page.value(SAID));
  check("a refusal leaves no output", (await page.value("document.querySelectorAll('.output').length")) === 0);
  await page.picture("refusal");
  await page.click("#explain");
  check("it is explained", (await page.value(SHOWN)).length > 100, await page.value(SAID));
}

async function tryCommands(page) {
  await page.command("cut primes.elf 1000 500 --base 65536 > 'a part.elf'");
  const state = await page.value(STATE);
  check("a part is among the files", state.includes("a part.elf is among the files"), state);
  await page.command("run 'a part.elf' --base 65536");
  check("it runs", (await page.value(SHOWN)).includes("x10="), await page.value(SAID));
  await page.command("run 'no end");
  check("a quote without an end is refused", (await page.value(SAID)).includes("no end"));
  await page.command("--help");
  check("the help lists commands", (await page.value(SHOWN)).includes("animate"), await page.value(SAID));
  await page.command("front");
  check("a command line is refused with status 2", (await page.value(STATE)).includes("status 2"));
}

/** Many files, one that is too long, one with a blank in its name, and a folder that isn't a file. */
async function tryFiles(page) {
  const room = fs.mkdtempSync(path.join(os.tmpdir(), "tomex-files-"));
  const made = Array.from({ length: 200 }, (_, number) => path.join(room, `file ${number}.bin`));
  for (const file of made) fs.writeFileSync(file, Uint8Array.of(0x73, 0, 0x10, 0));
  const large = path.join(room, "large.bin");
  fs.writeFileSync(large, "");
  fs.truncateSync(large, 300 << 20);
  await page.choose([...made, large]);
  check("all files are listed", (await page.value("document.querySelectorAll('#files li').length")) >= 201);
  await page.command("run 'file 7.bin'");
  check("a file with a blank in its name runs", (await page.value(SHOWN)).includes("ebreak"), await page.value(SAID));
  await page.command("run large.bin");
  const tooLong = await page.value(SAID);
  check("a file of 300 MB is refused", tooLong === "tomex: cannot read large.bin", tooLong);
  fs.rmSync(made[8]);
  await page.command("run 'file 8.bin'");
  const gone = await page.value(SAID);
  check("a file that is gone is refused", gone === "tomex: cannot read file 8.bin", gone);
  fs.rmSync(room, { recursive: true });
}

async function tryStopping(page) {
  await page.value("document.getElementById('example').value = 0, document.getElementById('example').onchange()");
  await page.chromium.until(IDLE);
  await page.click("#files button", "Edit explore.toml");
  const parts = ["alu", "mul", "load", "store", "bru", "div", "buses"];
  const lists = parts.map((part) => `${part} = [1, 2, 3, 4]\n`).join("");
  await page.type("#text", `[[program]]\nname = "matrix"\nfile = "matrix.elf"\nbase = 65536\n[axes]\n${lists}`);
  await page.value("document.querySelector('[data-question=choices]').click()");
  await page.chromium.until(`/^\\d+ of \\d+ configurations$/.test(${STATE})`);
  check("progress is shown", true);
  await page.value("document.getElementById('stop').click()");
  check("a run is stopped", (await page.value(STATE)) === "Stopped.", await page.value(STATE));
  await page.click(".questions button", "Which steps");
  check("another one runs after it", (await page.value(SHOWN)).includes("cycles"), await page.value(SAID));
}

/** By the keyboard alone: from the list of examples to a question. */
async function tryKeys(page) {
  await page.value("document.getElementById('study').focus()");
  for (let steps = 0; steps < 3; steps += 1) await page.chromium.key("Tab");
  const focused = await page.value("document.activeElement.textContent");
  await page.chromium.key("Enter", "\r");
  await page.chromium.until(IDLE);
  const asked = await page.value("document.querySelector('[aria-pressed=true]').textContent");
  check("Enter asks the question that has the focus", asked === focused, focused);
}

async function tryLooks(page) {
  for (const [width, height] of [[1280, 900], [400, 800]]) {
    await page.chromium.size(width, height);
    for (const scheme of ["light", "dark"]) {
      const features = [{ name: "prefers-color-scheme", value: scheme }];
      await page.chromium.ask("Emulation.setEmulatedMedia", { features });
      const over = "document.documentElement.scrollWidth - document.documentElement.clientWidth";
      check(`nothing is wider than ${width} pixels`, (await page.value(over)) <= 0, await page.value(over));
      const faint = await page.value(FAINT);
      check(`text stands out, ${scheme}, ${width} pixels`, !faint.length, faint.join("; "));
      await page.picture(`${width}-${scheme}`);
    }
  }
  await page.chromium.ask("Emulation.setEmulatedMedia", { features: [] });
  await page.chromium.size(1280, 900);
  if (!shots) return;
  const { data } = await page.chromium.ask("Page.printToPDF", { printBackground: false, preferCSSPageSize: true });
  fs.writeFileSync(path.join(shots, "printed.pdf"), Buffer.from(data, "base64"));
}

/** What the browser asked for, or complained of. */
function complaints(chromium) {
  const events = (...methods) => chromium.events.filter(({ method }) => methods.includes(method));
  const asked = events("Network.requestWillBeSent").map(({ params }) => params.request.url);
  const outside = asked.filter((url) => !/^(blob:|data:|about:)/.test(url) && !/tomex\.html$/.test(url));
  const said = events("Log.entryAdded", "Runtime.exceptionThrown");
  return [...outside, ...said.map(({ params }) => params.entry?.text ?? params.exceptionDetails.text)];
}

function checkQuiet(where) {
  const found = complaints(chromium);
  check(`nothing is asked for or complained of, ${where}`, !found.length, found.join("; "));
}

const chromium = await Chromium.start();
const page = new Page(chromium);
const server = http.createServer((request, response) => {
  const isPage = request.url === "/tomex.html";
  response.writeHead(isPage ? 200 : 404, { "content-type": "text/html" });
  response.end(isPage ? fs.readFileSync(pageFile) : "");
});
try {
  await chromium.size(1280, 900);
  const milliseconds = await tryFirstView(page, pageUrl());
  await page.picture("first");
  for (const part of [tryLooks, tryRows, tryEditing, tryCommands, tryKeys, tryFiles, tryStopping]) {
    await part(page).catch((error) => check(part.name, false, error.message));
    await page.value("document.getElementById('example').value = 0, document.getElementById('example').onchange()");
    await chromium.until(IDLE);
  }
  checkQuiet("from a file");
  await new Promise((done) => server.listen(0, "127.0.0.1", done));
  await tryFirstView(page, `http://127.0.0.1:${server.address().port}/tomex.html`);
  checkQuiet("from a server");
  console.log(`from opening the page to its first table: ${milliseconds} ms`);
} catch (error) {
  check("the page", false, error.stack);
} finally {
  chromium.end();
  server.close();
  server.closeAllConnections?.();
}
console.log(`the page in Chromium: ${tried - failed} passed, ${failed} failed`);
process.exitCode = failed ? 1 : 0;
