#!/usr/bin/env node
// The golden cases (crates/tomex_cases/data/README.md), run by the module.
//
//   web/golden.mjs [--chromium] [COMMAND ..]
//
// All archives, or those of some commands; under node, or in Chromium, in the packed page itself.
import fs from "node:fs";
import { casesOf, judge } from "./cases.mjs";
import { bundled } from "./bundle.mjs";
import { packedModule } from "./packed.mjs";

const words = process.argv.slice(2);
const commands = words.filter((word) => word !== "--chromium");
const folder = new URL("../crates/tomex_cases/data/", import.meta.url);
const archives = fs
  .readdirSync(folder)
  .filter((name) => name.endsWith(".txtar") && (!commands.length || commands.includes(name.slice(0, -6))))
  .sort()
  .map((name) => fs.readFileSync(new URL(name, folder)));

/** What is wrong with each case of an archive, a line each, and how many cases there are. */
function judgeAll(module, archive) {
  const wrong = [];
  const cases = casesOf(archive);
  for (const [name, files] of cases) {
    const why = judge(module, files);
    if (why) wrong.push(`${name}: ${why}`);
  }
  return { wrong, count: cases.size };
}

/** The same in Chromium, where the page has the module. */
async function judgeInChromium() {
  const { Chromium, pageUrl } = await import("./chromium.mjs");
  const chromium = await Chromium.start();
  try {
    await chromium.open(pageUrl());
    const code = `(() => {${bundled("bytes.mjs", "host.mjs", "cases.mjs")}
      const judgeAll = ${judgeAll};
      globalThis.judgeArchive = async (text) =>
        judgeAll(await tomexModule, Uint8Array.from(atob(text), (byte) => byte.charCodeAt(0)));
    })()`;
    await chromium.value(code);
    const found = [];
    for (const archive of archives)
      found.push(await chromium.value(`judgeArchive(${JSON.stringify(archive.toString("base64"))})`));
    return found;
  } finally {
    chromium.end();
  }
}

function judgeUnderNode() {
  const module = new WebAssembly.Module(packedModule(fs.readFileSync(new URL("tomex.html", import.meta.url))));
  return archives.map((archive) => judgeAll(module, archive));
}

const found = words.includes("--chromium") ? await judgeInChromium() : judgeUnderNode();
const wrong = found.flatMap((archive) => archive.wrong);
const count = found.reduce((sum, archive) => sum + archive.count, 0);
for (const line of wrong) console.log(line);
const where = words.includes("--chromium") ? "Chromium" : `node ${process.versions.node}`;
console.log(`${count - wrong.length} golden cases passed in ${where}, ${wrong.length} failed`);
process.exitCode = wrong.length || !count ? 1 : 0;
