#!/usr/bin/env node
// tomex under node: node web/tomex.mjs COMMAND ..
//
// The module is taken out of the packed page beside this file; TOMEX_WASM names one that isn't packed.
import fs from "node:fs";
import os from "node:os";
import path from "node:path";
import tty from "node:tty";
import { run, Stopped } from "./host.mjs";
import { packedModule } from "./packed.mjs";

/** Waits for a millisecond: a pipe is full, and its reader has to go on first. */
const never = new Int32Array(new SharedArrayBuffer(4));
const waitAMoment = () => Atomics.wait(never, 0, 0, 1);

/** What a call of the system returns, or minus its errno. */
function answer(call) {
  for (;;) {
    try {
      return call() ?? 0;
    } catch (error) {
      if (error.code === "EOF") return 0; // how Windows says that a pipe ends
      if (error.code !== "EAGAIN") return -(os.constants.errno[error.code] ?? os.constants.errno.EIO);
      waitAMoment();
    }
  }
}

const words = process.argv.slice(2);

/** The study's folder: a file that isn't in the current folder is looked for there, too. */
const studyFolder = path.dirname(words.find((word) => word.endsWith(".toml")) ?? ".");

function open(name) {
  const found = answer(() => fs.openSync(name, "r"));
  if (found !== -os.constants.errno.ENOENT || path.isAbsolute(name) || studyFolder === ".") return found;
  return answer(() => fs.openSync(path.join(studyFolder, name), "r"));
}

const system = {
  open,
  read: (descriptor, to) => answer(() => fs.readSync(descriptor, to, 0, Math.min(to.length, 1 << 30), null)),
  write: (descriptor, bytes) => answer(() => fs.writeSync(descriptor, bytes)),
  close: (descriptor) => answer(() => fs.closeSync(descriptor)),
  isTerminal: (descriptor) => tty.isatty(descriptor),
  clock: () => performance.now(),
};

function moduleOf() {
  const bytes = process.env.TOMEX_WASM
    ? fs.readFileSync(process.env.TOMEX_WASM)
    : packedModule(fs.readFileSync(new URL("tomex.html", import.meta.url)));
  return new WebAssembly.Module(bytes);
}

/** Reports why there is no run, or no end of it. */
function refuse(line) {
  const bytes = Buffer.from(`tomex: ${line}\n`);
  answer(() => fs.writeSync(2, bytes));
  process.exitCode = 3;
}

try {
  process.exitCode = run(moduleOf(), words, system);
} catch (error) {
  if (error instanceof Stopped) refuse(`the engine stopped the run: ${error.message}`);
  else refuse(`the program can't be started: ${error.message}`);
}
