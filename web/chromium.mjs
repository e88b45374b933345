// A headless Chromium, driven by its DevTools protocol over pipes: for scripts that try the page.
import { spawn } from "node:child_process";
import fs from "node:fs";
import os from "node:os";
import path from "node:path";

/** The address of the packed page as a file. */
export const pageUrl = () => new URL("tomex.html", import.meta.url).href;

const NAMES = ["chromium", "chromium-browser", "google-chrome"];

/** The browser's program, if there is one: CHROMIUM names it, or it is on PATH. */
export function chromiumProgram() {
  if (process.env.CHROMIUM) return process.env.CHROMIUM;
  const folders = (process.env.PATH ?? "").split(path.delimiter);
  const places = folders.flatMap((folder) => NAMES.map((name) => path.join(folder, name)));
  return places.find((place) => fs.existsSync(place));
}

const OPTIONS = [
  "--headless=new", "--no-sandbox", "--disable-gpu", "--hide-scrollbars", "--no-first-run", "--disable-sync",
  "--disable-background-networking", "--disable-component-update", "--force-color-profile=srgb",
];

/** A browser with one page. `events` holds what the protocol reported since it was last emptied. */
export class Chromium {
  static async start() {
    const program = chromiumProgram();
    if (!program) throw new Error("there is no chromium");
    const chromium = new Chromium(program);
    const { targetId } = await chromium.ask("Target.createTarget", { url: "about:blank" });
    const { sessionId } = await chromium.ask("Target.attachToTarget", { targetId, flatten: true });
    chromium.session = sessionId;
    for (const domain of ["Page", "Runtime", "Network", "Log", "DOM"]) await chromium.ask(`${domain}.enable`);
    return chromium;
  }

  constructor(program) {
    this.room = fs.mkdtempSync(path.join(os.tmpdir(), "tomex-chromium-"));
    const words = [...OPTIONS, "--remote-debugging-pipe", `--user-data-dir=${this.room}`, "about:blank"];
    this.process = spawn(program, words, { stdio: ["ignore", "ignore", "ignore", "pipe", "pipe"] });
    this.waiting = new Map();
    this.events = [];
    this.count = 0;
    let rest = "";
    this.process.stdio[4].setEncoding("utf8").on("data", (piece) => {
      const messages = (rest + piece).split("\0");
      rest = messages.pop();
      for (const message of messages) this.hear(JSON.parse(message));
    });
  }

  hear(message) {
    if (!message.id) return void this.events.push(message);
    const { done, failed } = this.waiting.get(message.id);
    this.waiting.delete(message.id);
    if (message.error) failed(new Error(message.error.message));
    else done(message.result);
  }

  /** Calls a method of the protocol. */
  ask(method, params = {}) {
    const id = ++this.count;
    this.process.stdio[3].write(JSON.stringify({ id, method, params, sessionId: this.session }) + "\0");
    return new Promise((done, failed) => this.waiting.set(id, { done, failed }));
  }

  /** The value of an expression in the page; a promise is waited for. */
  async value(expression) {
    const found = await this.ask("Runtime.evaluate", { expression, returnByValue: true, awaitPromise: true });
    if (found.exceptionDetails) {
      const { exception, text } = found.exceptionDetails;
      throw new Error(exception?.description ?? text);
    }
    return found.result.value;
  }

  /** Waits until an expression in the page is true. */
  async until(expression, milliseconds = 20_000) {
    const end = Date.now() + milliseconds;
    while (!(await this.value(expression))) {
      if (Date.now() > end) throw new Error(`never true: ${expression}`);
      await new Promise((done) => setTimeout(done, 10));
    }
  }

  /** Opens an address, and waits for its load event. */
  async open(url) {
    await this.ask("Page.navigate", { url: "about:blank" });
    this.events = [];
    await this.ask("Page.navigate", { url });
    await this.until("document.readyState === 'complete'");
  }

  /** A window of this size. */
  size(width, height) {
    return this.ask("Emulation.setDeviceMetricsOverride", { width, height, deviceScaleFactor: 1, mobile: false });
  }

  /** Presses a key, with the text that it writes. */
  async key(key, text = "") {
    const codes = { Enter: 13, Tab: 9, " ": 32, ArrowDown: 40, ArrowUp: 38 };
    const given = { key, code: key, windowsVirtualKeyCode: codes[key] };
    await this.ask("Input.dispatchKeyEvent", { type: "keyDown", ...given, ...(text ? { text } : {}) });
    await this.ask("Input.dispatchKeyEvent", { type: "keyUp", ...given });
  }

  /** Writes a picture of the window as a PNG file. */
  async picture(file) {
    const { data } = await this.ask("Page.captureScreenshot", { format: "png" });
    fs.writeFileSync(file, Buffer.from(data, "base64"));
  }

  end() {
    this.process.kill();
    this.process.once("exit", () => fs.rmSync(this.room, { recursive: true, force: true, maxRetries: 5 }));
  }
}
