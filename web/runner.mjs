// Runs of the program, each in a worker of its own, one at a time.
import { joined } from "./bytes.mjs";

/** What a terminal shows of progress: a line that the program writes over. */
const ERASE = "\r\x1b[K";

/** The line that the program writes on a terminal after a refusal: here a button says it. */
const HINT = /^tomex: `tomex explain`.*\n/m;

/** A line of progress that another one, or nothing, was written over. */
const PROGRESS = /\r\x1b\[K[^\r\n]*(?=\r|$)/g;

/** What a run wrote on standard error, without its progress and the hint. */
const refusalIn = (text) => text.replace(PROGRESS, "").replaceAll(ERASE, "").replace(HINT, "").trim();

/** The run that is under way, if there is one. */
let current;

/** Ends the run that is under way. */
export function stop() {
  current?.worker.terminate();
  current?.done({ stopped: true });
  current = undefined;
}

/**
 * Runs the program with these words on these files, and reports its progress. The outcome is `stopped`, a `fault` of
 * the engine, or a status, what it wrote, a refusal and how long it took.
 */
export function run(words, files, report) {
  stop();
  const worker = globalThis.newWorker();
  const [out, decoder] = [[], new TextDecoder()];
  let error = "";
  return new Promise((done) => {
    const end = (outcome) => {
      worker.terminate();
      current = undefined;
      done(outcome);
    };
    worker.onerror = (event) => end({ fault: event.message || "its worker failed" });
    worker.onmessage = ({ data }) => {
      if (data.fault) return end({ fault: data.fault });
      if (data.status !== undefined) return end({ ...data, output: joined(out), refusal: refusalIn(error) });
      if (data.descriptor === 1) return void out.push(data.bytes);
      error += decoder.decode(data.bytes, { stream: true });
      const line = error.slice(error.lastIndexOf(ERASE) + ERASE.length);
      if (error.includes(ERASE) && / (configurations|steps)$/.test(line)) report(line);
    };
    current = { worker, done };
    globalThis.tomexModule.then(
      (module) => worker.postMessage({ module, words, files }),
      (fault) => end({ fault: fault.message }),
    );
  });
}
