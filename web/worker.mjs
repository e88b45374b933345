// A run in a worker: the page stays alive meanwhile, and ends a run by ending its worker.
import { inMemory, run } from "./host.mjs";

/** The files by their names; a name that isn't there is that of the only file that ends with the same part. */
function lenient(files) {
  const last = (name) => name.slice(name.lastIndexOf("/") + 1);
  return {
    get(name) {
      if (files.has(name)) return files.get(name);
      const same = [...files.keys()].filter((other) => last(other) === last(name));
      return same.length === 1 ? files.get(same[0]) : undefined;
    },
  };
}

self.onmessage = ({ data: { module, words, files } }) => {
  const put = (descriptor, bytes) => self.postMessage({ descriptor, bytes }, [bytes.buffer]);
  try {
    const begun = performance.now();
    const status = run(module, words, inMemory(lenient(files), put, true));
    self.postMessage({ status, milliseconds: performance.now() - begun });
  } catch (error) {
    self.postMessage({ fault: error.message });
  }
};
