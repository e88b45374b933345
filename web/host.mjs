// Runs the program: an instance of its module for each run, as a process, whose memory goes with it.
//
// What a run sees of the world is a *system*, an object of these functions. Each returns a number, if it is less than 0
// minus an errno:
//
//   open(name)             a descriptor
//   read(descriptor, to)   how many bytes it put into the array `to`; 0 at the end
//   write(descriptor, it)  how many of these bytes it took
//   close(descriptor)
//   isTerminal(descriptor) true or false
//   clock()                milliseconds since any moment

const text = new TextDecoder();
const utf8 = new TextEncoder();

/** The engine stopped a run, or had no memory to begin it. */
export class Stopped extends Error {}

/** How a program leaves its run: thrown by `exit`, which doesn't return. */
class Exit {
  constructor(status) {
    this.status = status;
  }
}

/** What the module imports (web/libc.c). Addresses and lengths are 64-bit numbers: BigInts here. */
function hostOf(words, system, bytes) {
  return {
    word_count: () => BigInt(words.length),
    word(number, to, room) {
      const word = words[Number(number)];
      bytes(to, room).set(word.subarray(0, Number(room)));
      return BigInt(word.length);
    },
    open: (at, length) => BigInt(system.open(text.decode(bytes(at, length)))),
    read: (file, to, room) => BigInt(system.read(file, bytes(to, room))),
    write: (file, from, length) => BigInt(system.write(file, bytes(from, length))),
    close: (file) => void system.close(file),
    is_terminal: (file) => (system.isTerminal(file) ? 1 : 0),
    clock: () => system.clock(),
    exit(status) {
      throw new Exit(status);
    },
  };
}

/** The line of a program that has no memory, if the engine has none for its instance either. */
const NO_MEMORY = utf8.encode("tomex: out of memory\n");

/**
 * Runs `tomex` with these words, and returns its exit status. Throws `Stopped` if the engine ends the run, for example
 * since its own stack is at its end.
 */
export function run(module, words, system) {
  let memory;
  const bytes = (at, length) => new Uint8Array(memory.buffer, Number(at), Number(length));
  const given = ["tomex", ...words].map((word) => utf8.encode(word));
  let instance;
  try {
    instance = new WebAssembly.Instance(module, { host: hostOf(given, system, bytes) });
  } catch (error) {
    if (!(error instanceof RangeError)) throw error;
    system.write(2, NO_MEMORY);
    return 3;
  }
  memory = instance.exports.memory;
  try {
    return instance.exports.main(0, 0n);
  } catch (error) {
    if (error instanceof Exit) return error.status;
    if (error instanceof RangeError || error instanceof WebAssembly.RuntimeError) throw new Stopped(error.message);
    throw error;
  }
}

const [NOT_FOUND, FAULT, BAD_DESCRIPTOR] = [-2, -5, -9];

/** How much of a Blob is read at once: reading one is slow, whatever its length. */
const CHUNK = 1 << 20;

/** A file that is open: an array of bytes, or a Blob, of which only what is asked for is read (in a worker). */
class OpenFile {
  constructor(file) {
    this.file = file;
    this.at = 0;
    this.chunk = file instanceof Uint8Array ? file : new Uint8Array();
    this.from = 0;
  }

  /** Puts the next bytes into the array, and returns how many. */
  read(to) {
    let left = this.chunk.subarray(this.at - this.from);
    if (!left.length && this.file instanceof Blob) {
      this.chunk = new Uint8Array(new FileReaderSync().readAsArrayBuffer(this.file.slice(this.at, this.at + CHUNK)));
      this.from = this.at;
      left = this.chunk;
    }
    const piece = left.subarray(0, to.length);
    to.set(piece);
    this.at += piece.length;
    return piece.length;
  }
}

/**
 * A system whose files are in a map from names to arrays or Blobs. What is written goes to `put(descriptor, bytes)`.
 * Standard error is a terminal if `terminal` says so: then the program reports its progress.
 */
export function inMemory(files, put, terminal = false) {
  const open = new Map();
  let next = 3;
  return {
    open(name) {
      const file = files.get(name);
      if (!file) return NOT_FOUND;
      open.set(next, new OpenFile(file));
      return next++;
    },
    read(descriptor, to) {
      const file = open.get(descriptor);
      if (!file) return descriptor === 0 ? 0 : BAD_DESCRIPTOR;
      try {
        return file.read(to);
      } catch {
        return FAULT;
      }
    },
    write(descriptor, bytes) {
      put(descriptor, bytes.slice());
      return bytes.length;
    },
    close: (descriptor) => void open.delete(descriptor),
    isTerminal: (descriptor) => terminal && descriptor === 2,
    clock: () => performance.now(),
  };
}
