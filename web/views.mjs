// What the page offers: examples, and questions with the commands that answer them.

/** The examples: the files of each (in the folder examples), and what is asked first. */
export const EXAMPLES = [
  {
    title: "384 machines, two programs: which are worth their price?",
    files: ["explore.toml", "primes.elf", "matrix.elf"],
    ask: { question: "front", machine: "132", program: "matrix" },
  },
  {
    title: "Seven instructions, cycle by cycle: Tomasulo's tables",
    files: ["followed.toml", "followed.bin"],
    ask: { question: "animate", machine: "0", program: "followed" },
  },
  {
    title: "An inner product on four machines: the pipeline",
    files: ["dot.toml", "dot.bin"],
    ask: { question: "pipeline", machine: "0", program: "dot" },
  },
  {
    title: "Twelve machines, four instructions",
    files: ["study.toml", "mul.bin"],
    ask: { question: "front", machine: "4", program: "mul" },
  },
  {
    title: "Two builds of a program: which is faster, and where?",
    files: ["builds.toml", "builds/o2.elf", "builds/o3.elf"],
    ask: { words: ["compare", "builds.toml", "o2", "o3"], machine: "167", program: "o3" },
  },
  {
    title: "A run of three million steps: which parts stand for it?",
    files: ["long/sensor.elf"],
    ask: { words: ["parts", "long/sensor.elf", "100000"] },
  },
];

/**
 * The questions about a study, and below those about a run on one of its machines: titles, and the words of commands.
 * What `more` prints is shown below the first answer.
 */
export const STUDY_QUESTIONS = {
  front: {
    title: "Which machines are worth their price?",
    words: (study) => ["front", study],
    more: (study) => ["plot", study, "--rows"],
  },
  hull: { title: "Which steps are worth taking?", words: (study) => ["front", study, "--hull"] },
  plot: { title: "What does the front look like?", words: (study) => ["plot", study, "--rows"] },
  page: { title: "All of it, as a report", words: (study) => ["page", study] },
  prices: { title: "What if my prices are wrong?", words: (study) => ["prices", study] },
  choices: { title: "Did I list the right parts?", words: (study) => ["choices", study] },
  worth: {
    title: "What would one part more or less bring on this machine?",
    words: (study, machine) => ["worth", study, machine],
  },
};

const ofRun = (command) => (study, machine, program) => [command, study, machine, program];

export const RUN_QUESTIONS = {
  animate: { title: "What happens in each cycle?", words: ofRun("animate") },
  pipeline: { title: "What does its pipeline look like?", words: ofRun("pipeline") },
  times: { title: "When does each instruction run?", words: ofRun("times") },
  path: { title: "Why does it take exactly these cycles?", words: ofRun("path") },
  stalls: { title: "Where does it wait?", words: ofRun("stalls") },
  loops: { title: "What do its loops take?", words: ofRun("loops") },
};

/** The questions that each machine of a table gets beside its row. */
export const ROW_QUESTIONS = ["loops", "path", "stalls", "animate"];

/** A study of these images, to begin with. */
export function newStudy(images) {
  const programs = images.slice(0, 8).map((name, at) => {
    const base = name.endsWith(".elf") ? "base = 65536       # where linkers place programs\n" : "";
    return `[[program]]\nname = "program${at + 1}"\nfile = "${name}"\n${base}`;
  });
  return `${programs.join("\n") || '[[program]]\nname = "program"\nfile = "program.elf"\n'}
[prices]             # of one station each, and of a common data bus
alu = 6
mul = 8
load = 10
store = 10
bus = 25

[axes]               # the machines are all combinations
alu = [1, 2, 4]
mul = [1, 2]
load = [1, 2]
buses = [1, 2]
`;
}

/** The names of the programs in a study's text, whose only keys `name` are theirs. */
export const programsOf = (text) =>
  [...text.replace(/#.*/g, "").matchAll(/\bname\s*=\s*["']([a-z0-9_-]+)["']/g)].map((found) => found[1]);
