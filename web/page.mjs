// The page: files, a question, and the program's answer.
import { at, button } from "./dom.mjs";
import { addToFiles, droppedFiles, editFile, files, removeFiles, takeTyped, whenFilesChange } from "./files.mjs";
import { shownOutput, showFramesInTheWindow, showFramesWhole } from "./output.mjs";
import { run, stop } from "./runner.mjs";
import { EXAMPLES, newStudy, programsOf, RUN_QUESTIONS, STUDY_QUESTIONS } from "./views.mjs";
import { commandOf, quoted } from "./words.mjs";

const QUESTIONS = { ...STUDY_QUESTIONS, ...RUN_QUESTIONS };

/** The question whose answer is shown, by its name; none if a command was typed. */
let question;

/** True once a person has asked something: the first answer comes by itself. */
let hasAsked = false;

// ---- files, studies, programs ----

const studies = () => [...files.keys()].filter((name) => name.endsWith(".toml"));
const study = () => at("study").value || "study.toml";

/** Lists the studies, and the programs of the one that is chosen. */
async function listStudies(chosen = at("study").value) {
  const names = studies();
  at("study").replaceChildren(...names.map((name) => new Option(name)));
  at("study").disabled = !names.length;
  if (names.includes(chosen)) at("study").value = chosen;
  const text = names.length ? await files.get(study()).text().catch(() => "") : "";
  const programs = programsOf(text);
  at("programs").replaceChildren(...programs.map((name) => new Option(name)));
  if (!programs.includes(at("program").value)) at("program").value = programs[0] ?? "";
}
whenFilesChange(() => listStudies());

/** Takes an example's files, and asks what it is for. */
async function showExample(example) {
  removeFiles();
  addToFiles(example.files.map((name) => [name, globalThis.exampleFile(name)]));
  at("machine").value = example.ask.machine ?? "0";
  await listStudies();
  at("program").value = example.ask.program ?? at("program").value;
  if (example.ask.words) await carryOut([example.ask.words]);
  else await ask(example.ask.question);
}

/** Adds somebody's files, and shows what can be said of them at once. */
async function addFiles(found) {
  if (!found.length) return;
  addToFiles(found);
  const named = (ending) => found.map(([name]) => name).find((name) => name.endsWith(ending));
  const newest = named(".toml");
  await listStudies(newest);
  if (newest) {
    at("machine").value = "0";
    await ask("front");
  } else if (found.length === 1 && !studies().length) await carryOut([["run", found[0][0]]]);
}

// ---- questions and commands ----

const say = (line) => (at("state").textContent = line);

function markQuestion(name) {
  question = name;
  for (const asked of document.querySelectorAll("[data-question]"))
    asked.setAttribute("aria-pressed", String(asked.dataset.question === name));
}

/** Answers a question, of the machine that is given or named in its field. */
function ask(name, machine) {
  if (machine !== undefined) at("machine").value = machine;
  const { words, more } = QUESTIONS[name];
  const commands = [words, more].filter(Boolean).map((of) => of(study(), at("machine").value, at("program").value));
  return carryOut(commands, name);
}

/** True while a command is under way. */
function showBusy(busy) {
  at("stop").disabled = !busy;
  at("outputs").setAttribute("aria-busy", String(busy));
}

function showRefusal(refusal, status) {
  at("said").textContent = refusal;
  at("explain").hidden = !refusal.startsWith("tomex: ") || status === 2;
  at("explain").onclick = () => carryOut([["explain", refusal.split("\n")[0].replace(/^tomex: /, "")]]);
}

/** On a narrow window the answer is below the questions. */
function showAnswer() {
  if (hasAsked && matchMedia("(max-width: 60rem)").matches) at("form").scrollIntoView();
}

/** The commands, one after another. What they print takes the place of what was shown, once the first has printed. */
async function carryOut(commands, name, target) {
  stop();
  markQuestion(name);
  at("words").value = commands[0].map(quoted).join(" ") + (target ? ` > ${quoted(target)}` : "");
  showRefusal("", 0);
  showBusy(true);
  say("Running ..");
  const shown = [];
  let outcome;
  let milliseconds = 0;
  for (const words of commands) {
    outcome = await run(words, files, say);
    if (outcome.stopped) return void say("Stopped.");
    if (outcome.fault || outcome.status !== 0) break;
    milliseconds += outcome.milliseconds;
    if (target) addToFiles([[target, new Blob([outcome.output])]]);
    else shown.push(shownOutput(outcome.output, words, { ask, keep, heading: "h2" }));
    at("outputs").replaceChildren(...shown);
    showAnswer();
  }
  showBusy(false);
  if (outcome.fault) return void say(`The browser stopped the run: ${outcome.fault}`);
  showRefusal(outcome.refusal, outcome.status);
  if (outcome.status !== 0) at("outputs").replaceChildren(...shown);
  const done = target ? `${target} is among the files, after` : "Done in";
  say(outcome.status === 0 ? `${done} ${milliseconds.toFixed(0)} ms.` : `Refused, with status ${outcome.status}.`);
}

function keep(name, bytes) {
  addToFiles([[name, new Blob([bytes])]]);
  say(`${name} is among the files.`);
}

/** Runs the command that was typed. */
function carryOutTyped() {
  try {
    const { words, target } = commandOf(at("words").value);
    carryOut([words], undefined, target);
  } catch (error) {
    showRefusal(error.message, 2);
  }
}

// ---- what a person does ----

for (const [group, questions] of [["study-questions", STUDY_QUESTIONS], ["run-questions", RUN_QUESTIONS]])
  for (const [name, { title }] of Object.entries(questions)) {
    const asked = button(title, () => ask(name));
    asked.dataset.question = name;
    asked.setAttribute("aria-pressed", "false");
    at(group).append(asked);
  }

at("example").append(...EXAMPLES.map(({ title }, number) => new Option(title, number)));
at("example").onchange = () => showExample(EXAMPLES[at("example").value]);
at("add").onclick = () => at("chosen").click();
at("chosen").onchange = () => addFiles([...at("chosen").files].map((file) => [file.name, file]));
at("empty").onclick = () => removeFiles();
at("new").onclick = () => {
  const images = [...files.keys()].filter((name) => /\.(elf|bin|out)$/.test(name));
  addFiles([["study.toml", new Blob([newStudy(images)])]]).then(() => editFile("study.toml"));
};
at("text").oninput = () => takeTyped();
at("text").onkeydown = (event) => {
  if (event.key === "Enter" && (event.ctrlKey || event.metaKey)) carryOutTyped();
};
at("study").onchange = () => listStudies();
for (const id of ["machine", "program"])
  at(id).onchange = () => {
    if (question in RUN_QUESTIONS || question === "worth") ask(question);
  };
at("form").onsubmit = (event) => {
  event.preventDefault();
  carryOutTyped();
};
at("stop").onclick = () => {
  stop();
  showBusy(false);
};
addEventListener("dragover", (event) => {
  event.preventDefault();
  document.body.classList.add("drop");
});
addEventListener("dragleave", () => document.body.classList.remove("drop"));
addEventListener("drop", (event) => {
  event.preventDefault();
  document.body.classList.remove("drop");
  droppedFiles(event.dataTransfer).then(addFiles, () => say("The browser can't read what was dropped."));
});
for (const event of ["click", "keydown"]) addEventListener(event, () => (hasAsked = true), { capture: true });
addEventListener("beforeprint", showFramesWhole);
addEventListener("afterprint", showFramesInTheWindow);

showExample(EXAMPLES[0]);
