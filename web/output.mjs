// What a command printed, on the page: a text, a page or picture of its own, or bytes.
import { button, element } from "./dom.mjs";
import { textOf } from "./files.mjs";
import { ROW_QUESTIONS } from "./views.mjs";
import { quoted } from "./words.mjs";

/** The longest text that is shown whole, in characters, and the most rows with questions of their own. */
const MOST_SHOWN = 1 << 20;
const MOST_ASKING = 512;

/** A link within such a page stays in it only if its address is that of the frame. */
const BASE = '<base href="about:srcdoc">';

/** The buttons that ask about a machine; for the heading above them, if there is no machine, their place. */
function asking(row, ask) {
  const more = element("span");
  more.className = "more";
  const named = (question) => button(question, () => ask(question, row), `${question} of machine ${row}`);
  if (row) more.append(...ROW_QUESTIONS.map(named));
  return more;
}

/** A text. In a table of machines, whose first column is `row`, each line has questions before it. */
function shownText(text, ask) {
  const pre = element("pre");
  pre.tabIndex = 0;
  const whole = text.length <= MOST_SHOWN ? text : text.slice(0, text.lastIndexOf("\n", MOST_SHOWN) + 1);
  const isOfMachines = /^ *row  /.test(whole);
  const lines = isOfMachines ? whole.split(/(?<=\n)/) : [];
  for (const line of lines.slice(0, MOST_ASKING)) pre.append(asking(/^ *(\d+)  /.exec(line)?.[1], ask), line);
  pre.append(isOfMachines ? lines.slice(MOST_ASKING).join("") : whole);
  if (whole.length < text.length) pre.append("..\nThe rest isn't shown here: Save keeps all of it.\n");
  return pre;
}

/** A page or picture, in a frame without scripts. The sections of a report's machines get their questions. */
function shownPage(text, title, ask) {
  const frame = element("iframe");
  frame.title = title;
  frame.setAttribute("sandbox", "allow-same-origin");
  frame.onload = () => {
    const inside = frame.contentDocument;
    for (const section of inside?.querySelectorAll("section[id^=r]") ?? []) {
      const row = /^r(\d+)$/.exec(section.id)?.[1];
      const more = row && asking(row, ask);
      if (more) section.querySelector("header, h2")?.append(more);
    }
  };
  const head = text.indexOf("<head>");
  frame.srcdoc = head < 0 ? BASE + text : text.slice(0, head + 6) + BASE + text.slice(head + 6);
  return frame;
}

function save(bytes, name) {
  const link = element("a");
  link.href = URL.createObjectURL(new Blob([bytes]));
  link.download = name;
  link.click();
  setTimeout(() => URL.revokeObjectURL(link.href), 60_000);
}

/** The kind of file that a text is. */
function endingOf(text) {
  if (text === undefined) return "elf";
  if (/^<!DOCTYPE html/i.test(text)) return "html";
  if (text.startsWith("<svg")) return "svg";
  return /^[^\n ]+,[^\n]*\n/.test(text) ? "csv" : "txt";
}

/** A section with the output of a command, and buttons that save it or keep it among the files. */
export function shownOutput(bytes, words, { ask, keep, heading }) {
  const text = textOf(bytes);
  const ending = endingOf(text);
  const name = `${words[0]?.replace(/^-+/, "") || "tomex"}.${ending}`;
  const section = element("section");
  section.className = "output";
  const bar = element("div");
  bar.className = "row";
  const buttons = element("span");
  buttons.append(
    button("Save", () => save(bytes, name), `Save ${name}`),
    " ",
    button("Keep as a file", () => keep(name, bytes), `Keep ${name} among the files`),
  );
  const title = element(heading, "");
  title.append(element("code", `tomex ${words.map(quoted).join(" ")}`));
  bar.append(title, buttons);
  section.append(bar);
  if (text === undefined) section.append(element("p", `${bytes.length.toLocaleString("en")} bytes that aren't text.`));
  else if (ending === "html" || ending === "svg") section.append(shownPage(text, `What ${words[0]} prints`, ask));
  else section.append(shownText(text, ask));
  return section;
}

/** Frames print with all that is in them. */
export function showFramesWhole() {
  for (const frame of document.querySelectorAll("iframe"))
    frame.style.height = `${frame.contentDocument?.documentElement.scrollHeight ?? 0}px`;
}

export function showFramesInTheWindow() {
  for (const frame of document.querySelectorAll("iframe")) frame.style.height = "";
}
