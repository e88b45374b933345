// The words of a command line, as a shell reads them: quotes keep blanks, a backslash keeps the next character.

/** A word as it is written on a command line. */
export const quoted = (word) => (/^[\w@%+=:,.\/-]+$/.test(word) ? word : `'${word.replaceAll("'", "'\\''")}'`);

const PIECE = /'([^']*)'|"((?:\\.|[^"\\])*)"|\\(.)|([^\s'"\\]+)|(\s+)|(.)/gs;

/**
 * A command line as words, without a first `tomex`; and after `>` the name of the file that is to hold what it prints.
 * Throws an error if a quote has no end.
 */
export function commandOf(line) {
  const words = [];
  let word;
  let redirected = -1;
  for (const [piece, single, double, escaped, bare, blank, stray] of line.trim().matchAll(PIECE)) {
    if (stray !== undefined) throw new Error(`This quote has no end: ${line.slice(line.indexOf(piece))}`);
    if (blank !== undefined) {
      if (word !== undefined) words.push(word);
      word = undefined;
    } else if (bare === ">" && word === undefined) redirected = words.length;
    else word = (word ?? "") + (single ?? double?.replace(/\\(["\\$`])/g, "$1") ?? escaped ?? bare);
  }
  if (word !== undefined) words.push(word);
  const target = redirected < 0 ? undefined : words.splice(redirected)[0];
  if (redirected >= 0 && !target) throw new Error("After > comes the name of a file.");
  if (words[0] === "tomex") words.shift();
  return { words, target };
}
