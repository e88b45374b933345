// Modules put together into one script, for a page that is one file.
import fs from "node:fs";

/** The text of a file of this folder. */
export const ownText = (name) => fs.readFileSync(new URL(name, import.meta.url), "utf8");

/** These modules as one text, in this order, without their imports from each other and without `export`. */
export const bundled = (...names) =>
  names.map((name) => ownText(name).replace(/^import .* from "\.\/.*";\n/gm, "").replace(/^export /gm, "")).join("\n");
