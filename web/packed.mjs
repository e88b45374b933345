// The module within the packed page, under node.
import zlib from "node:zlib";

const OPENING = '<script type="text/plain" id="module">';

/** The module in a page that pack.mjs made: between its tags, in base 64, packed by gzip. */
export function packedModule(page) {
  const begin = page.indexOf(OPENING) + OPENING.length;
  const end = page.indexOf("</script>", begin);
  if (begin < OPENING.length || end < 0) throw new Error("the page holds no module");
  return zlib.gunzipSync(Buffer.from(page.latin1Slice(begin, end), "base64"));
}
