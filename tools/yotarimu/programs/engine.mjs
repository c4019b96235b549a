// Runs the programs that a page or fractal.mjs has inside, for Node and Deno: `engine.mjs PAGE WORD...` is a call of
// the command line with these words.
import {readFileSync} from "node:fs";
import process from "node:process";

const [page] = process.argv.splice(2, 1);
const text = readFileSync(page, "utf-8");
for (const name of ["table", "made", "modules"]) {
  const start = text.indexOf(`\nconst ${name} = `) + `\nconst ${name} = `.length;
  globalThis[name] = JSON.parse(text.slice(start, text.indexOf(";\n", start)));
}
const sources = ["host.js", "command_line.js"].map((name) => (
  readFileSync(new URL(`../web/page/${name}`, import.meta.url), "utf-8")));
await import(`data:text/javascript,${encodeURIComponent(sources.join(""))}`);
