// ---- calls by lines of JSON, to hold the modules against other programs

import {readFileSync, writeSync} from "node:fs";
import {createInterface} from "node:readline";

const MOST_OUTPUT = 2 ** 30;
const programs = new Map(process.argv.slice(2).map((word) => {
  const [name, ...path] = word.split("=");
  return [name, new Program(new WebAssembly.Module(readFileSync(path.join("="))))];
}));

function answer({program, words, input}) {
  try {
    const {status, output} = programs.get(program).call(words, Buffer.from(input, "base64"), MOST_OUTPUT);
    return {status, output: Buffer.from(output).toString("base64")};
  } catch (error) {
    return {status: `${error.message}`, output: ""};
  }
}

for await (const line of createInterface({input: process.stdin})) {
  const text = Buffer.from(`${JSON.stringify(answer(JSON.parse(line)))}\n`);
  for (let place = 0; place < text.length;) {
    try {
      place += writeSync(1, text, place);
    } catch (error) {
      if (error.code !== "EAGAIN") throw error;
    }
  }
}
