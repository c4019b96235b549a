// ---- images of sources, a line of JSON for each, to compare the page's assembler and disassembler with others

import {createInterface} from "node:readline";

class Refusal extends Error {}

function made({sources, image}) {
  if (image !== undefined) return {listing: disassembled(new Uint8Array(Buffer.from(image, "base64")))};
  try {
    const assembly = assembled(...sources);
    return {image: Buffer.from(imageOf(assembly)).toString("base64"), listing: listingOf(assembly)};
  } catch (error) {
    if (error instanceof Refusal) return {refused: error.message};
    throw error;
  }
}

for await (const line of createInterface({input: process.stdin})) console.log(JSON.stringify(made(JSON.parse(line))));
