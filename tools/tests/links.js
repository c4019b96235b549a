// ---- addresses as the page opens them, a line of JSON for each, without a browser and without a machine

import {createInterface} from "node:readline";

class Refusal extends Error {}

const MOST_INPUT = 67108864;
const optionRows = [["option", "tiles", "1..16", "4", ""]];
const bytesOf = (base64) => Uint8Array.from(atob(base64), (sign) => sign.charCodeAt(0));
const actsIn
  = (text) => text.split(/\r\n?|\n/).map((line) => line.split("#")[0].trim().replace(/\s+/g, " ")).filter(Boolean);
let opened;

// What other parts of the page have, and nothing of it is looked at here.
Object.assign(globalThis, {examples: [{name: "hello", image: "", listing: "", words: ["steps"], script: ""}],
  location: {hash: ""}, subject: {}, at: () => ({}), OWN: "own", ownExercise: null, showExercise: () => null,
  kept: {place: {}}, story: {}, exercises: {exercises: {}}, showStory: () => null, tellStory: () => null,
  courseRead: () => ({}), answerKey: () => ""});

function open({image, listing = []}) {
  opened = new Labels(listing.length ? listing : disassembled(image));
}

function openSources(sources) {
  const assembly = assembled(...sources);
  open({image: imageOf(assembly), listing: listingOf(assembly)});
}

async function told(address) {
  location.hash = `#${address}`;
  try {
    await openAddress();
    return {opened: opened !== undefined};
  } catch (error) {
    return error instanceof Refusal ? {refused: error.message} : {failed: `${error.stack}`};
  }
}

for await (const line of createInterface({input: process.stdin}))
  console.log(JSON.stringify(await told(JSON.parse(line).address)));
