// ---- what is kept of a run: its report, its texts as files, and an address that has all of it

// An address that is longer isn't taken by every program that sends links.
const MOST_ADDRESS = 30000;

// ---- the report

/** The words and the input of a report of what is shown. */
function reportCall() {
  const {kind} = courseNow(), options = optionsNow(), words = optionWords(options, ofBoth);
  if (kind === "least") return [["run", ...words], subject.image];
  const other = optionRows.find((row) => !ofBoth.includes(row) && options[row[1]] !== row[3]);
  if (other) {
    throw new Refusal(`A report is made with ${other[1]} ${other[3]} only; choose that, or the least task's acts.`);
  }
  const acts = kind === "steps" ? script : actsSoFar();
  return [["steps", ...words], withBehind(subject.image, scriptText(acts))];
}

/** A report alone: what `steps` writes before it are the replies. */
function reportIn(text) {
  const place = text.startsWith("fractal 1\n") ? 0 : text.indexOf("\nfractal 1\n") + 1;
  return text.slice(place);
}

async function makeReport() {
  const [words, input] = reportCall();
  const {status, output} = await machines.call("sim", words, input);
  showText("report", reportIn(new TextDecoder().decode(output)));
  const told = status === UNWRITTEN ? "The report is too long to be made whole here" : statusTold(status);
  show(at("report-said"), toldHtml(`\`fractal ${words.join(" ")}\`: status ${status}. ${told}.`));
}

/** Hands the report to `check`, also where it was changed by hand. */
async function checkReport() {
  if (!textIn("report")) await makeReport();
  const options = optionsNow();
  const words = ["check", ...optionWords({commits: options.commits, budget: options.budget})];
  const text = textIn("report");
  const {output} = await machines.call("sim", words, withBehind(subject.image, text));
  const said = new TextDecoder().decode(output).trim();
  show(at("report-said"), toldHtml(checkTold(said, text)));
}

/** What `check` says, in a sentence. */
function checkTold(said, report) {
  const fault = /^fault journal (\d+)$/.exec(said), accepted = /^check ok (\d+)$/.exec(said);
  if (fault) {
    const line = lineAt(report, Number(fault[1])).slice(0, 60);
    return `Refusal: line ${fault[1]} is the first that is wrong: \`${line}\`.`;
  }
  if (!accepted) return `The program says: ${said}.`;
  return `Accepted: this is the report of a run, and ${plural(Number(accepted[1]), "task")} took a turn in it.`;
}

// ---- files

const TEXTS = {
  script: () => ["script", scriptText(actsSoFar())],
  report: () => ["report", textIn("report")],
  lines: () => ["lines", toldRun.bytes],
  image: () => ["image.bin", subject.image],
};

async function save(what) {
  if (what === "report" && !textIn("report")) await makeReport();
  const [name, content] = TEXTS[what]();
  const link = document.createElement("a");
  link.href = URL.createObjectURL(new Blob([content], {type: "application/octet-stream"}));
  link.download = name;
  link.click();
  setTimeout(() => URL.revokeObjectURL(link.href), 10000);
}

// ---- addresses

async function through(stream, bytes) {
  return new Uint8Array(await new Response(new Blob([bytes]).stream().pipeThrough(stream)).arrayBuffer());
}

async function packedText(bytes) {
  const made = await through(new CompressionStream("gzip"), bytes);
  let text = "";
  for (let place = 0; place < made.length; place += 8192)
    text += String.fromCharCode(...made.subarray(place, place + 8192));
  return btoa(text).replaceAll("+", "-").replaceAll("/", "_").replace(/=+$/, "");
}

/** What an address has packed; refused where it would be larger than all that the page takes. */
async function unpackedText(text) {
  const bytes = bytesOf(text.replaceAll("-", "+").replaceAll("_", "/"));
  // The last four bytes say the size, and needn't be right: so what comes is counted too.
  if (bytes.length >= 4 && new DataView(bytes.buffer).getUint32(bytes.length - 4, true) > MOST_INPUT) refuseSize();
  const reader = new Blob([bytes]).stream().pipeThrough(new DecompressionStream("gzip")).getReader(), pieces = [];
  for (let size = 0; ;) {
    const {done, value} = await reader.read();
    if (done) return joined(pieces, size);
    size += value.length;
    if (size > MOST_INPUT) refuseSize();
    pieces.push(value);
  }
}

function refuseSize() {
  throw new Refusal(`The address has more than ${grouped(MOST_INPUT)} bytes packed, so it isn't followed.`);
}

/** The part of an address behind its `#`: an example's name or an image, options, course, acts, place. */
async function addressNow() {
  const parts = new URLSearchParams();
  const example = examples.find((it) => it.name === subject.name);
  if (example) parts.set("example", example.name);
  else if (subject.sources)
    parts.set("sources", await packedText(new TextEncoder().encode(JSON.stringify(subject.sources))));
  else {
    parts.set("name", subject.name);
    parts.set("image", await packedText(subject.image));
  }
  const {kind} = courseNow();
  parts.set("acts", courseWords().join(" "));
  for (const [, name, , usual] of optionRows) {
    const value = optionsNow()[name];
    if (value !== usual) parts.set(name, value);
  }
  if (script.length && (kind === "steps" || areMade()))
    parts.set("script", await packedText(new TextEncoder().encode(scriptText())));
  if (subject.from) parts.set("from", subject.from);
  if (openedExercise) parts.set("exercise", openedExercise);
  if (openedExercise === OWN) parts.set(OWN, await packedText(new TextEncoder().encode(JSON.stringify(ownExercise))));
  if (!at("story").hidden) parts.set("story", String(storyPlace));
  parts.set("at", String(current));
  return parts.toString();
}

let writing, written = "";

/** Keeps the state in the address. A browser allows only so many changes of it in a time. */
function writeAddress() {
  clearTimeout(writing);
  writing = setTimeout(async () => {
    const address = await addressNow();
    if (address === written) return;
    if (address.length <= MOST_ADDRESS) {
      written = address;
      location.replace(`#${address}`);
    }
    keepPlace(address);
  }, 300);
}

/** Opens what an address has; an odd one is refused in a sentence. */
async function openAddress(address = location.hash.slice(1)) {
  if (!address || address === written) return false;
  const parts = new URLSearchParams(address), exercise = parts.get("exercise"), before = ownExercise;
  if (parts.has(OWN)) ownExercise = ownExerciseIn(new TextDecoder().decode(await read(parts.get(OWN))));
  try {
    await openParts(parts, address);
  } catch (error) {
    ownExercise = before;
    throw error;
  }
  if (exercise === OWN ? ownExercise : Object.hasOwn(exercises.exercises, exercise ?? "")) showExercise(exercise);
  const step = Number(parts.get("story") ?? NaN);
  if (Number.isInteger(step) && subject.name === story.example) {
    showStory(true);
    tellStory(step);
  }
  return true;
}

async function openParts(parts, address) {
  const words = (parts.get("acts") ?? "steps").split(" ");
  if (!["steps", "least", "lockstep"].includes(words[0]))
    throw new Refusal("The address has an unknown mode; use steps, least or lockstep.");
  const options
    = Object.fromEntries(optionRows.filter(([, name]) => parts.has(name)).map(([, name]) => [name, parts.get(name)]));
  const acts = parts.has("script") ? actsIn(new TextDecoder().decode(await read(parts.get("script")))) : [];
  const number = Number(parts.get("at") ?? NaN), place = Number.isInteger(number) && number >= 0 ? number : Infinity;
  const more = {options, acts, course: courseRead(words)};
  const from = parts.get("from") ?? parts.get("example"), example = examples.find((it) => it.name === from);
  if (example) Object.assign(more, {from, given: example.words[0] === "steps" ? actsIn(example.script) : []});
  else more.given = [];
  // The place that was left has its texts under their name; a link of somebody else's changes none that is kept here.
  const {key, originals} = address === kept.place.address ? kept.place : {};
  if (areSources(originals)) Object.assign(more, {key, originals});
  else if (parts.has(OWN)) more.key = answerKey(OWN);
  if (parts.get("exercise") === OWN && ownExercise?.sources.length) more.originals = ownExercise.sources;
  const sources = parts.get("sources");
  if (sources) await openSources(sourcesIn(new TextDecoder().decode(await read(sources))), more, place);
  else await open({...(await imageAt(parts)), ...more}, place);
  written = address;
}

/** The image that an address names or has. */
async function imageAt(parts) {
  const example = examples.find((it) => it.name === parts.get("example"));
  if (example) return {name: example.name, image: bytesOf(example.image), listing: listingRows(example.listing)};
  if (!parts.get("image")) throw new Refusal("The address names no example and has no image, so it isn't followed.");
  return {name: parts.get("name") || "image", image: await read(parts.get("image"))};
}

/** The sources of a text: a list of objects, each with a name and a text. */
function sourcesIn(text) {
  const sources = jsonIn(text);
  if (!areSources(sources) || !sources.length)
    throw new Refusal("The address has no list of sources, so it isn't followed.");
  return sources.map(({name, text: own}) => ({name, text: own}));
}

/** A text as JSON; null if it is none. */
function jsonIn(text) {
  try {
    return JSON.parse(text);
  } catch {
    return null;
  }
}

const areSources = (list) => Array.isArray(list)
  && list.every((it) => typeof it?.name === "string" && typeof it.text === "string");

/** An exercise of one's own that an address has: texts, and perhaps sources. */
function ownExerciseIn(text) {
  const own = jsonIn(text);
  if (!["name", "wanted", "words", "script"].every((field) => typeof own?.[field] === "string")
    || !areSources(own.sources) || typeof (own.image ?? "") !== "string")
    throw new Refusal("The address has no exercise that can be read, so it isn't followed.");
  return own;
}

async function read(text) {
  try {
    return await unpackedText(text);
  } catch (error) {
    throw error instanceof Refusal ? error : new Refusal("The address isn't whole, so it isn't followed.");
  }
}

async function copyLink() {
  const address = await addressNow();
  if (address.length > MOST_ADDRESS) {
    throw new Refusal("Image and script are too long for an address; save them, and send the files.");
  }
  const link = `${location.href.split("#")[0]}#${address}`;
  try {
    await navigator.clipboard.writeText(link);
    show(at("report-said"), "The link is copied. It brings everyone who has this page to this state.");
  } catch {
    written = address;
    location.replace(`#${address}`);
    show(at("report-said"), "The link is the address of this page: copy it from there.");
  }
}

function listenToTexts() {
  at("make-report").addEventListener("click", () => perform(makeReport));
  at("check-report").addEventListener("click", () => perform(checkReport));
  at("copy-link").addEventListener("click", () => perform(copyLink));
  for (const button of document.querySelectorAll("[data-save]")) {
    button.addEventListener("click", () => perform(() => save(button.dataset.save)));
  }
  addEventListener("hashchange", async () => {
    if (location.hash.slice(1) === written) return;
    if (await mayLeave()) perform(openAddress);
    else location.replace(`#${written}`);
  });
}
