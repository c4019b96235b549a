// ---- the live page: an image, options and acts, which the machine in the page plays anew at each change

const MOST_INPUT = 67108864, MOST_AT_ONCE = 10000, MOST_IN_ROUNDS = 200000;
// After so many milliseconds a call that still runs is told, and can be stopped.
const PATIENCE = 300;
// The status of a call whose output wasn't taken whole.
const UNWRITTEN = 7;
// Those of both programs, and behind them those of the second program alone.
const ofBoth = table.filter(([kind, name]) => kind === "option" && name !== "workers");
const optionRows = [...ofBoth, ...table.filter(([kind]) => kind === "mode-option")];
// What the program calls the number of rounds without a commit after which the least task advances, and the usual one.
const STARVED = /\[(\w+) M\]/.exec(table.find(([, name]) => name === "lockstep")?.[2])?.[1] ?? "starved";
const USUAL_STARVED = "16";
const actWords = {dispatch: 1, step: 2, take: 2, give: 2, abort: 1, commit: 0, coalesce: 1, split: 1, advance: 0};
// Replies to what nothing asked for, in rounds.
const NOT_ASKED_FOR = ["empty", "busy", "stale", "ended"];

let cutTold = "";
let machines, toldRun = new ToldRun();
let subject = {name: "", image: new Uint8Array(0), listing: [], labels: new Labels([]), given: []};
// What stood before acts were made or cut, the latest last.
let script = [], past = [], lastOptions = null, callTold = "";

/** What can't be done: its text is the sentence for the person. */
class Refusal extends Error {}

const tell = (sentence) => { at("message").innerHTML = toldHtml(sentence); };

// ---- one thing after another

let chain = Promise.resolve();

/** Does something once all before it is done; what goes wrong is told in a sentence. */
function perform(action) {
  chain = chain.then(async () => {
    const late = setTimeout(() => showBusy(true), PATIENCE);
    stopping.isWanted = false;
    try {
      tell("");
      await action();
    } catch (error) {
      tell(failureTold(error));
    } finally {
      clearTimeout(late);
      showBusy(false);
    }
  });
  return chain;
}

function failureTold(error) {
  if (error instanceof Refusal) return error.message;
  if (error instanceof Interruption) return "It was stopped, and nothing has changed.";
  return `The machine gave no answer: ${error.message}.`;
}

/** Ends what lasts: the machine's call, or the reading of what it told. */
function stop() {
  stopping.isWanted = true;
  return machines.stop();
}

function showBusy(isBusy) {
  at("stop").hidden = !isBusy;
  at("call").textContent = isBusy ? "The machine runs." : callTold;
}

// ---- what is asked of the machine

function optionsNow() {
  return Object.fromEntries(optionRows.map(([, name, , usual]) => [name, at(`option-${name}`).value.trim() || usual]));
}

function setOptions(options) {
  for (const [, name, , usual] of optionRows) at(`option-${name}`).value = options[name] ?? usual;
}

/** The words for options that aren't as usual. */
function optionWords(options = optionsNow(), rows = optionRows) {
  return rows.filter(([, name, , usual]) => options[name] !== undefined && options[name] !== usual)
    .flatMap(([, name]) => [`--${name}`, options[name]]);
}

function courseNow() {
  const kind = at("course").value;
  if (kind !== "lockstep") return {kind};
  return {kind, rounds: at("rounds").value, seed: at("seed").value, starved: at("starved").value};
}

function setCourse({kind, rounds, seed, starved = USUAL_STARVED}) {
  at("course").value = document.body.dataset.course = kind;
  if (rounds !== undefined) [at("rounds").value, at("seed").value, at("starved").value] = [rounds, seed, starved];
}

function courseWords({kind, rounds, seed, starved} = courseNow()) {
  if (kind !== "lockstep") return [kind];
  return [kind, rounds, seed, ...(starved === USUAL_STARVED ? [] : [STARVED, starved])];
}

/** The mode that words begin with, such as `lockstep 1000 1`; the usual one where none is known. */
function courseRead([word, rounds, seed, further, starved]) {
  if (word !== "lockstep") return {kind: word === "steps" ? word : "least"};
  return {kind: word, rounds, seed, ...(["starved", "barren"].includes(further) ? {starved} : {})};
}

const scriptText = (acts = script) => acts.map((act) => `${act}\n`).join("");

function withBehind(image, text) {
  const behind = new TextEncoder().encode(text);
  return joined([image, behind], image.length + behind.length);
}

/** All that decides what is played, and what was told of it. */
function stateNow() {
  return {
    subject, script, past, toldRun, callTold, lastOptions, bytes: toldRun.bytes, place: current,
    options: optionsNow(), course: courseNow()
  };
}

/** Brings a state back. What was read since then is read as it was: that can't be stopped. */
async function setState(state) {
  ({subject, script, past, toldRun, callTold, lastOptions} = state);
  setOptions(state.options);
  setCourse(state.course);
  showScript();
  if (toldRun.bytes === state.bytes && toldRun.course === course) return;
  const kept = await toldRun.take(state.bytes, {isWanted: false});
  if (toldRun.course) showAnswer({isNew: toldRun.course !== course, kept, place: state.place});
}

/** Plays it all anew, and shows an act. */
async function play(place = Infinity) {
  const isSteps = courseNow().kind === "steps";
  const words = [...courseWords(), ...optionWords()];
  const begin = performance.now();
  const input = isSteps ? withBehind(subject.image, scriptText()) : subject.image;
  const {status, output} = await machines.call("watch", words, input);
  const milliseconds = performance.now() - begin;
  const text = new TextDecoder().decode(output.subarray(0, 200));
  if (text.startsWith('{"fault"')) throw new Refusal(faultTold(JSON.parse(text.split("\n")[0])));
  if (!output.length) throw new Refusal(`${statusTold(status)}: status ${status}.`);
  if (!toldRun.isBegunBy(output)) toldRun = new ToldRun();
  // What was shown last may not stand in what is read now.
  lastShown = null;
  const had = toldRun.course, kept = await toldRun.take(output);
  showAnswer({isNew: toldRun.course !== had, kept, place});
  const size = `${plural(output.length, "byte")}, ${milliseconds.toFixed(0)} ms`;
  callTold
    = `fractal watch ${words.join(" ")}: status ${status}, ${size}.${toldRun.end ? "" : brokenOff(status)}`;
  lastOptions = {options: optionsNow(), course: courseNow()};
  clearTexts();
}

/** Who makes the acts, and on what machine. */
function showRun({tiles, cores}) {
  const {kind, seed} = courseNow();
  const who = {steps: "my acts", least: "least task", lockstep: "lockstep"}[kind];
  at("run-told").textContent = `${who}, ${tiles} × ${plural(cores, "core")}`;
  at("run-told").title = `${settingsTold(course.head)}. Open this to change it.`;
}

function showAnswer({isNew, kept, place}) {
  ({course} = toldRun);
  const sayer = new Sayer(toldRun.head, subject.labels);
  saying = (act, before, behind) => sentenceAt(sayer, act, before, behind);
  lastShown = null;
  if (isNew) {
    build(subject.listing);
    buildPlaces(toldRun.head);
  } else {
    buildCurves();
    timeline.open(course);
  }
  showProfile();
  keepActs();
  showRun(toldRun.head);
  showScript();
  showExample();
  go(place);
}

function showExample() {
  at("example").value = String(examples.findIndex((it) => it.name === subject.from));
}

function sentenceAt(sayer, act, before, behind) {
  const told = act === 0 ? sayer.opening() : sayer.sentence(course.acts[act - 1], before, behind);
  // Whoever makes acts knows that the run isn't over yet.
  const isClear = toldRun.end?.end === "open" && (act === 0 || past.length);
  return act === course.length && toldRun.end && !isClear ? `${told} ${sayer.end(toldRun.end)}` : told;
}

/** Does what changes the state; where that is refused or stopped, all is as it was. */
async function attempt(action, before = stateNow()) {
  try {
    await action();
  } catch (error) {
    await setState(before);
    throw error;
  }
}

/** Changes what is played, and plays it. */
function change(make, place) {
  return attempt(async () => {
    await make();
    await play(place);
  });
}

/** What is said of a text without its end. */
function brokenOff(status) {
  return status === UNWRITTEN
    ? ` Such a long run isn't shown whole: these are its first ${plural(course.length, "act")}.`
    : ` ${statusTold(status)}: the text isn't whole.`;
}

function statusTold(status) {
  const row = table.find(([kind, number]) => kind === "status" && number === String(status));
  return row ? `${row[2][0].toUpperCase()}${row[2].slice(1)}` : "The program wrote nothing";
}

function faultTold(fault) {
  switch (fault.fault) {
    case "image":
      return `${subject.name} isn't an image: ${sentences["image faults"][fault.number]} (at byte ${fault.offset}).`;
    case "script": return actFault(script[fault.line - 1] ?? "", fault.line);
    case "long": return `The image and its script have more than ${grouped(MOST_INPUT)} bytes.`;
    default: return `An option is outside its range: ${optionFault()}.`;
  }
}

function optionFault() {
  const options = optionsNow();
  const wrong = optionRows.find(([, name, values]) => !isAllowed(values, options[name]));
  return wrong ? `${wrong[1]} is ${wrong[2].replace("..", " to ").replaceAll(",", ", ")}, and not ${options[wrong[1]]}`
    : "rounds, also those without a commit, are 1 to 1,000,000, and a seed is 0 to 4,294,967,295";
}

function isAllowed(values, text) {
  const [least, most] = values.split("..");
  if (most === undefined) return values.split(",").includes(text);
  return /^\d{1,10}$/.test(text) && Number(text) >= Number(least) && Number(text) <= Number(most);
}

/** Why a line is no act here. */
function actFault(act, line) {
  const [word, ...numbers] = act.split(" "), {tiles, cores} = optionsNow();
  const where = line ? `Line ${line}, \`${act.slice(0, 40)}\`` : `\`${act.slice(0, 40)}\``;
  if (!Object.hasOwn(actWords, word))
    return `${where}${line ? "," : ""} isn't an act; an act begins with ${Object.keys(actWords).join(", ")}.`;
  if (numbers.length !== actWords[word])
    return `${where}: it takes ${["no number", "a tile", "a tile and a core"][actWords[word]]}.`;
  if (numbers.some((it) => /^0\d/.test(it))) return `${where}: a number has no leading zero.`;
  if (numbers[0] !== undefined && !isAllowed(`0..${tiles - 1}`, numbers[0]))
    return `${where}: the tiles are 0 to ${tiles - 1}.`;
  if (numbers[1] !== undefined && !isAllowed(`0..${cores - 1}`, numbers[1]))
    return `${where}: the cores are 0 to ${cores - 1}.`;
  return `${where}: it isn't written as an act is.`;
}

// ---- acts

/** The acts up to what is shown as a script; of a course that the machine makes, each act that it told. */
function actsSoFar() {
  if (courseNow().kind === "steps") return script;
  return course.acts.slice(0, current).filter((line) => Object.hasOwn(actWords, line.do)).map((line) => (
    [line.do, ...[line.tile, line.core].slice(0, actWords[line.do])].join(" ")));
}

/** The acts up to what is shown. */
function actsUpToHere() {
  return courseNow().kind === "steps" ? script.slice(0, current) : actsSoFar();
}

/** Puts further acts behind what is shown. Those that stood there are cut; undoing brings them back. */
function append(more) {
  const isCut = current < course.length;
  const cut = plural(course.length - current, "act");
  cutTold = isCut ? `${cut} after act ${grouped(current)} were replaced; undo restores them.` : "";
  past = [...past, {script, course: courseNow(), place: current}];
  script = [...actsUpToHere(), ...more];
  setCourse({kind: "steps"});
}

const addActs = (more) => perform(() => change(() => append(more)));

/** Makes acts of which only those stay that something asked for; where none stays, the sentence says why. */
function addAsked(more, notAskedFor, sentence) {
  return attempt(async () => {
    const before = actsUpToHere().length;
    append(more);
    await play();
    const asked = script.filter((_, place) => place < before || !notAskedFor.includes(course.acts[place]?.reply));
    if (asked.length === before) throw new Refusal(sentence);
    if (asked.length === script.length) return;
    script = asked;
    await play();
  });
}

function runMany(count) {
  return perform(() => addAsked(Array(count).fill("advance"), ["ended"], "The run is over, so no event is left."));
}

/** Rounds in lockstep. A refused act changes nothing, so the run is the same without those that nothing asked for. */
function runRounds(count) {
  return perform(() => {
    const {tiles, cores} = course.head;
    const each = (length, act) => Array.from({length}, (_, number) => act(number));
    const round = [
      ...each(tiles, (tile) => [`dispatch ${tile}`, ...each(cores, (core) => `step ${tile} ${core}`)]).flat(),
      ...each(tiles, () => "commit"), ...each(tiles, (tile) => `split ${tile}`)
    ];
    if (count * round.length > MOST_IN_ROUNDS) throw new Refusal("These are too many rounds at once; make fewer.");
    return addAsked(Array(count).fill(round).flat(), NOT_ASKED_FOR, "Nothing is left to do in a round.");
  });
}

/** Leaves out the last acts. */
function undo(count) {
  return perform(() => {
    if (courseNow().kind !== "steps") throw new Refusal("The machine made these acts; choose your own acts instead.");
    if (!script.length) throw new Refusal("No act is left to undo.");
    return change(() => {
      past = [...past, {script, course: courseNow(), place: current}];
      script = script.slice(0, Math.max(0, script.length - count));
    });
  });
}

/** Plays other acts in place of those so far, which undo restores. */
function replaceScript(text) {
  return change(() => {
    past = [...past, {script, course: courseNow(), place: current}];
    script = actsIn(text);
    setCourse({kind: "steps"});
  });
}

/** Brings back what stood before the last button. */
function undoLast() {
  if (!past.length) return undo(1);
  const before = past.at(-1);
  return perform(() => change(() => {
    past = past.slice(0, -1);
    script = before.script;
    cutTold = "";
    setCourse(before.course);
  }, before.place));
}

function doTyped() {
  const text = at("typed").value.split("#")[0].trim().replace(/\s+/g, " ");
  if (!text) return;
  const many = /^(run|undo)(?: (\d{1,5}))?$/.exec(text), pair = /^order (\S+) (\S+)$/.exec(text);
  const count = many && Math.min(Number(many[2] ?? 1), MOST_AT_ONCE);
  const done = pair ? perform(() => pickBoth(pair[1], pair[2])) : !many ? addTyped(text)
    : many[1] === "run" ? runMany(count) : undo(count);
  done.then(() => { if (!at("message").textContent) at("typed").value = ""; });
}

function addTyped(text) {
  const [word, ...numbers] = text.split(" ");
  const isAct = Object.hasOwn(actWords, word) && numbers.length === actWords[word];
  return isAct ? addActs([text]) : perform(() => { throw new Refusal(actFault(text)); });
}

// ---- what is opened

/** Shows another image with its script and its options. */
function open({name, image, listing = [], acts = [], options = {}, course: wanted = {kind: "steps"}, sources = null,
  from = name, given = acts}, place = Infinity) {
  return change(() => {
    const rows = listing.length ? listing : disassembled(image), example = examples.find((it) => it.name === from);
    subject = {name, image, listing: rows, labels: new Labels(rows), sources, given, from: example && from};
    showStory(false);
    showExercise(null);
    script = acts;
    past = [];
    cutTold = "";
    setOptions(options);
    setCourse(wanted);
    toldRun = new ToldRun();
    editor.isOfC = Boolean(example?.c);
    if (!sources) openTexts(name, example?.c ? [{name: `${name}.c`, text: example.c}] : example?.sources ?? []);
  }, place);
}

function openExample(example, place = Infinity, more = {}) {
  const {course: wanted, options} = wordsRead(example.words);
  return open({name: example.name, image: bytesOf(example.image), listing: listingRows(example.listing),
    acts: actsIn(example.script), options, course: wanted, ...more}, place);
}

const bytesOf = (base64) => Uint8Array.from(atob(base64), (sign) => sign.charCodeAt(0));
const actsIn
  = (text) => text.split(/\r\n?|\n/).map((line) => line.split("#")[0].trim().replace(/\s+/g, " ")).filter(Boolean);

/** The course and the options of a call's words. */
function wordsRead(words) {
  const options = {};
  words.forEach((word, place) => { if (word.startsWith("--")) options[word.slice(2)] = words[place + 1]; });
  return {course: courseRead(words), options};
}

// What is opened without acts of its own: rounds in which tasks run ahead.
const IN_LOCKSTEP = {kind: "lockstep", rounds: "1000", seed: "1"};

/** Files of one's own: an image with what belongs to it, or a source. */
async function openFiles(files) {
  const large = files.find((file) => file.size > MOST_INPUT);
  if (large) {
    throw new Refusal(`${large.name} has ${plural(large.size, "byte")}; an image and its script have at most `
      + `${grouped(MOST_INPUT)}.`);
  }
  const read = await Promise.all(
    files.map(async (file) => ({name: file.name, bytes: new Uint8Array(await file.arrayBuffer())})));
  if (read.some(({name}) => name === "wanted")) return openOwnFiles(read);
  const kinds = {};
  for (const file of read) kinds[kindOf(file)] ??= file;
  const text = (file) => (file ? new TextDecoder().decode(file.bytes) : "");
  if (!kinds.image && kinds.source) {
    return openSources(read.filter((file) => kindOf(file) === "source")
      .map((file) => ({name: file.name.replace(/\s+/g, "_"), text: text(file)})));
  }
  if (!kinds.image && kinds.script && !kinds.other) return replaceScript(text(kinds.script));
  const image = kinds.image ?? kinds.other ?? read[0];
  return open({name: image.name, image: image.bytes, listing: kinds.listing ? listingRows(text(kinds.listing)) : [],
    acts: actsIn(text(kinds.script)), course: kinds.script ? {kind: "steps"} : IN_LOCKSTEP});
}

function kindOf({name, bytes}) {
  if (String.fromCharCode(...bytes.subarray(0, 4)) === MAGIC) return "image";
  if (/\.s$/i.test(name)) return "source";
  const start = new TextDecoder().decode(bytes.subarray(0, 400));
  if (start.startsWith("What stands where in ")) return "listing";
  const first = actsIn(start)[0] ?? "";
  return Object.hasOwn(actWords, first.split(" ")[0]) ? "script" : "other";
}

// ---- the parts of the page that hang on the image

function buildPlaces({tiles, cores}) {
  const choices = (count) => Array.from({length: count}, (_, number) => `<option>${number}</option>`).join("");
  const chosen = [at("tile").value, at("core").value];
  at("tile").innerHTML = choices(tiles);
  at("core").innerHTML = choices(cores);
  if (chosen[0] < tiles) at("tile").value = chosen[0] || 0;
  if (chosen[1] < cores) at("core").value = chosen[1] || 0;
}

/** The script as text, where it is open. */
function showScript() {
  if (!at("script-box").open) return;
  showText("script", scriptText(courseNow().kind === "steps" ? script : []), true);
  at("script").scrollTop = at("script").scrollHeight;
}

function clearTexts() {
  showText("report", "");
  show(at("report-said"), "");
}

function fieldHtml([, name, values, usual, bounds]) {
  const [least, most] = values.split("..");
  const control = most === undefined
    ? `<select id="option-${name}">${values.split(",").map((it) => `<option>${it}</option>`).join("")}</select>`
    : `<input id="option-${name}" type="number" min="${least}" max="${most}" value="${usual}">`;
  const range = most === undefined ? values.replaceAll(",", ", ") : `${least} to ${grouped(Number(most))}`;
  return `<label title="${escaped(bounds)}">${name} ${control} <small class="quiet">${range}</small></label>`;
}

function groupHtml(group) {
  const choices = examples.map((it, place) => (
    it.group === group ? `<option value="${place}">${escaped(it.title)}</option>` : ""));
  return `<optgroup label="${group}">${choices.join("")}</optgroup>`;
}

function buildControls() {
  at("options").innerHTML = optionRows.map(fieldHtml).join("");
  setOptions({});
  const groups = [...new Set(examples.map((it) => it.group))];
  at("example").innerHTML = `<option value="-1">my own</option>${groups.map(groupHtml).join("")}`;
  at("made").textContent
    = ` Version ${table.find(([kind]) => kind === "version")[1]}; both programs are of the commit ${made.commit}.`;
}

/** What opens over the page closes by Escape, and where something beside it is pressed. */
function listenToPops() {
  const opened = () => [...document.querySelectorAll(".pop")].map((it) => it.parentNode).filter((it) => it.open);
  document.addEventListener("keydown", ({key, target}) => {
    if (key !== "Escape") return;
    for (const box of opened()) {
      box.open = false;
      if (box.contains(target)) box.querySelector("summary").focus();
    }
  });
  document.addEventListener("pointerdown", ({target}) => {
    for (const box of opened()) box.open = box.contains(target);
  });
}

function listenToControls() {
  listenToPops();
  const on = (id, event, action) => at(id).addEventListener(event, action);
  on("example", "change", async () => {
    const wanted = at("example").value;
    if (wanted === "-1") at("file").click();
    else if (await mayLeave()) perform(() => openExample(examples[wanted]));
    else showExample();
  });
  on("options", "change", () => perform(changedOption));
  for (const id of ["course", "rounds", "seed", "starved"]) on(id, "change", () => perform(changedOption));
  for (const id of ["tile", "core"]) on(id, "change", () => showRefusals(lastShown.machine));
  on("file", "change", async () => {
    const files = [...at("file").files];
    at("file").value = "";
    if (await mayLeave()) perform(() => openFiles(files));
  });
  for (const button of document.querySelectorAll("[data-act]"))
    button.addEventListener("click", () => {
      if (button.getAttribute("aria-disabled") !== "true") addActs([actOf(button)]);
      else show(at("cut"), `${escaped(actOf(button))}: ${escaped(button.title)}`);
    });
  on("run-many", "click", () => withCount(runMany));
  on("run-rounds", "click", () => withCount(runRounds));
  on("undo", "click", undoLast);
  on("stop", "click", stop);
  on("typed", "keydown", (event) => { if (event.key === "Enter") doTyped(); });
  on("script-box", "toggle", showScript);
  on("script", "change", () => perform(() => replaceScript(at("script").value)));
}

/** A field was changed: where the machine refuses what stands there, the field is as it was. */
function changedOption() {
  document.body.dataset.course = at("course").value;
  const before = {...stateNow(), ...lastOptions};
  return attempt(() => play(), before);
}

function actOf(button) {
  const word = button.dataset.act;
  return [word, ...[at("tile").value, at("core").value].slice(0, actWords[word])].join(" ");
}

function withCount(action) {
  const count = Number(at("count").value);
  if (Number.isInteger(count) && count >= 1 && count <= MOST_AT_ONCE) return action(count);
  return perform(() => { throw new Refusal(`N is 1 to ${grouped(MOST_AT_ONCE)}.`); });
}
