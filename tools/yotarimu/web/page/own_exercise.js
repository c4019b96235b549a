// ---- an exercise of a lecturer's own, from files or a link, as `courses/own_exercises.py` judges it

const OWN = "own", KINDS_OF_ANSWER = ["script", "source", "journal", "why"], ENDS = ["normal", "trap", "limit", "open"];
// How many values each condition has, and which conditions need a script.
const CONDITIONS = {acts: 1, reply: 2, taken: 1, commits: 1, depth: 1, end: 1, output: 0};
const OF_SCRIPTS = ["acts", "reply", "taken"];
const RANGE = /^(?=.*\d)(\d{1,7})?(\.\.)?(\d{1,7})?$/;

// What was opened: the name, the texts of `wanted`, `words` and `script`, and sources or an image in base64.
let ownExercise = null;

/** What a file `wanted` says: the kind of the answer, the conditions, and the text of the comments at its head. */
function wantedRead(text) {
  const lines = text.split(/\r\n?|\n/), begin = lines.findIndex((line) => line.trim() && !/^\s*#/.test(line));
  const told = lines.slice(0, Math.max(0, begin)).map((line) => line.replace(/^\s*#\s?/, "")).join(" ").trim();
  const rows = lines.map((line, place) => ({line: place + 1, text: line.split("#")[0].trim()})).filter((it) => it.text);
  const answers = rows.filter((it) => it.text.startsWith("answer"));
  const [, answer] = answers.length === 1 ? answers[0].text.split(/\s+/) : [];
  if (!KINDS_OF_ANSWER.includes(answer))
    throw new Refusal(`wanted: \`answer\` must be there once, with one of ${KINDS_OF_ANSWER.join(", ")}.`);
  const conditions = rows.filter((it) => it !== answers[0]).map((it) => ({...it, words: it.text.split(/\s+/)}));
  conditions.forEach(needCondition);
  if (!conditions.length && (answer === "script" || answer === "source"))
    throw new Refusal(`wanted: no condition says what has to hold of a ${answer}, so each one would be right.`);
  return {answer, conditions, told};
}

function needCondition({line, text, words: [word, ...values]}) {
  if (!Object.hasOwn(CONDITIONS, word))
    throw new Refusal(`wanted:${line}: unknown condition \`${word}\`; use ${Object.keys(CONDITIONS).join(", ")}.`);
  const isRight = word === "output" || values.length === CONDITIONS[word]
    && (word === "end" ? ENDS.includes(values[0]) : RANGE.test(values.at(-1)));
  if (!isRight) throw new Refusal(`wanted:${line}: \`${text}\` isn't a whole condition.`);
}

/** Whether a number is in a range such as 3, 1.., ..5 or 1..5. */
function isIn(number, text) {
  const [least, most] = text.split("..");
  if (most === undefined) return number === Number(least);
  return number >= Number(least || 0) && (!most || number <= Number(most));
}

/** What a condition is about, as the answer has it. */
function factOf({report, said}, [word, reply]) {
  const replies = said ?? [];
  switch (word) {
    case "acts": return replies.length;
    case "reply": return replies.filter((it) => it.reply === reply).length;
    case "taken": return replies.reduce((sum, {count}) => sum + count, 0);
    case "commits": return report.entries.length;
    case "depth": return Math.max(0, ...report.entries.map(([, , depth]) => Number(depth)));
    case "end": return report.end;
    default: return printable(report.output);
  }
}

async function judgeConditions(own, {answer, conditions}, given) {
  const image = answer === "source" ? imageOf(assembled(...given)) : own.image;
  const script = answer === "script" ? given : own.script;
  const acts = script || answer === "script" ? numbered(script).map(([, act]) => act) : null;
  const facts = acts ? await playedOf(image, acts, own.words) : {report: await runOf(image), said: null};
  for (const {line, text, words} of conditions) {
    if (!facts.said && OF_SCRIPTS.includes(words[0]))
      throw new Refusal(`wanted:${line}: \`${words[0]}\` needs a file script beside it.`);
    const seen = factOf(facts, words), isOutput = words[0] === "output";
    const value = isOutput ? text.slice("output".length).trim() : words.at(-1);
    const isMet = isOutput || words[0] === "end" ? seen === value : isIn(seen, value);
    hold(isMet, exercises.own.missed, {line, text, seen});
  }
  return filled(exercises.own.right, {count: conditions.length});
}

/** What answers to an exercise are kept under: each exercise of a lecturer's own has a place of its own. */
function answerKey(name) {
  if (name !== OWN) return name;
  const {wanted, words, script, sources, image} = ownExercise;
  return `${OWN} ${digestOf(wanted, words, script, image ?? "", ...sources.map(({text}) => text))}`;
}

/** The exercise as the page shows and judges it. */
function ownExerciseRead() {
  const {name, wanted, words, script, sources, image} = ownExercise, read = wantedRead(wanted);
  const made = image ? bytesOf(image) : imageOf(assembled(...sources));
  const holds = read.conditions.map(({text}) => `\`${text}\``).join(", ");
  const text = `${read.told || name + "."}${holds ? ` It has to hold: ${holds}.` : ""}`;
  const judgeIt = {journal: judgeJournal, why: judgeWhy}[read.answer]
    ?? ((own, given) => judgeConditions(own, read, given));
  return {name, title: name, text, answer: {journal: "text", why: "text"}[read.answer] ?? read.answer, judgeIt, sources,
    image: made, script, words: ["steps", ...words.split(/\s+/).filter((word) => word && word !== "steps")]};
}

/** Opens the exercise of files: `wanted`, and an image or sources, perhaps `words` and `script`. */
async function openOwnFiles(files) {
  const text = (name) => new TextDecoder().decode(files.find((it) => it.name === name)?.bytes ?? new Uint8Array(0));
  const sources = files.filter(({name}) => /\.s$/i.test(name)).map(({name}) => ({name, text: text(name)}));
  const image = files.find((it) => kindOf(it) === "image");
  if (!sources.length && !image) throw new Refusal("An exercise needs an image.bin or a source beside `wanted`.");
  const before = ownExercise, first = image ?? files.find(({name}) => /\.s$/i.test(name));
  const packed = image && !sources.length ? btoa(Array.from(image.bytes,
      (byte) => String.fromCharCode(byte)).join("")) : null;
  ownExercise = {name: `exercise of ${first.name}`, wanted: text("wanted"), words: text("words"),
    script: text("script"), sources, image: packed};
  try {
    await openOwn();
  } catch (error) {
    ownExercise = before;
    throw error;
  }
}

/** Opens it before the first act. Acts that would give the answer of a text away aren't made. */
async function openOwn() {
  const own = ownExerciseRead(), {options} = wordsRead(own.words), all = actsIn(own.script);
  const given = actsIn(kept.answers[answerKey(OWN)] ?? "");
  const acts = own.answer === "text" ? all.slice(0, -1) : own.answer === "script" ? given : all;
  const more = {options, acts, course: {kind: "steps"}, key: answerKey(OWN), exercise: OWN};
  if (own.sources.length) return openSources(own.sources, more, 0);
  await open({name: own.name, image: own.image, ...more}, 0);
  return showExercise(OWN);
}
