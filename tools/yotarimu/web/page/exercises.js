// ---- exercises and their judges; their texts are in exercises.json, which the tools in Python read too

const MOST_SHOWN = 40;

/** The answer isn't right; the text says why. */
class Wrong extends Error {}

function hold(isSo, text, values = {}) {
  if (!isSo) throw new Wrong(filled(text, values));
}

// ---- runs and reports

/** A report read: its entries, its output in hexadecimal, and its end. */
function reportRead(text) {
  const lines = reportIn(text).split("\n");
  const entries = lines.filter((line) => /^\d/.test(line)).map((line) => line.split(" "));
  return {entries, output: lines.find((line) => line.startsWith("output ")).slice("output ".length).replace("-", ""),
    end: lines.find((line) => line.startsWith("end ")).split(" ")[1], text: lines.join("\n")};
}

const lettersOf = (digits) => digits.replace(/../g, (pair) => String.fromCharCode(parseInt(pair, 16)));

async function runOf(image) {
  const {output} = await machines.call("sim", ["run"], image);
  return reportRead(new TextDecoder().decode(output));
}

/** What `steps` says to each act, and its report. */
async function playedOf(image, acts, words) {
  const {output} = await machines.call("sim", words, withBehind(image, scriptText(acts)));
  const text = new TextDecoder().decode(output);
  if (text.startsWith("fault")) throw new Refusal(`The program refused it: ${text.trim()}.`);
  const said = text.split("\n").slice(0, acts.length).map((line) => line.split(" "));
  return {said: said.map(([reply, count]) => ({reply, count: Number(count)})), report: reportRead(text)};
}

// ---- judges: each gives the sentence on a right answer, or throws Wrong

async function judgeJournal({image}, answer) {
  const texts = exercises.journal;
  const given = answer.split(/\r\n?|\n/)
                  .map((line, place) => [place + 1, line.split("#")[0].trim().split(/\s+/).filter(Boolean)])
                  .filter(([, fields]) => fields.length);
  const odd = given.find(([, fields]) => fields.length !== texts.fields.length);
  if (odd)
    throw new Refusal(`Line ${odd[0]}: ${filled(texts.misshapen, {text: odd[1].join(" ").slice(0, MOST_SHOWN)})}.`);
  const {entries, output} = await runOf(image);
  given.slice(0, entries.length).forEach(([line, fields], place) => {
    const wrong = texts.fields.filter((_, field) => fields[field] !== entries[place][field]);
    hold(!wrong.length, texts.field, {line, fields: wrong.join(texts.and), isnt: texts.isnt[wrong.length > 1 ? 1 : 0]});
  });
  hold(given.length >= entries.length, texts.fewer, {count: given.length});
  hold(given.length <= entries.length, texts.more, {count: entries.length});
  return filled(texts.right, {count: given.length, output: lettersOf(output)});
}

async function judgeAbort({image, words}, answer) {
  const acts = numbered(answer), texts = exercises.abort;
  const {said, report} = await playedOf(image, acts.map(([, act]) => act), words);
  const back = acts.map(([line, act], place) => ({line, act, ...said[place]})).filter(({count}) => count);
  hold(back.length, texts.none);
  const found = back.find(({act}) => ["step", "give", "advance"].includes(act.split(" ")[0]));
  hold(found, texts["by itself"], back[0]);
  hold(report.end === "normal", texts.left, found);
  return filled(texts.right, found);
}

async function judgeStall({image, words}, answer) {
  const acts = numbered(answer), texts = exercises.stall;
  const {said, report} = await playedOf(image, acts.map(([, act]) => act), words);
  const place = said.findIndex(({reply}) => reply === "stall");
  hold(place >= 0, texts.none);
  const [line] = acts[place];
  hold(report.end === "normal", texts.left, {line});
  return filled(texts.right, {line});
}

/** The acts of an answer with the numbers of their lines. */
function numbered(answer) {
  const acts = answer.split(/\r\n?|\n/).map((line, place) => [place + 1, actsIn(line)[0]]).filter(([, act]) => act);
  hold(acts.length, exercises.script.none);
  return acts;
}

async function judgeFalseConflict({image, words, script: text}, answer) {
  const made = imageOf(assembled({name: "", text: answer})), acts = numbered(text), texts = exercises.false_conflict;
  const before = await playedOf(image, acts.map(([, act]) => act), words);
  const {said, report} = await playedOf(made, acts.map(([, act]) => act), words);
  const seen = ({entries, output, end}) => JSON.stringify([entries, output, end]);
  hold(seen(report) === seen(before.report), texts.changed, {output: lettersOf(before.report.output)});
  const place = said.findIndex(({count}) => count);
  hold(place < 0, texts.taken, {line: acts[place]?.[0]});
  return texts.right;
}

async function judgeOrder({image}, answer) {
  const made = imageOf(assembled({name: "", text: answer})), texts = exercises.order,
        [header, own] = [headerOf(made), headerOf(image)];
  const textOf = (bytes, {dataAt}) => bytes.subarray(HEADER_BYTES, dataAt).join();
  hold(textOf(made, header) === textOf(image, own), texts.text);
  const letters = (it) => tasksOf(it).map((task) => task.args.join()).sort().join(" ");
  hold(letters(header) === letters(own), texts.letters);
  const output = lettersOf((await runOf(made)).output);
  hold(output === texts.word, texts.other, {output: output.replace(/[^A-Z]/g, "?")});
  hold(header.isOrdered, texts.unordered);
  const times = tasksOf(header).map((task) => task.ts);
  hold(new Set(times).size === times.length, texts.tie);
  return filled(texts.right, {output});
}

async function judgeDomains({image}, answer) {
  const made = imageOf(assembled({name: "", text: answer})), texts = exercises.domains;
  const begins = (it) => JSON.stringify([it.isOrdered, tasksOf(it).map((task) => [task.ts, [...task.args]])]);
  hold(begins(headerOf(made)) === begins(headerOf(image)), texts.initial);
  const run = await runOf(made), before = await runOf(image), output = lettersOf(run.output);
  hold(run.end === "normal", texts.end, {end: run.end});
  hold(output === texts.word, texts.other, {output: output.replace(/[^A-Z]/g, "?"), word: texts.word});
  const times = ({entries}) => entries.map(([, , , ts]) => Number(ts)).sort((one, other) => one - other).join();
  hold(times(run) === times(before), texts.times);
  const flat = run.entries.find(([, name, depth]) => depth === "1" && !name.startsWith("0."));
  hold(!flat, texts.flat, {name: flat?.[1]});
  return filled(texts.right, {word: texts.word});
}

const REASONS = {child: "child", touched: "touched", room: "room", abort: "script"};
const SHARED = ["byte", "line", "bit"];

/** Why a script aborts each task: an act, the task, a term, and the task that caused it. */
async function reasonsOf({image, words, script}) {
  const acts = numbered(script).map(([, act]) => act), run = new ToldRun();
  await run.take((await machines.call("watch", words, withBehind(image, scriptText(acts)))).output);
  const taking = run.course.acts.map((line, place) => ({line, place})).filter(({line}) => line.back);
  return taking.flatMap(({line, place}) => {
    const before = run.course.at(place), named = (id) => before.label(before.tasks.get(id));
    return new Cascade(line, before, run.head).all().map(({member, kind, by, meeting}) => (
      [`${line.at}`, before.label(member.task), kind === "access" ? SHARED[meeting?.sharing ?? 2] : REASONS[kind],
        by === null ? "-" : named(by)]));
  });
}

async function judgeWhy(own, answer) {
  const texts = exercises.why, wanted = await reasonsOf(own), seen = new Set();
  const given = answer.split(/\r\n?|\n/)
                  .map((line, place) => [place + 1, line.split("#")[0].trim().split(/\s+/).filter(Boolean)])
                  .filter(([, fields]) => fields.length);
  const odd = given.find(([, fields]) => fields.length !== 4);
  if (odd)
    throw new Refusal(`Line ${odd[0]}: ${filled(texts.misshapen, {text: odd[1].join(" ").slice(0, MOST_SHOWN)})}.`);
  for (const [line, [act, task, word, by]] of given) {
    const right = wanted.find((it) => it[0] === act && it[1] === task);
    hold(right, texts.stays, {line, act, task});
    hold(!seen.has(`${act} ${task}`), texts.twice, {line, task});
    seen.add(`${act} ${task}`);
    hold(word === right[2], texts.word, {line, task, word});
    hold(by === right[3], texts.by, {line, task});
  }
  hold(given.length >= wanted.length, texts.fewer, {count: given.length});
  return filled(texts.right, {count: given.length});
}

const JUDGES = {journal: judgeJournal, abort: judgeAbort, stall: judgeStall, false_conflict: judgeFalseConflict,
  order: judgeOrder, domains: judgeDomains, why: judgeWhy};

// ---- the page's part

const WHERE = {script: "Your answer is the acts that you make.", source: "Your answer is the text of the editor.",
  text: "Write your answer under Answer."};
/** An exercise by its name: what it says, and the image, the script and the words that its judge takes. */
function exerciseOf(name) {
  if (name === OWN) return ownExerciseRead();
  const example = exerciseExample(name), words = example.words[0] === "steps" ? example.words : ["steps"];
  const {image, script} = example;
  return {...exercises.exercises[name], judgeIt: JUDGES[name], image: bytesOf(image), script, words};
}

const exerciseExample = (name) => examples.find((it) => it.name === `exercises/${name}`);

let openedExercise = null, openedAnswer = null;

/** The acts of an answer that is a script are kept as other answers are. */
function keepActs() {
  if (openedAnswer === "script" && courseNow().kind === "steps")
    keep("answers", answerKey(openedExercise), scriptText());
}

function buildExercises() {
  at("exercise").innerHTML = `<option value="">choose</option>${Object.entries(exercises.exercises)
    .map(([name, {title}]) => `<option value="${name}">${escaped(title)}</option>`).join("")}
    <option value="${OWN}">my own</option>`;
}

/** Opens an exercise before the first act. Acts that would give the answer of a text away aren't made. */
function openExercise(name) {
  if (name === OWN) return perform(openOwn);
  const {answer} = exercises.exercises[name], example = exerciseExample(name);
  const more = answer === "text" ? {course: {kind: "steps"}, acts: actsIn(example.script).slice(0, -1)}
    : answer === "script" ? {acts: actsIn(kept.answers[name] ?? "")} : {};
  return perform(async () => {
    await openExample(example, 0, more);
    showExercise(name);
  });
}

/** Shows the task of an exercise, or none. */
function showExercise(name) {
  openedExercise = name;
  openedAnswer = name === null ? null : exerciseOf(name).answer;
  at("exercise-box").hidden = at("tab-answer").hidden = name === null;
  at("exercise").value = name ?? "";
  showVerdict("", "");
  if (name === null && !at("answer-pane").hidden) chooseTab("source");
  if (name === null) return;
  const {text, answer, script: played} = exerciseOf(name);
  const last = answer === "text" ? actsIn(played).at(-1) : undefined;
  const rest = last ? ` The last act, \`${last}\`, isn't made here yet.` : "";
  show(at("exercise-text"), toldHtml(`${text} ${WHERE[answer]}${rest}`));
  at("tab-answer").hidden = answer !== "text";
  at("answer").value = kept.answers[answerKey(name)] ?? "";
  if (answer === "text") chooseTab("answer");
}

function showVerdict(kind, text) {
  at("verdict").className = kind;
  at("verdict").innerHTML = toldHtml(text);
  showAnswers();
}

/** Whether an exercise is open whose answer the conflicts of the run would give away. */
function isUnanswered() {
  return openedAnswer !== null && openedAnswer !== "script" && at("verdict").className !== "right";
}

/** Shows what would answer a question of the story or of an exercise only when that is answered. */
function showAnswers() {
  const isTold = !at("story").hidden;
  at("controls").hidden = at("told-box").hidden = at("curves").hidden = isTold;
  at("profile").hidden = isTold || isUnanswered();
  drawGutter();
}

function judge() {
  const own = exerciseOf(openedExercise), {answer} = own;
  if (answer === "source" && checkSource()) return goToWrong();
  return perform(async () => {
    showVerdict("", "");
    const given = {script: () => scriptText(actsSoFar()), text: () => at("answer").value,
      source: openedExercise === OWN ? sourcesNow : sourceText}[answer]();
    try {
      showVerdict("right", filled(exercises.verdicts.right, {why: await own.judgeIt(own, given)}));
    } catch (error) {
      if (!(error instanceof Wrong)) throw error;
      showVerdict("wrong", filled(exercises.verdicts.wrong, {why: error.message}));
    }
  });
}

function listenToExercises() {
  at("exercise").addEventListener("change", async () => {
    const name = at("exercise").value;
    if (name === OWN && !ownExercise) at("file").click();
    else if (name && await mayLeave()) openExercise(name);
    at("exercise").value = openedExercise ?? "";
  });
  at("exercise-close").addEventListener("click", () => showExercise(null));
  at("answer").addEventListener("input", () => keep("answers", answerKey(openedExercise), at("answer").value));
  at("judge").addEventListener("click", judge);
}
