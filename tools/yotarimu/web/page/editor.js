// ---- the one editor: sources with their errors beside them, and the tasks at their lines

const LINE_HIGH = 18, CHECK_AFTER = 250;
// What the editor has: what its texts are kept under, its files, the one that is shown, and the line that is wrong. A
// file has the text as it came, the text that runs, and the text as it is now.
const NO_FILE = {name: "task.s", original: "", running: "", text: ""};
const editor = {key: "", files: [NO_FILE], place: 0, wrong: 0, wrongFile: 0, top: 0, high: 0, marks: new Map(),
  heat: new Map(), own: "", waiting: 0, isOfC: false};

const sourceText = () => at("source-text").value;
const fileNow = () => editor.files[editor.place];

/** The sources as they are in the editor. */
function sourcesNow() {
  fileNow().text = sourceText();
  return editor.files.map(({name, text}) => ({name, text}));
}

const isRunning = () => editor.files.every(({text, running}) => text === running);

/** What a file's text is kept under: one file under the name of its program, each of several with its own name too. */
const keptUnder = ({name}) => (editor.files.length > 1 ? `${editor.key} ${name}` : editor.key);

/** Opens sources: as they were left when they were last changed here, or as they came. */
function openTexts(key, originals, running = originals) {
  const files = running.length ? running : [NO_FILE];
  Object.assign(editor, {key, place: 0, files: files.map(({name, text}) => (
    {name, original: originals.find((it) => it.name === name)?.text ?? "", running: text, text}))});
  if (!editor.isOfC) for (const file of editor.files) file.text = kept.sources[keptUnder(file)] ?? file.text;
  at("files").hidden = editor.files.length < 2;
  at("files").innerHTML = editor.files.map(({name}, place) => (
    `<option value="${place}">${escaped(name)}</option>`)).join("");
  at("source-text").readOnly = editor.isOfC;
  at("assemble").hidden = editor.isOfC;
  showFile(0);
  checkSource();
  chooseTab(editor.files.some(({text, original}) => text || original) ? "source" : "listing");
}

function showFile(place) {
  editor.place = place;
  at("files").value = String(place);
  at("source-text").value = fileNow().text;
  at("source-text").scrollTop = editor.top = 0;
}

/** Keeps what was changed, and forgets what is as it came. */
function keepSources() {
  for (const file of editor.files)
    keep("sources", keptUnder(file), file.text === file.original ? undefined : file.text);
}

const TABS = ["source", "listing", "answer", "help"];

/** Arrow keys go from tab to tab. */
function listenToTabs() {
  document.querySelector(".tabs").addEventListener("keydown", (event) => {
    const way = {ArrowRight: 1, ArrowLeft: -1}[event.key];
    if (!way || event.target.getAttribute("role") !== "tab") return;
    const tabs = TABS.filter((it) => !at(`tab-${it}`).hidden), place = tabs.indexOf(event.target.id.slice(4));
    const name = tabs[(place + way + tabs.length) % tabs.length];
    event.stopPropagation();
    chooseTab(name);
    at(`tab-${name}`).focus();
  });
}

function chooseTab(name) {
  for (const it of TABS) {
    at(`tab-${it}`).setAttribute("aria-selected", it === name);
    at(`tab-${it}`).tabIndex = it === name ? 0 : -1;
    at(`${it}-pane`).hidden = it !== name;
  }
  if (name === "source") {
    measureField();
    if (lastShown) showMarks(lastShown.machine, current, course.acts[current - 1]);
  }
  if (name === "listing" && lastShown) showListing(lastShown.machine, current, course.acts[current - 1]);
}

/** Says whether the sources are right, and where they aren't. Gives back the refusal, or null. */
function checkSource() {
  const sources = sourcesNow(), refusal = editor.isOfC ? null : refusalOf(sources), isEmpty = sources.every(isBlank);
  const told = editor.isOfC
    ? "This example is in C, which the tools compile. Listing has its instructions, each with its line."
    : isEmpty ? "Write assembly of RV32I here, or choose an example. Help has the six calls."
      : refusal?.message ?? sourceTold(sources);
  const [, name, line] = /^(?:Line |([^:]*):)(\d+):/.exec(refusal?.message ?? "") ?? [];
  editor.wrong = Number(line ?? 0);
  editor.wrongFile = Math.max(0, sources.findIndex((it) => it.name === name));
  show(at("assembled"), toldHtml(told));
  at("assembled").className = refusal ? "wrong" : "";
  at("revert").hidden = editor.isOfC || editor.files.every(({text, original}) => text === original || !original);
  at("source-text").setAttribute("aria-invalid", Boolean(refusal));
  drawGutter();
  return refusal;
}

const isBlank = ({text}) => !text.trim();

/** Why sources can't be assembled; null if they can. Lines of a single source are reported without its name. */
function refusalOf(sources) {
  if (sources.every(isBlank)) return null;
  try {
    imageOf(assembled(...unnamed(sources)));
    return null;
  } catch (error) {
    if (!(error instanceof Refusal)) throw error;
    return error;
  }
}

const unnamed = (sources) => (sources.length > 1 ? sources : sources.map(({text}) => ({name: "", text})));

function sourceTold(sources) {
  if (!isRunning()) return "No error. Another text runs; Run plays this one.";
  const {length} = imageOf(assembled(...unnamed(sources)));
  return `${sources.length > 1 ? "These texts run" : "This text runs"}. The image has ${plural(length, "byte")}.`;
}

/** Where the field stands: asking a browser for it makes it lay out all that was changed, so it is kept. */
function measureField() {
  const field = at("source-text");
  Object.assign(editor, {top: field.scrollTop, high: field.clientHeight});
}

/** Line numbers with the tasks beside them, of the lines that are seen. */
function drawGutter() {
  const {top, high} = editor, count = sourceText().split("\n").length;
  const first = Math.max(0, Math.floor(top / LINE_HIGH) - 1), many = Math.ceil(high / LINE_HIGH) + 3;
  const isLive = sourceText() === fileNow().running && isRunning(), rows = [], {name} = fileNow();
  // During a question the lines that abort tasks would be its answer.
  const isHot = isLive && !isSecret() && !isUnanswered(), wrong = editor.wrongFile === editor.place ? editor.wrong : 0;
  for (let line = first + 1; line <= Math.min(count, first + many); line++) {
    const mark = isLive ? editor.marks.get(`${name}:${line}`) ?? "" : "";
    const heat = isHot ? editor.heat.get(`${name}:${line}`) : 0;
    const told = mark ? `<b>${escaped(mark)}</b>`
      : heat ? `<em title="Part of ${plural(heat, "abort")}">✕ ${heat}</em>` : "<b></b>";
    rows.push(`<div class="${line === wrong ? "wrong" : heat ? "hot" : ""}">${told}<span>${line}</span></div>`);
  }
  show(at("gutter"), `<section style="margin-top:${first * LINE_HIGH - top}px">${rows.join("")}</section>`);
  const shade = (line, kind) => (line ? `<i class="${kind}" style="top:${(line - 1) * LINE_HIGH - top}px"></i>` : "");
  const own = isLive && editor.own.startsWith(`${name}:`) ? Number(editor.own.slice(name.length + 1)) : 0;
  show(at("shades"), shade(own, "hit") + shade(wrong, "wrong"));
}

/** Shows where tasks are in the sources after an act. */
function showMarks(machine, _, line) {
  editor.marks = new Map();
  editor.own = "";
  const mark = (pc, text, isOwn) => {
    const place = labels.source(pc)?.place;
    if (!place) return;
    editor.marks.set(place, `${editor.marks.get(place) ?? ""}${text} `);
    if (isOwn) editor.own = place;
  };
  for (const id of machine.cores.flat()) {
    const task = machine.tasks.get(id);
    if (task) mark(task.pc, machine.label(task), id === machine.act.own);
  }
  if (line && "pc" in line && !editor.own) mark(line.pc, "", true);
  if (at("source-pane").hidden) return;
  if (editor.own && isRunning() && document.activeElement !== at("source-text")) showPlaceOf(editor.own);
  drawGutter();
}

/** Brings a line of a source into sight, such as task.s:14. */
function showPlaceOf(place) {
  const [, name, line] = /^(.*):(\d+)$/.exec(place), file = editor.files.findIndex((it) => it.name === name);
  if (file < 0) return;
  if (file !== editor.place) showFile(file);
  reveal(Number(line));
}

function reveal(line) {
  const top = (line - 1) * LINE_HIGH;
  if (top < editor.top + LINE_HIGH || top > editor.top + editor.high - 2 * LINE_HIGH) {
    at("source-text").scrollTop = top - editor.high / 2;
    editor.top = Math.max(0, top - editor.high / 2);
  }
}

/** Puts the caret where the text is wrong. */
function goToWrong() {
  if (editor.wrongFile !== editor.place) showFile(editor.wrongFile);
  const field = at("source-text"), start = behindLines(sourceText(), editor.wrong - 1);
  // Focus alone would bring the place of the last change into sight.
  field.focus({preventScroll: true});
  field.setSelectionRange(start, start);
  field.scrollIntoView({block: "nearest"});
  measureField();
  reveal(editor.wrong);
  drawGutter();
}

/** Runs what is in the editor: with the script of its example or exercise if that has one, else in lockstep. */
async function runSource() {
  chooseTab("source");
  if (checkSource()) return goToWrong();
  if (sourcesNow().every(isBlank) || !await mayLeave()) return undefined;
  keepSources();
  const {words = [], script: acts = ""} = openedExercise === OWN ? ownExerciseRead()
    : examples.find((it) => it.name === subject.from) ?? {};
  const more = {key: editor.key, from: subject.from, exercise: openedExercise, options: optionsNow(),
    originals: editor.files.map(({name, original}) => ({name, text: original}))};
  if (words[0] === "steps" && acts) Object.assign(more, {course: {kind: "steps"}, acts: actsIn(acts)});
  else more.course = courseNow().kind === "lockstep" ? courseNow() : IN_LOCKSTEP;
  return perform(() => openSources(sourcesNow(), more));
}

/** A number for texts: what differs has another one, as a rule. */
function digestOf(...texts) {
  let digest = 5381;
  for (const sign of texts.join("\0")) digest = (digest * 33 + sign.codePointAt(0)) % 4294967291;
  return digest.toString(36);
}

/**
 * Assembles sources, and opens what they make. Texts of a file or a link are kept under a name of their own, so that
 * they replace none that is kept under the name of an example or of another file.
 */
async function openSources(sources, more = {course: IN_LOCKSTEP}, place = Infinity) {
  const assembly = assembled(...sources), image = imageOf(assembly), [{name}] = sources, {from} = more;
  const key = more.key ?? `${from ?? name} ${digestOf(...sources.map(({text}) => text))}`;
  const originals = more.originals ?? examples.find((it) => it.name === from)?.sources ?? sources;
  await open({name, image, listing: listingOf(assembly), sources, ...more}, place);
  openTexts(key, originals, sources);
  if (more.exercise) showExercise(more.exercise);
}

function listenToEditor() {
  const field = at("source-text");
  field.addEventListener("input", () => {
    fileNow().text = sourceText();
    keepSources();
    drawGutter();
    clearTimeout(editor.waiting);
    editor.waiting = setTimeout(checkSource, CHECK_AFTER);
  });
  at("files").addEventListener("change", () => {
    showFile(Number(at("files").value));
    checkSource();
  });
  const measured = () => {
    measureField();
    drawGutter();
  };
  field.addEventListener("scroll", measured, {passive: true});
  field.addEventListener("keydown", (event) => {
    if (event.key === "Enter" && (event.ctrlKey || event.metaKey)) {
      event.preventDefault();
      runSource();
    }
  });
  new ResizeObserver(measured).observe(field);
  at("assemble").addEventListener("click", runSource);
  at("assembled").addEventListener("click", () => { if (editor.wrong) goToWrong(); });
  at("revert").addEventListener("click", async () => {
    if (!await asked("Replace your text by the one that came with this program?", "Replace")) return;
    for (const file of editor.files) file.text = file.original;
    showFile(editor.place);
    keepSources();
    checkSource();
  });
  for (const name of TABS) at(`tab-${name}`).addEventListener("click", () => chooseTab(name));
  listenToTabs();
  PARTS["source-text"] = showMarks;
}
