// ---- what is shown

const MOST_ENTRIES = 12;
const MOST_LINES = 12;
// So many acts are looked back at for them.
const MOST_LOOKED_AT = 5000;
const MOST_IN_BLOCK = 6, MOST_IN_QUEUE = 12;
const MOST_EMITTED = 120;
const PAGE_OF_ACTS = 20;
const MOST_POINTS = 1000;
const STATES = {idle: "i", running: "r", trapped: "t", finished: "f", spilled: ""};

const at = (id) => document.getElementById(id);
// What is shown: a course, and `saying(place, before, behind)`, the text on an act by the machine before and behind it.
let course = null, saying = () => "", labels = new Labels([]);

/** Sets a part of the page where it isn't as it stands: what doesn't change isn't laid out again. */
const shown = new Map();
function show(element, html) {
  if (shown.get(element) === html) return;
  shown.set(element, html);
  element.innerHTML = html;
}

/** What stands beside a task in each lane, as it is read out and as it is shown; the texts of tasks without marks. */
const LANES = {
  queue: {title: "task queue", told: timeTold, shown: timeShown, plain: new WeakMap()},
  cores: {title: "cores", told: (task) => plural(task.work, "instruction"), shown: (task) => `${task.work}`,
    plain: new WeakMap()},
  finished: {title: "commit queue", told: () => "", shown: () => "", plain: new WeakMap()},
  block: {title: "block", told: timeTold, shown: timeShown, plain: new WeakMap()},
};

/** A task's timestamp and its depth, which isn't shown where it is 1. */
function timeTold(task) { return `timestamp ${task.ts}, depth ${depthOf(task)}`; }
function timeShown(task) { return `@${task.ts}${depthOf(task) > 1 ? ` d${depthOf(task)}` : ""}`; }

/** A task in a lane. What colours and lines show is told in words too, for whoever doesn't see them. */
function taskHtml(machine, name, task) {
  const {told, shown: beside, plain} = LANES[name];
  const marks = marksOf(machine.act, task), kept = marks.length ? undefined : plain.get(task);
  // The label of a task that has no name changes with the names of others.
  if (kept && task.name !== null) return kept.html;
  const label = machine.label(task);
  if (kept?.label === label) return kept.html;
  const classes = [task.state, ...marks.map((mark) => mark.name)].join(" ");
  const signs = [beside(task), STATES[task.state], ...marks.map((mark) => mark.sign)].filter((sign) => sign !== "");
  const words = [told(task), task.state, ...marks.map((mark) => mark.words)].filter((word) => word !== "");
  const id = task.id === null ? "" : ` data-id="${task.id}"`;
  const html = itemHtml(label, classes, signs, words, `${id} title="${detail(task)}"`);
  if (!marks.length) plain.set(task, {label, html});
  return html;
}

/** What an act may do to a task, with the class, the sign and the words for it. */
const MARKS = [
  {isOn: (act, task) => task.id !== null && act.own === task.id, name: "own", sign: "*", words: "the act's task"},
  {isOn: (act, task) => task.id !== null && act.arrived === task.id, name: "new", sign: "new",
    words: "created by this act"},
  {isOn: (act, task) => act.back.has(task.id), name: "back", sign: "aborted", words: "aborted by this act"},
  {isOn: (act, task) => act.spilled.has(task), name: "moved", sign: "spilled", words: "spilled by this act"},
];

const marksOf = (act, task) => MARKS.filter((mark) => mark.isOn(act, task));

/** An item of a lane: what is read out says the same as what is seen. */
function itemHtml(label, classes, signs, words, more) {
  return `<li class="task ${classes}" data-label="${label}"${more}><span role="img" `
    + `aria-label="${[label, ...words].join(", ")}">${label} <small>${signs.join(" ")}</small></span></li>`;
}

function detail(task) {
  const number = task.number === null ? "" : `, dispatched with the number ${task.number}`;
  const words = escaped(labels.taskWords(task.entry, task.args));
  return `${words}, ${timeTold(task)}, entry ${hex(task.entry)}${number}`;
}

/** The items of each lane of a tile, by keys. */
const LANE_ITEMS = {
  queue: (machine, tile) => [...queueItems(machine, machine.queues[tile]), ...discardedOf(machine, tile)],
  cores: (machine, tile) => machine.cores[tile].map((id, core) => (
    [core, id === null ? '<li class="free">free</li>' : taskHtml(machine, "cores", machine.tasks.get(id))])),
  finished: (machine, tile) => tasksAs("finished", machine, machine.finished[tile]),
  block: (machine, tile) => blockItems(machine, machine.blocks[tile]),
};

function tasksAs(name, machine, ids) {
  return ids.map((id) => [id, taskHtml(machine, name, machine.tasks.get(id))]);
}

/** The tasks of a queue: of a long one those that do something or are marked, and the first that wait. */
function queueItems(machine, ids) {
  if (ids.length <= MOST_IN_QUEUE) return tasksAs("queue", machine, ids);
  let room = MOST_IN_QUEUE;
  const isSeen = (id) => {
    const task = machine.tasks.get(id);
    return task.state !== "idle" || marksOf(machine.act, task).length > 0;
  };
  room -= ids.filter(isSeen).length;
  const chosen = ids.filter((id) => isSeen(id) || room-- > 0), rest = ids.length - chosen.length;
  return [...tasksAs("queue", machine, chosen), ...(rest ? [["more", `<li class="free">${rest} more idle</li>`]] : [])];
}

function discardedOf(machine, tile) {
  return machine.act.discarded.filter((task) => task.tile === tile).map((task) => {
    const id = ` data-discarded="${task.id}"`;
    return [`discarded ${task.id}`,
      itemHtml(task.label, "discarded", ["discarded"], ["discarded by this act"], id)];
  });
}

function blockItems(machine, block) {
  const latest = block.slice(-MOST_IN_BLOCK), rest = block.length - latest.length;
  return [...(rest ? [["more", `<li class="free">${rest} more</li>`]] : []),
    ...latest.map((task) => [task.name.join("."), taskHtml(machine, "block", task)])];
}

// The row of each tile, and the items of its lanes.
const rows = [];
let lanes = [];

/** A row for each tile. */
function buildTiles(tiles) {
  const cells = Object.entries(LANES).map(([name, {title}]) => (
    `<td data-title="${title}"><ul role="list" data-lane="${name}"></ul></td>`)).join("");
  const body = at("tiles").tBodies[0];
  body.innerHTML = Array.from({length: tiles}, (_, tile) => (
    `<tr data-tile="${tile}"><th scope="row">${tile}</th>${cells}</tr>`)).join("");
  rows.splice(0, rows.length, ...body.rows);
  lanes = rows.map((row) => Object.fromEntries(
    [...row.querySelectorAll("ul")].map((list) => [list.dataset.lane, new Items(list)])));
}

function showTiles(machine, line) {
  lanes.forEach((ofTile, tile) => {
    rows[tile].className = line && line.tile === tile ? "here" : "";
    for (const [name, items] of Object.entries(ofTile)) items.show(LANE_ITEMS[name](machine, tile));
    ofTile.block.parent.dataset.count = machine.blocks[tile].length;
  });
}

// The rows of both tables.
let journalRows, memoryRows;

function showJournal(machine, place) {
  // Where the page begins behind the first act, it has the last entries before it.
  const missing = course.opening.commits - course.before;
  const end = machine.commits - missing;
  const first = Math.max(0, end - MOST_ENTRIES);
  const body = course.entries.slice(first, end).map(([name, depth, ts], index) => {
    const turn = missing + first + index + 1;
    const isNew = turn === machine.act.committed;
    return [turn, `<tr class="${isNew ? "hit" : ""}"><td>${turn}</td><td>${name}</td><td>${depth}</td><td>${ts}</td>`
      + `<td>${isNew ? "committed" : ""}</td></tr>`];
  });
  journalRows.show(body);
  const digits = course.outputAt(place);
  const count = digits.length / 2 + course.opening.emitted;
  at("output").textContent = `${plural(machine.commits, "task")} committed`
    + (count ? `, ${plural(count, "byte")} of output: ${printable(digits.slice(-2 * MOST_EMITTED))}` : "");
}

const isAccess = (line) => line.reply === "ok" && (line.asks === "load" || line.asks === "store");

/** The lines that were touched last, from an act back. */
function latestLines(place) {
  const found = new Set();
  for (let act = place; act > 0 && act > place - MOST_LOOKED_AT && found.size < MOST_LINES; act--) {
    const line = course.acts[act - 1];
    if (isAccess(line)) found.add(course.memory.lineOf(line.addr));
  }
  for (const [address] of course.opening.memory) {
    if (found.size < MOST_LINES) found.add(course.memory.lineOf(address));
  }
  return [...found].sort((one, two) => one - two);
}

/** A word by its label, else by its address, which is read out with both. */
function wordTold(address) {
  const label = labels.label(address);
  return label ? `${escaped(label)} <span class="heard">${hex(address)}</span>` : hex(address);
}

function memoryRow(address, place, line) {
  const word = course.memory.at(address, place);
  if (!word) return [];
  const own = course.memory.lineOf(address);
  const isHit = line && isAccess(line) && course.memory.lineOf(line.addr) === own;
  const isIt = isHit && address === line.addr - (line.addr % 4);
  const said = isIt ? `${line.asks}s` : word.isNew ? "rolled back" : isHit ? "same line" : "";
  const digits = [...word.bytes].reverse().map((byte) => (
    byte === null ? ".." : byte.toString(16).padStart(2, "0"))).join("");
  const value = word.bytes.includes(null) ? "" : parseInt(digits, 16) | 0;
  const html = `<tr class="${isHit ? "hit" : ""}" data-address="${address}"><td>${own}</td>`
    + `<td class="digits" title="${hex(address)}">${wordTold(address)}</td><td class="digits">${digits}</td>`
    + `<td>${value}</td><td>${said}</td></tr>`;
  return [[address, html]];
}

// How high a row is, as the style has it, and which was brought into sight.
const MEMORY_ROW_HIGH = 20.75;
let hitRow = 0;

function showMemory(_, place, line) {
  const body = latestLines(place).flatMap((chosen) => course.memory.lines.get(chosen) ?? [])
    .flatMap((address) => memoryRow(address, place, line));
  memoryRows.show(body);
  const hit = Math.max(0, body.findIndex(([, html]) => html.startsWith('<tr class="hit"')));
  if (hit !== hitRow) at("memory").parentNode.scrollTop = (hit > 2 ? hit - 1 : 0) * MEMORY_ROW_HIGH;
  hitRow = hit;
  at("untouched").hidden = body.length > 0;
  at("touched").textContent = body.length ? `The words of at most ${MOST_LINES} lines, those accessed last; `
    + "a byte that no task has accessed is shown as two dots" : "No data was accessed.";
}

// ---- the listing

const places = new Map();
// What stands beside rows, and the row of the act's task.
let marked = new Map(), ownRow = null;
function buildListing(listing) {
  places.clear();
  marked.clear();
  ownRow = null;
  at("listing").innerHTML = listing.map(([address, text]) => (
    `<div${address === null ? "" : ` data-address="${address}"`}><span></span>${escaped(text) || " "}</div>`)).join("");
  for (const row of at("listing").children) {
    if (row.dataset.address) places.set(Number(row.dataset.address), row);
  }
}

function showListing(machine, _, line) {
  if (at("listing-pane").hidden) return;
  const {texts, own} = marksIn(machine, line);
  for (const row of marked.keys()) if (!texts.has(row)) row.firstChild.textContent = "";
  for (const [row, text] of texts) if (marked.get(row) !== text) row.firstChild.textContent = text;
  marked = texts;
  if (own !== ownRow) {
    ownRow?.removeAttribute("class");
    ownRow?.removeAttribute("aria-current");
    own?.setAttribute("class", "hit");
    own?.setAttribute("aria-current", "true");
    ownRow = own;
  }
  // Where a row is makes a browser lay out all that was changed: so it is asked last.
  if (own) at("listing").scrollTop = own.offsetTop - at("listing").clientHeight / 2;
}

/** What is to stand beside rows, the tasks that stopped there; and the row of the act's task. */
function marksIn(machine, line) {
  const texts = new Map(), held = machine.cores.flat();
  let own = null;
  const mark = (address, label, isOwn) => {
    const row = places.get(address);
    if (!row) return;
    texts.set(row, `${texts.get(row) ?? ""}${isOwn ? "*" : ""}${label} `);
    if (isOwn) own = row;
  };
  for (const id of held) {
    const task = machine.tasks.get(id);
    if (task) mark(task.pc, machine.label(task), id === machine.act.own);
  }
  if (line && "pc" in line && !held.includes(line.task)) {
    mark(line.pc, machine.tasks.has(line.task) ? machine.label(machine.tasks.get(line.task)) : "", true);
  }
  return {texts, own};
}

// ---- the curves

const TASK_CURVES = [["idle", "one"], ["running", "two"], ["finished", "three"], ["spilled", "four"]];
const WORK_CURVES = [["useful", "three"], ["wasted", "four"]];
const CURVE_NAMES = {running: "running or trapped", useful: "committed", wasted: "wasted"};

/** A curve in steps: a number holds up to the next act. */
function curvePath(values, most, className) {
  const stride = Math.max(1, Math.floor(values.length / MOST_POINTS));
  const steps = [];
  for (let place = 0; place < values.length; place += stride) {
    const across = (place / Math.max(1, values.length - 1)) * 1000;
    steps.push(`H${across.toFixed(1)}V${(98 - (values[place] / most) * 96).toFixed(1)}`);
  }
  return `<path class="${className}" d="M0,98${steps.join("")}"/>`;
}

function buildCurves() {
  buildCurve("tasks", TASK_CURVES, "Tasks in all tiles");
  buildCurve("work", WORK_CURVES, "Instructions executed");
}

function buildCurve(id, curves, what) {
  const most = curves.reduce((found, [name]) => course.curves[name].reduce((a, b) => Math.max(a, b), found), 1);
  at(id).innerHTML = curves.map(([name, style]) => curvePath(course.curves[name], most, style)).join("");
  const samples = curves.map(([name, style]) => (
    `<svg class="sample" aria-hidden="true" viewBox="0 0 44 10"><path class="${style}" d="M0,5L44,5"/></svg> `
    + (CURVE_NAMES[name] ?? name)));
  at(`${id}-caption`).innerHTML = `${what}, from 0 to ${grouped(most)}: ${samples.join(", ")}`;
}

function showCurves(_, place) {
  // The mark stands over the curves, which needn't be painted anew then.
  const across = place / Math.max(1, course.length);
  for (const mark of document.querySelectorAll(".mark"))
    mark.style.transform = `translateX(${(across * 100).toFixed(3)}%)`;
  const [idle, running, finished, spilled, useful, wasted] = CURVES.map((name) => course.curves[name][place]);
  at("counts").textContent = `After this act: ${plural(idle, "task")} idle, ${running} running or trapped, `
    + `${finished} finished, ${spilled} spilled; ${plural(useful, "instruction")} executed by tasks that committed, `
    + `${grouped(wasted)} wasted by aborted tasks.`;
}

// ---- going from act to act

let current = 0, lastShown = null;

/** The machine before an act and behind it. One act further than what was shown last is one act more to follow. */
function machinesAt(place) {
  const isNext = lastShown?.course === course && lastShown.place === place - 1;
  const before = place === 0 ? null : isNext ? lastShown.machine : course.at(place - 1);
  const machine = place === 0 ? course.at(0) : before.copy();
  if (place) machine.follow(course.acts[place - 1]);
  lastShown = {course, place, machine};
  return {before, machine};
}

function go(wanted) {
  current = Math.max(0, Math.min(course.length, wanted));
  const line = course.acts[current - 1];
  const {before, machine} = machinesAt(current);
  show(at("said"), toldHtml(saying(current, before, machine)));
  document.body.dataset.at = machine.at;
  document.body.dataset.n = machine.events;
  showTiles(machine, line);
  showPair();
  showPlace(machine.at);
  timeline.show(current);
  showParts((id) => !unseen.has(id));
}

// ---- parts that may be beyond the screen

// After so many milliseconds without another act what isn't on the screen is drawn too.
const MOST_WAITING = 100;
// What shows a part by the machine, its act and its line. The listing asks where a row is, so it comes last.
const PARTS = {journal: showJournal, memory: showMemory, tasks: showCurves, told: showTold, listing: showListing};
// The parts that aren't on the screen, and those that don't show the act that the others show.
const unseen = new Set(), late = new Set();
let waitingParts;

const onScreen = new IntersectionObserver((seen) => {
  for (const {target, isIntersecting} of seen) {
    const id = Object.keys(PARTS).find((it) => target.contains(at(it)));
    if (isIntersecting) unseen.delete(id); else unseen.add(id);
  }
  showLate((id) => !unseen.has(id));
});

/** Draws the parts that are wanted now, and the others later: who goes from act to act doesn't wait for what isn't
    seen. */
function showParts(isWanted) {
  for (const id of Object.keys(PARTS)) late.add(id);
  showLate(isWanted);
  clearTimeout(waitingParts);
  if (late.size) waitingParts = setTimeout(showLate, MOST_WAITING);
}

function showLate(isWanted = () => true) {
  // While an answer is read no act is shown.
  if (lastShown === null) return;
  for (const [id, draw] of Object.entries(PARTS)) {
    if (!late.has(id) || !isWanted(id)) continue;
    late.delete(id);
    draw(lastShown.machine, lastShown.place, course.acts[lastShown.place - 1]);
  }
}

// What else is to follow where another act is shown, by its number.
let onPlace = () => {};

function showPlace(number) {
  const last = (course.acts.at(-1) ?? course.opening).at;
  const told = `act ${grouped(number)} of ${grouped(last)}`;
  const slider = {valuemin: 0, valuemax: course.length, valuenow: current, valuetext: told};
  for (const [name, value] of Object.entries(slider)) at("lanes").setAttribute(`aria-${name}`, value);
  at("where").textContent = told;
  onPlace(number);
}

const tookBack = (line) => line.aborted > 0;
const committed = (line) => line.do === "commit" && line.reply === "ok";
function next(isWanted) {
  const found = course.acts.findIndex((line, place) => place >= current && isWanted(line));
  if (found >= 0) go(found + 1);
  else at("where").textContent = "no later one";
}

function previous(isWanted) {
  const found = course.acts.slice(0, Math.max(0, current - 1)).findLastIndex(isWanted);
  if (found >= 0) go(found + 1);
  else at("where").textContent = "no earlier one";
}

/** Goes to an act by its number, or else to the last one before it. */
function goToNumber(number) {
  const after = course.acts.findIndex((line) => line.at > number);
  go(after < 0 ? course.length : after);
}

const KEYS = {
  " ": () => player.toggle(),
  ArrowRight: () => go(current + 1), ArrowLeft: () => go(current - 1), PageDown: () => go(current + PAGE_OF_ACTS),
  PageUp: () => go(current - PAGE_OF_ACTS), Home: () => go(0), End: () => go(course.length),
  a: () => next(tookBack), c: () => next(committed), A: () => previous(tookBack), C: () => previous(committed),
};
const BUTTONS = {
  first: KEYS.Home, before: KEYS.ArrowLeft, after: KEYS.ArrowRight, last: KEYS.End, taking: KEYS.a, committing: KEYS.c,
};

function onKey(event) {
  const isScrolling = event.target.closest?.(".scrolls") && event.key.length > 1;
  const isTyping = event.target.closest?.("textarea, select, input")
    || (event.key === " " && event.target.closest?.("button, summary"));
  if (event.ctrlKey || event.altKey || event.metaKey || isScrolling || isTyping || !Object.hasOwn(KEYS, event.key))
    return;
  event.preventDefault();
  if (event.key !== " ") player.stop();
  KEYS[event.key]();
}

const NUMBERED = "; the numbers of acts count those too that nothing asked for, which are not shown";

function settingsTold(head) {
  const isLockstep = head.course === "lockstep";
  const rounds = isLockstep ? ` of ${plural(head.rounds, "round")}, seed ${head.seed}`
    + `, at most ${head.starved ?? head.barren} starved` : "";
  return `${head.course}${rounds}: ${plural(head.tiles, "tile")} of ${plural(head.cores, "core")}`
    + `, task queues of ${head.task_queue}, commit queues of ${head.commit_queue}, lines of ${head.line} bytes, `
    + `filters of the kind ${head.filter ?? "modulo"}, quantum ${head.quantum}, phase ${head.phase}`
    + (isLockstep ? NUMBERED : "");
}

/** Shows a course: what doesn't change from act to act. */
function build(listing) {
  shown.clear();
  labels = new Labels(listing);
  at("settings").textContent = settingsTold(course.head);
  buildTiles(course.head.tiles);
  [journalRows, memoryRows] = ["journal", "memory"].map((id) => new Items(at(id).tBodies[0]));
  buildListing(listing);
  buildCurves();
  timeline.open(course);
}

function listen() {
  listenToTimeline();
  for (const [id, action] of Object.entries(BUTTONS)) at(id).addEventListener("click", () => {
    player.stop();
    action();
  });
  document.addEventListener("keydown", onKey);
  listenToPair();
  for (const id of Object.keys(PARTS)) onScreen.observe(at(id).closest("section, details"));
}
