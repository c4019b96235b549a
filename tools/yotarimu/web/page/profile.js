// ---- conflicts by words: which tasks aborted which, how often, and by which lines of the source

const MOST_WORDS = 12, MOST_PAIRS = 4;

/** Every abort by a conflict, by the word, the pair of tasks and the pair of lines. */
function conflictsOf(shown, names) {
  const words = new Map();
  let others = 0, all = 0;
  for (const {line, victims, byWords, place} of shown.history.arrows) {
    for (const {meeting, byTask, entry, args, work, kind} of victims) {
      all++;
      if (!meeting?.own && !meeting?.other) {
        others++;
        continue;
      }
      const {own, other, sharing} = meeting, taker = byTask ?? byWords;
      const address = other.address - other.address % 4;
      const word = entered(words, address, () => ({address, count: 0, wasted: 0, pairs: new Map(), first: place,
          places: []}));
      const told = taker ? names.taskWords(taker.entry, taker.args) : line.do;
      const pair = entered(word.pairs, `${told} ${names.taskWords(entry, args)} ${other.pc} ${own?.pc} ${sharing}`,
        () => ({one: told, two: names.taskWords(entry, args), count: 0, other, own, sharing, kind}));
      word.count++;
      word.wasted += work;
      word.places.push(place);
      pair.count++;
    }
  }
  return {words: [...words.values()].sort((one, two) => two.count - one.count || two.wasted - one.wasted), others, all};
}

function entered(map, key, make) {
  if (!map.has(key)) map.set(key, make());
  return map.get(key);
}

const SHARINGS = ["", ' <small class="tag" title="They share a line and no byte">same line</small>',
  ' <small class="tag" title="They share a bit of the filter and no line">same bit</small>'];

/** What would help against the conflicts of a word, by what its accesses share. */
function adviceOn({pairs}) {
  const all = [...pairs.values()], line = course.head.line, counts = [0, 1, 2].map((sharing) => (
    all.filter((pair) => pair.sharing === sharing).reduce((sum, {count}) => sum + count, 0)));
  const told = [];
  if (counts[1]) {
    told.push(`<b>${counts[1]} false</b>: the tasks use different words of one line. Put <code>.balign ${line}</code> `
      + "before one of them, or choose lines of 4 bytes.");
  }
  if (counts[2])
    told.push(`<b>${counts[2]} false</b>: a bit of the filter stands for several lines. Choose the filter exact.`);
  if (counts[0]) told.push(`<b>${counts[0]} true</b>: ${trueAdvice(all.filter(({sharing}) => sharing === 0))}`);
  return told.join(" ");
}

/** Both tasks use the same bytes. */
function trueAdvice(pairs) {
  const isUpdate = pairs.every(({own, other}) => own && !own.isStore && other.isStore);
  return isUpdate ? "the later task loads before the earlier one stores. Load later in the task, give each task a word "
    + "of its own and add them up at the end, or let the earlier task create the later one."
    : "both tasks use this word. Give each task a word of its own, or let one of them create the other.";
}

function lineTold(access) {
  if (!access) return "a filter";
  const source = labels.source(access.pc), place = source?.place.replace(/^.*:/, "line ") ?? labels.labelled(access.pc);
  return `${place}${source?.text ? ` <code>${escaped(source.text.replace(/\s*#.*$/, ""))}</code>` : ""}`;
}

/** A row for each pair of tasks at a word, those with the most first. */
function wordRows(word, most) {
  const pairs = [...word.pairs.values()].sort((one, two) => two.count - one.count), first = pairs.slice(0, MOST_PAIRS);
  const more = pairs.length - first.length, span = first.length + (more ? 2 : 1);
  const title = "Go to the next act at which it happens";
  const head = `<td rowspan="${span}"><button data-word="${word.address}" title="${title}">${
    escaped(labels.labelled(word.address))}</button></td><td rowspan="${span}"><span class="much" style="width:${
    (48 * word.count / most).toFixed(0)}px"></span><b>${word.count}</b><br><small class="quiet">${
    plural(word.wasted, "instruction")} lost</small></td>`;
  const rows = first.map(({one, two, count, other, own, sharing}) => (
    `<td>${escaped(one)} <span class="quiet">aborted</span> ${
    escaped(two)}${count > 1 ? ` <b>×${count}</b>` : ""}</td><td>${lineTold(other)} <span class="quiet">met</span> ${
    lineTold(own)}${SHARINGS[sharing]}</td>`));
  if (more) rows.push(`<td colspan="2" class="quiet">${plural(more, "further pair")}</td>`);
  rows.push(`<td colspan="2" class="advice">${adviceOn(word)}</td>`);
  return rows.map((row, place) => (place ? `<tr>${row}</tr>` : `<tr class="word">${head}${row}</tr>`)).join("");
}

function showProfile() {
  const {words, others, all} = conflictsOf(course, subject.labels), shownWords = words.slice(0, MOST_WORDS);
  const most = Math.max(1, ...words.map(({count}) => count));
  at("profile-table").hidden = !words.length;
  at("profile-note").textContent = !all ? "No task was aborted in this run."
    : `${plural(all, "abort")}: ${grouped(all - others)} by a conflict on a word, ${grouped(others)} along with the `
      + "creator, for want of room, or because an act asked for it."
      + (words.length > MOST_WORDS ? ` These are the ${MOST_WORDS} words with the most.` : "");
  show(at("profile-table").tBodies[0], shownWords.map((word) => wordRows(word, most)).join(""));
  editor.heat = new Map();
  for (const {other, own, count} of words.flatMap((word) => [...word.pairs.values()])) {
    for (const access of new Set([other, own])) {
      const place = access && subject.labels.source(access.pc)?.place;
      if (place) editor.heat.set(place, (editor.heat.get(place) ?? 0) + count);
    }
  }
  profiled = new Map(words.map((word) => [String(word.address), word.places]));
}

let profiled = new Map();

function listenToProfile() {
  at("profile-table").addEventListener("click", ({target}) => {
    const places = profiled.get(target.closest("[data-word]")?.dataset.word);
    if (places) go(places.find((place) => place > current) ?? places[0]);
  });
}
