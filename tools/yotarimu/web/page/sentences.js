// ---- what a line says, in a sentence: the texts stand in sentences.json, which the tools in Python read too

const MOST_NAMED = 12;

const isOrAre = (count) => (count === 1 ? "is" : "are");

function listed(parts) {
  if (parts.length <= MOST_NAMED) return parts.join(", ");
  const more = filled(sentences.more, {count: grouped(parts.length - MOST_NAMED)});
  return [...parts.slice(0, MOST_NAMED), more].join(", ");
}

/** Sentences on lines, each by the machine before and behind it. */
class Sayer {
  constructor(head, labels) {
    this.head = head;
    this.labels = labels;
  }

  opening() {
    return filled(sentences.opening, {tasks: plural(this.head.tasks, "task"), are: isOrAre(this.head.tasks)});
  }

  sentence(line, before, behind) {
    if (line.reply !== "ok") return this.refused(line, before);
    const told = filled(sentences.done[line.do], {...line, ...this.values(line, before, behind)});
    return `${told}.${this.back(line, before)}${this.spilled(line, behind)}`;
  }

  /** What a sentence names beside the line's own fields. */
  values(line, before, behind) {
    switch (line.do) {
      case "dispatch": case "abort": return {task: this.task(line.task, before)};
      case "take": return {task: this.task(before.cores[line.tile][line.core], before)};
      case "step": return {leg: this.leg(line, before), request: this.request(line, before, behind)};
      case "commit": return this.commit(line, before, behind);
      case "split": return {name: line.name.join(".")};
      default: return {};
    }
  }

  task(id, machine) { return machine.label(machine.tasks.get(id)); }

  /** Who made a leg, and how many plain instructions it has. One that stalled executes none of them. */
  leg(line, before, text = "plain") {
    const who = filled(sentences.leg.who, {...line, task: this.task(line.task, before)});
    return line.leg ? filled(sentences.leg[text], {who, instructions: plural(line.leg, "plain instruction")}) : who;
  }

  request(line, before, behind) {
    return filled(sentences.requests[line.asks], {...line, ...this.requested(line, behind)});
  }

  requested(line, behind) {
    switch (line.asks) {
      case "go": return {place: this.labels.labelled(line.pc)};
      case "load": case "store": {
        const value = signed(line.value % 2 ** (8 * line.bytes), line.bytes);
        return {access: this.access(line), old: signed(line.old, line.bytes), value};
      }
      case "enqueue": return this.child(line, behind);
      case "emit": return {text: printable(line.byte.toString(16).padStart(2, "0"))};
      case "trap": return {place: this.labels.labelled(line.pc), trap: this.trap(line)};
      default: return {};
    }
  }

  access(line) {
    const label = this.labels.label(line.addr), address = hex(line.addr);
    return filled(sentences.access, {bytes: plural(line.bytes, "byte"),
      place: label ? filled(sentences.labelled, {address, label}) : address,
      line: Math.floor((line.addr - DATA_START) / this.head.line)});
  }

  child(line, behind) {
    const child = behind.tasks.get(line.new);
    return {index: child.index, child: behind.label(child), domain: sentences.domains[line.to],
      words: this.labels.taskWords(line.entry, line.args)};
  }

  trap({cause}) {
    const meaning = filled(sentences.causes[cause][0], sentences["either version"]);
    return filled(sentences.trap, {cause, meaning});
  }

  commit(line, before, behind) {
    const turn = behind.commits, count = before.tasks.get(line.task).made;
    const texts = sentences.commit, values = {turn, count, last: count - 1};
    return {name: line.name.join("."), turn,
      output: "output" in line ? filled(texts.output, {text: printable(line.output)}) : "",
      children: count ? filled(count === 1 ? texts.child : texts.children, values) : ""};
  }

  /** Which tasks were taken back, the least first, why, and which of them are gone. */
  back(line, before) {
    if (!line.back?.length) return "";
    // Of tasks that are spilled too, the names are known from then on.
    const names = new Map((line.spilled ?? []).map(([id, ...name]) => [id, name.join(".")]));
    const named = (id) => names.get(id) ?? this.task(id, before);
    const count = line.back.length, cascade = new Cascade(line, before, this.head), texts = sentences.taken;
    const sayer = new CauseSayer(named, this.labels, cascade), gone = new Set(line.gone);
    const told = cascade.all().slice(0, MOST_NAMED).map((cause) => {
      const {task: {id}, work} = cause.member;
      return filled(work ? texts.worked : texts.idle, {task: named(id), instructions: plural(work, "instruction"),
        discarded: gone.has(id) ? texts.discarded : "", cause: sayer.sentence(cause)});
    });
    const more = count > MOST_NAMED ? filled(texts.more, {count: grouped(count - MOST_NAMED)}) : "";
    return filled(sentences.back, {tasks: plural(count, "task"), are: isOrAre(count), list: told.join(""), more});
  }

  /** Which tasks moved to a block. */
  spilled(line, behind) {
    if (!line.spilled?.length) return "";
    const count = line.spilled.length, names = line.spilled.map(([, creator, index]) => `${creator}.${index}`);
    return filled(sentences.spilled, {tasks: plural(count, "task"), are: isOrAre(count),
      tile: [...behind.act.spilled][0].tile, list: listed(names)});
  }

  /** What an act was to do that came to nothing, and why. */
  refused(line, before) {
    return filled(sentences.refused, {wish: this.wish(line, before), reply: line.reply, why: this.why(line, before)});
  }

  wish(line, before) {
    const {wishes} = sentences;
    if (line.asks === "enqueue" || line.asks === "end") {
      return filled(wishes[line.asks], {leg: this.leg(line, before, "stalled"), domain: sentences.domains[line.to]});
    }
    if (line.do === "step" && line.task !== undefined) {
      return filled(wishes.leg, {...line, task: this.task(line.task, before)});
    }
    return filled(wishes[line.do], line);
  }

  why(line, before) {
    const {refusals} = sentences;
    if (line.reply === "ended") return refusals.ended;
    if (line.reply !== "stale" || line.do === "give") return refusals[`${line.asks ?? line.do} ${line.reply}`];
    if (line.task !== undefined) return refusals["stale leg"];
    const holder = before.cores[line.tile][line.core];
    if (holder === null) return refusals["stale free"];
    return filled(refusals["stale trapped"], {task: this.task(holder, before)});
  }

  /** What the last line says. */
  end(end) {
    if (end.end !== "trap") return sentences.ends[end.end];
    const values = {name: end.name.join("."), place: this.labels.labelled(end.pc), trap: this.trap(end)};
    return filled(sentences.ends.trap, values);
  }
}
