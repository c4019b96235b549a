// ---- attempts at tasks: what each core did from act to act, and how it ended, as `pictures/history.py` has it

// What a mark within an attempt says, by what a leg asked for.
const MARK_SIGNS = {load: "load", store: "store", enqueue: "child", emit: "emit", ordered: "domain",
  unordered: "domain", trap: "trap", end: "end"};

// Why an act aborts a task by itself; all other tasks are aborted along with one of these.
const DIRECT = ["access", "abort", "room"];

/** Which round an act of lockstep belongs to, and when the least task is advanced, as `lines/rounds.py` has it. */
class Rounds {
  /** What a page that begins within a run has from there. */
  constructor({tiles, cores, starved}, opening = {}) {
    // How many rounds came before, the number of the first act of this one and how many tasks had committed then, how
    // many rounds in a row had no commit, and whether this one advances the least task, and did.
    Object.assign(this, {acts: tiles * (cores + 3), most: starved, number: 0, first: 1, begun: 0, withoutCommit: 0,
      isAdvancing: false, isAdvanced: false}, opening);
  }

  /** Goes on to the round of an act, by the machine before it. */
  goTo(at, machine) {
    if (this.isAdvanced) this.begin({withoutCommit: 0});
    while (!this.isAdvancing && at >= this.first + this.acts) this.end(machine);
  }

  begin(more) {
    Object.assign(this, {number: this.number + 1, isAdvancing: false, isAdvanced: false}, more);
  }

  /** Ends a round. After too many starved ones the least task is advanced; once it is dispatched it starves no more. */
  end(machine) {
    const withoutCommit = machine.commits === this.begun ? this.withoutCommit + 1 : 0;
    this.begin({withoutCommit, first: this.first + this.acts, begun: machine.commits});
    if (withoutCommit === this.most) this.isAdvancing = ["idle", "spilled"].includes(leastIn(machine)?.state);
  }

  /** Where in the rounds an act ends: a round that advances the least task ends with its dispatch. */
  endOf(line) {
    if (!this.isAdvancing) return this.number + (line.at - this.first + 1) / this.acts;
    this.first += 1;
    this.isAdvanced = line.do === "dispatch";
    return this.number + (this.isAdvanced ? 1 : 0.5);
  }
}

/** All attempts of a run. It is given each act before and after the machine follows it. */
class History {
  constructor(head, opening) {
    Object.assign(this, {head, opening});
    this.clear();
  }

  clear() {
    const {head, opening} = this;
    // Attempts in the order of their dispatches; stays of tasks that left a queue without an attempt that counts.
    const {place = 0, ...begun} = opening.rounds ?? {};
    Object.assign(this, {attempts: [], arrows: [], commits: [], stays: [], alive: new Map(), arrivals: new Map(),
      spilled: new Map(), numbers: [0], rounds: [place],
      counted: head.course === "lockstep" ? new Rounds(head, begun) : null,
      held: Array.from({length: head.tiles * head.cores}, () => []), lanes: 1});
    for (const task of opening.tasks) this.arrive(task.id, task.tile, 0, null);
    for (const task of opening.tasks) if (task.state !== "idle") this.resume(task);
    opening.blocks.flat().forEach((task) => this.spilled.set(task.name.join("."), {start: 0, parent: null, tries: 0}));
  }

  /** A task that was dispatched before the page begins. */
  resume(task) {
    const told = {tasks: new Map([[task.id, task]]), label: () => task.name?.join(".") ?? `+${task.index}`};
    this.dispatch({tile: task.tile, core: task.core ?? 0, task: task.id}, told, 0);
    if (task.state === "finished") this.finish(this.alive.get(task.id), 0);
  }

  arrive(id, tile, start, parent) {
    this.arrivals.set(id, {tile, start, parent, tries: 0});
  }

  /** Which tasks an act aborts: from which attempt, by which access, and which attempts end. */
  before(line, machine, place) {
    this.numbers.push(line.at);
    this.counted?.goTo(line.at, machine);
    if (line.reply !== "ok" || !line.back?.length) return;
    const from = this.alive.get(line.task) ?? null;
    const causes = typeof Cascade === "undefined" ? null : new Cascade(line, machine, this.head).all();
    const byId = new Map(causes?.map((cause) => [cause.member.task.id, cause]));
    const gone = new Set(line.gone);
    const victims = line.back.map(([id, work]) => {
      const attempt = this.alive.get(id) ?? null, task = machine.tasks.get(id), cause = byId.get(id);
      const told = {attempt, work, tile: task.tile, label: machine.label(task), entry: task.entry, args: task.args,
        isGone: gone.has(id), isDirect: cause ? DIRECT.includes(cause.kind) : true,
        kind: cause?.kind ?? "", meeting: cause?.meeting ?? null, by: cause?.by ?? null,
        byTask: machine.tasks.get(cause?.by) ?? null};
      if (attempt) this.end(attempt, place, "aborted", {work});
      if (gone.has(id)) this.discard(id, place, told);
      return told;
    });
    const arrow = {place, from, line, victims, addr: line.addr ?? null,
      byWords: line.task === undefined ? null : machine.tasks.get(line.task)};
    for (const {attempt} of victims) if (attempt) attempt.arrow = arrow;
    this.arrows.push(arrow);
  }

  discard(id, place, told) {
    const arrival = this.arrivals.get(id);
    if (arrival && !told.attempt) {
      told.stay = {...arrival, end: place, label: told.label};
      this.stays.push(told.stay);
    }
    this.arrivals.delete(id);
  }

  end(attempt, place, fate, more = {}) {
    Object.assign(attempt, {end: place, fate, ...more});
    this.alive.delete(attempt.id);
    if (attempt.finish !== null) this.held[attempt.row][attempt.lane] = null;
  }

  behind(line, machine, place) {
    if (this.counted) this.rounds.push(this.counted.endOf(line));
    if (line.reply !== "ok") {
      const attempt = line.task === undefined ? null : this.alive.get(line.task);
      if (attempt && line.reply === "stall") attempt.marks.push([place, "stall", null]);
      return;
    }
    for (const [id, ...name] of line.spilled ?? []) {
      this.spilled.set(name.join("."), this.arrivals.get(id) ?? {start: place, parent: null, tries: 0});
      this.arrivals.delete(id);
    }
    this.DOES[line.do]?.call(this, line, machine, place);
  }

  dispatch({tile, core, task: id}, machine, place) {
    const task = machine.tasks.get(id), arrival = this.arrivals.get(id) ?? {start: place, parent: null, tries: 0};
    const row = tile * this.head.cores + core;
    const attempt = {id, row, tile, core, label: machine.label(task), name: task.name?.join(".") ?? null, ts: task.ts,
      depth: task.domain.kinds.length, entry: task.entry, args: task.args, start: place, finish: null, end: null,
      fate: null, lane: 0, turn: null, work: 0, marks: [], arrow: null, trap: null, tried: ++arrival.tries, arrival};
    this.attempts.push(attempt);
    this.alive.set(id, attempt);
  }

  step(line, machine, place) {
    const attempt = this.alive.get(line.task), sign = MARK_SIGNS[line.asks];
    if (!attempt) return;
    attempt.work = machine.tasks.get(line.task)?.work ?? attempt.work;
    if (sign && sign !== "end") attempt.marks.push([place, sign, line.addr ?? null]);
    if (line.asks === "trap") attempt.trap = place;
    if (line.asks === "enqueue") this.arrive(line.new, line.in, place, attempt);
    if (line.asks === "end") this.finish(attempt, place);
  }

  /** A finished attempt waits in a lane of its own below its core. */
  finish(attempt, place) {
    const held = this.held[attempt.row], free = held.findIndex((it) => !it);
    attempt.finish = place;
    attempt.lane = free < 0 ? held.length : free;
    held[attempt.lane] = attempt;
    this.lanes = Math.max(this.lanes, held.length);
  }

  commit(line, machine, place) {
    const attempt = this.alive.get(line.task), name = line.name.join(".");
    this.arrivals.delete(line.task);
    if (!attempt) return;
    this.end(attempt, place, "committed", {turn: machine.commits, name});
    this.commits.push({place, attempt, name, turn: machine.commits});
    for (const [id, other] of this.alive) other.name ??= machine.tasks.get(id)?.name?.join(".") ?? null;
  }

  split(line, _, place) {
    const name = line.name.join("."), arrival = this.spilled.get(name);
    this.spilled.delete(name);
    this.arrivals.set(line.new, arrival ?? {tile: line.tile, start: place, parent: null, tries: 0});
  }

  get DOES() { return {dispatch: this.dispatch, step: this.step, commit: this.commit, split: this.split}; }

  /** What a timeline draws, as plain data. */
  description() {
    const number = (attempt) => (attempt ? this.attempts.indexOf(attempt) : null);
    const attempts = this.attempts.map((it) => [it.row, it.start, it.finish, it.end, it.fate, it.lane, it.label,
      it.name, it.ts, it.entry, it.turn, it.work, it.trap, it.tried, it.arrival.start, number(it.arrival.parent),
      it.marks.map(([place, sign]) => [place, sign])]);
    const victims = (arrow) => arrow.victims.map((it) => [number(it.attempt), it.tile, it.isDirect,
        it.kind === "child"]);
    return {waiting: this.lanes, rounds: this.rounds.map((it) => Number(it.toFixed(6))), attempts,
      arrows: this.arrows.map((it) => [it.place, number(it.from), it.addr, victims(it)]),
      commits: this.commits.map(({attempt}) => number(attempt)),
      stays: this.stays.map((it) => [it.tile, it.start, it.end, it.label])};
  }
}
