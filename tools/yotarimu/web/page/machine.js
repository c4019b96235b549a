// ---- the machine, by replay

const EVERY = 200;
// Requests that are no instruction of their own.
const NOT_EXECUTED = ["go", "trap"];
const TEXT_START = 0x10000, DATA_START = 0x10000000, STACK_START = 0x20000000;
// So many places among children stand in one label; of more the first and the last do.
const MOST_PLACES = 6;

/** The machine between two acts. Tasks and lists are replaced and never changed, so a copy shares them. */
class Machine {
  constructor(opening) {
    Object.assign(this, opening);
    // JSON has no infinity: a task that isn't dispatched comes behind all that are.
    const placed = (task) => ({...task, dispatched: task.dispatched ?? Infinity});
    this.tasks = new Map(opening.tasks.map((task) => [task.id, placed(task)]));
    this.blocks = opening.blocks.map((block) => block.map(placed));
    // The accesses of each task that may be taken back; of a page that begins within a run its stores alone.
    this.accesses = new Map();
    for (const [id, stores] of opening.stores) {
      for (const [address, bytes, old, event] of stores) this.note(id, {isStore: true, address, bytes, old, event});
    }
    this.act = nothingDone(null);
  }

  copy() {
    const copy = Object.assign(Object.create(Machine.prototype), this);
    copy.tasks = new Map(this.tasks);
    copy.accesses = new Map(this.accesses);
    for (const lists of ["queues", "cores", "finished", "blocks"]) copy[lists] = [...this[lists]];
    return copy;
  }

  /** Does what a line tells. What it did to whom is kept until the next one. */
  follow(line) {
    this.at = line.at;
    this.events = line.n;
    this.act = nothingDone(line.task ?? null);
    if (line.reply !== "ok") return;
    this.undo(line.back ?? []);
    this.takeBack(line.back ?? [], new Set(line.gone));
    for (const [id, ...name] of line.spilled ?? []) this.spill(id, name);
    CHANGES[line.do]?.(this, line);
    this.touch(line);
  }

  /** The stores of tasks that are taken back: each, the latest first, leaves what stood there before. */
  undo(rows) {
    const undone = rows.flatMap(([id]) => accessesOf(this.accesses.get(id)).filter(({isStore}) => isStore));
    for (const [id] of rows) this.accesses.delete(id);
    for (const {address, bytes, old} of undone.sort((one, two) => two.event - one.event)) {
      this.act.writes.push([address, bytes, old]);
    }
  }

  /** What a load found or a store left, and the store itself as long as its task may be taken back. */
  touch(line) {
    if (line.do === "commit") this.accesses.delete(line.task);
    const access = accessIn(line);
    if (!access) return;
    this.act.writes.push([access.address, access.bytes, access.value]);
    this.note(line.task, access);
  }

  note(id, access) {
    this.accesses.set(id, {access, before: this.accesses.get(id)});
  }

  replace(id, change) {
    const task = {...this.tasks.get(id), ...change};
    this.tasks.set(id, task);
    return task;
  }

  arrive(task) {
    this.tasks.set(task.id, task);
    this.queues[task.tile] = [...this.queues[task.tile], task.id];
    this.act.arrived = task.id;
  }

  leave(id) {
    const task = this.tasks.get(id);
    this.putOff(task);
    this.queues[task.tile] = without(this.queues[task.tile], id);
    this.tasks.delete(id);
    return task;
  }

  /** A task leaves its core, or the commit queue. */
  putOff(task) {
    const {tile, id} = task;
    if (task.core !== null) this.cores[tile] = this.cores[tile].map((held) => (held === id ? null : held));
    if (task.state === "finished") this.finished[tile] = without(this.finished[tile], id);
  }

  takeBack(rows, gone) {
    // Names go by creators, which may be gone before their children.
    this.act.discarded = rows.filter(([id]) => gone.has(id)).map(([id]) => ({
      id, tile: this.tasks.get(id).tile, label: this.label(this.tasks.get(id)),
    }));
    for (const [id, work] of rows) {
      this.wasted += work;
      if (gone.has(id)) {
        this.leave(id);
        continue;
      }
      const task = this.tasks.get(id);
      this.putOff(task);
      this.replace(id, {state: "idle", core: null, number: null, dispatched: Infinity, work: 0, pc: task.entry, made: 0,
        children: [], subdomain: null});
      this.act.back.add(id);
    }
  }

  spill(id, name) {
    const task = {...this.leave(id), id: null, state: "spilled", name};
    this.blocks[task.tile] = [...this.blocks[task.tile], task];
    this.act.spilled.add(task);
  }

  /** A task's name, or its places among children behind the name of the first creator that has one. */
  label(task) {
    let places = [];
    while (task.name === null) {
      places.push(`+${task.index}`);
      task = this.tasks.get(task.creator);
    }
    if (places.length > MOST_PLACES) places = [places[0], "+..", places.at(-1)];
    return task.name.join(".") + places.reverse().join("");
  }
}

function nothingDone(own) {
  return {own, arrived: null, committed: null, maker: null, back: new Set(), discarded: [], spilled: new Set(),
    writes: []};
}

/** A task's accesses, the first one first. They are a chain, which copies of the machine share. */
function accessesOf(chain) {
  const accesses = [];
  for (let link = chain; link; link = link.before) accesses.push(link.access);
  return accesses.reverse();
}

/** The load or the store that a line tells; null where it tells none. */
function accessIn(line) {
  if (line.reply !== "ok" || (line.asks !== "load" && line.asks !== "store")) return null;
  const isStore = line.asks === "store", {addr: address, bytes, old, pc, n: event} = line;
  return {isStore, address, bytes, old, value: isStore ? line.value % 2 ** (8 * bytes) : old, pc, event};
}

/** The domain of a child: the time of the task that made it, and which domains down to it are ordered. */
function domainOfChild(creator, to) {
  const {maker, kinds} = creator.domain;
  if (to === "same") return creator.domain;
  if (to === "super") return {maker: maker.slice(0, -1), kinds: kinds.slice(0, -1)};
  return {maker: timeOf(creator), kinds: [...kinds, creator.subdomain === "ordered"]};
}

/** A task's virtual time: a timestamp and the place of a dispatch for each depth. */
function timeOf({domain: {maker, kinds}, ts, dispatched}) {
  return [...maker, [kinds.at(-1) ? ts : 0, dispatched]];
}

/** Tuples of numbers in their order: the first that differs decides, and a beginning comes first. */
function compareTimes(one, two) {
  for (let level = 0; level < Math.min(one.length, two.length); level++) {
    const [[ts, place], [otherTs, otherPlace]] = [one[level], two[level]];
    if (ts !== otherTs) return ts - otherTs;
    if (place !== otherPlace) return place < otherPlace ? -1 : 1;
  }
  return one.length - two.length;
}

function without(list, item) {
  return list.filter((other) => other !== item);
}

/** What an event does behind what it forces. */
const CHANGES = {
  dispatch(machine, line) {
    const {tile, core, task, number} = line;
    machine.dispatches += 1;
    machine.replace(task, {state: "running", core, number, dispatched: machine.dispatches});
    machine.cores[tile] = machine.cores[tile].map((held, place) => (place === core ? task : held));
  },

  step(machine, line) {
    const task = machine.tasks.get(line.task);
    const work = task.work + line.leg + (NOT_EXECUTED.includes(line.asks) ? 0 : 1);
    const moved = machine.replace(line.task, {pc: line.pc, work});
    if (line.asks === "trap") machine.replace(line.task, {state: "trapped"});
    if (line.asks === "ordered" || line.asks === "unordered") machine.replace(line.task, {subdomain: line.asks});
    if (line.asks === "enqueue") enqueue(machine, moved, line);
    if (line.asks === "end") {
      machine.putOff(moved);
      machine.replace(line.task, {state: "finished", core: null});
      machine.finished[task.tile] = [...machine.finished[task.tile], line.task];
    }
  },

  commit(machine, line) {
    const task = machine.leave(line.task);
    machine.useful += task.work;
    machine.commits += 1;
    machine.act.committed = machine.commits;
    if (task.subdomain !== null) machine.act.maker = task.dispatched;
    for (const id of task.children) {
      const child = machine.tasks.get(id);
      // A child that was spilled has its name, and its id may be another's.
      if (child && child.name === null && child.creator === line.task) {
        machine.replace(id, {name: [machine.commits, child.index], creator: null});
      }
    }
  },

  split(machine, line) {
    const name = line.name.join(".");
    const block = machine.blocks[line.tile];
    const task = block.find((spilled) => spilled.name.join(".") === name);
    machine.blocks[line.tile] = without(block, task);
    machine.arrive({...task, id: line.new, state: "idle"});
  },
};

function enqueue(machine, creator, line) {
  // Children that were spilled before the page begins have names, and aren't in the list.
  const index = creator.made;
  machine.replace(creator.id, {made: index + 1, children: [...creator.children, line.new]});
  machine.arrive({
    id: line.new, tile: line.in, state: "idle", core: null, name: null, creator: creator.id, index, ts: line.ts,
    args: line.args, entry: line.entry, pc: line.entry, number: null, work: 0, made: 0, children: [],
    dispatched: Infinity, subdomain: null, domain: domainOfChild(creator, line.to),
  });
}

// ---- memory, as the words that were touched and what stood there when

/** Words by address, each with the acts that changed it and the bytes that are known of it behind them. */
class Memory {
  constructor(opening, lineBytes) {
    this.lineBytes = lineBytes;
    this.words = new Map();
    this.lines = new Map();
    for (const [address, bytes] of opening.memory) Object.assign(this.word(address), {places: [0], bytes: [bytes]});
  }

  lineOf(address) { return Math.floor((address - DATA_START) / this.lineBytes); }

  /** The word at an address, whose line names it too. */
  word(address) {
    if (!this.words.has(address)) {
      this.words.set(address, {places: [], bytes: []});
      const line = this.lineOf(address);
      this.lines.set(line, [...(this.lines.get(line) ?? []), address].sort((one, two) => one - two));
    }
    return this.words.get(address);
  }

  follow(place, writes) {
    for (const [address, count, value] of writes) this.write(place, address, count, value);
  }

  write(place, address, count, value) {
    const start = address - (address % 4);
    const word = this.word(start);
    const bytes = [...(word.bytes.at(-1) ?? [null, null, null, null])];
    for (let byte = 0; byte < count; byte++) bytes[address - start + byte] = (value >>> (8 * byte)) & 255;
    word.places.push(place);
    word.bytes.push(bytes);
  }

  /** Forgets what acts behind this one did. */
  cutTo(place) {
    for (const word of this.words.values()) {
      word.places.length = word.bytes.length = countUpTo(word.places, place);
    }
  }

  /** The bytes of a word that are known behind an act, and whether that act wrote them; undefined before its first. */
  at(address, place) {
    const word = this.words.get(address);
    const count = countUpTo(word.places, place);
    return count ? {bytes: word.bytes[count - 1], isNew: place > 0 && word.places[count - 1] === place} : undefined;
  }
}

/** How many of rising numbers are at most this one. */
function countUpTo(numbers, most) {
  let low = 0, high = numbers.length;
  while (low < high) {
    const middle = (low + high) >> 1;
    if (numbers[middle] <= most) low = middle + 1; else high = middle;
  }
  return low;
}

// ---- the course of all acts

const CURVES = ["idle", "running", "finished", "spilled", "useful", "wasted"];

/** Acts, each played once as it comes: a copy of the machine at each so many, and what is counted behind each. */
class Course {
  constructor(head, opening) {
    Object.assign(this, {head, opening, acts: [], entries: [...opening.journal], before: opening.journal.length});
    this.emitted = {places: [], digits: [], total: ""};
    // Names of tasks that made a domain and committed, by their places among all dispatches.
    this.makers = new Map(opening.makers.map(([dispatch, name]) => [dispatch, {name, place: 0}]));
    this.memory = new Memory(opening, head.line);
    this.curves = Object.fromEntries(CURVES.map((name) => [name, []]));
    this.machine = new Machine(opening);
    this.copies = [this.machine.copy()];
    this.history = new History(head, opening);
    this.count(this.machine);
  }

  get length() { return this.acts.length; }

  follow(line) {
    this.acts.push(line);
    const place = this.acts.length, {machine} = this;
    this.history.before(line, machine, place);
    machine.follow(line);
    this.history.behind(line, machine, place);
    this.memory.follow(place, machine.act.writes);
    if (machine.act.committed) this.commit(line, place);
    if (place % EVERY === 0) this.copies.push(machine.copy());
    this.count(machine);
  }

  commit(line, place) {
    const name = line.name.join("."), {maker} = this.machine.act;
    this.entries.push([name, line.depth, line.ts]);
    if (maker !== null) this.makers.set(maker, {name, place});
    if (!line.output) return;
    this.emitted.total += line.output;
    this.emitted.places.push(place);
    this.emitted.digits.push(this.emitted.total.length);
  }

  count(machine) {
    const held = sum(machine.cores, (cores) => cores.filter((id) => id !== null).length);
    const waiting = sum(machine.finished, (ids) => ids.length);
    const spilled = sum(machine.blocks, (block) => block.length);
    const idle = machine.tasks.size - held - waiting;
    [idle, held, waiting, spilled, machine.useful, machine.wasted].forEach((value, curve) => {
      this.curves[CURVES[curve]].push(value);
    });
  }

  /** Forgets the acts behind so many. */
  cutTo(place) {
    if (place >= this.length) return;
    this.machine = this.at(place);
    this.acts.length = place;
    this.copies.length = Math.floor(place / EVERY) + 1;
    this.memory.cutTo(place);
    this.entries.length = this.before + this.machine.commits - this.opening.commits;
    for (const [dispatch, maker] of this.makers) if (maker.place > place) this.makers.delete(dispatch);
    const {emitted} = this;
    emitted.places.length = emitted.digits.length = countUpTo(emitted.places, place);
    emitted.total = emitted.total.slice(0, emitted.digits.at(-1) ?? 0);
    for (const name of CURVES) this.curves[name].length = place + 1;
    this.tellHistory();
  }

  /** Tells the history anew, which goes forth alone. */
  tellHistory() {
    const {history} = this, machine = new Machine(this.opening);
    history.clear();
    this.acts.forEach((line, act) => {
      history.before(line, machine, act + 1);
      machine.follow(line);
      history.behind(line, machine, act + 1);
    });
  }

  /** The digits of what was emitted behind so many acts, from the first one on. */
  outputAt(place) {
    const count = countUpTo(this.emitted.places, place);
    return this.emitted.total.slice(0, count ? this.emitted.digits[count - 1] : 0);
  }

  /** The machine behind so many acts. */
  at(place) {
    if (place === this.length) return this.machine.copy();
    const copy = Math.floor(place / EVERY);
    const machine = this.copies[copy].copy();
    for (let act = copy * EVERY; act < place; act++) machine.follow(this.acts[act]);
    return machine;
  }
}

function sum(lists, value) {
  return lists.reduce((total, list) => total + value(list), 0);
}
