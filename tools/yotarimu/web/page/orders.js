// ---- which of two tasks comes first, and why: by their virtual times, as `lines/orders.py` has it

const depthOf = (task) => task.domain.kinds.length;
const kindAt = (task, level) => (task.domain.kinds[level] ? "ordered" : "unordered");

/** What the tasks of a machine are called, and where they stand to each other. */
class Orders {
  /** `nameOfMaker(dispatch)` names a task that committed, by its place among all dispatches. */
  constructor(machine, nameOfMaker) {
    Object.assign(this, {machine, nameOfMaker, texts: sentences.order});
  }

  /** The uncommitted task of a label; undefined where there is none. */
  find(label) {
    return this.all().find((task) => this.machine.label(task) === label);
  }

  all() { return [...this.machine.tasks.values(), ...this.machine.blocks.flat()]; }

  label(task) { return this.machine.label(task); }

  /** What a task is: what it begins with, and its domain. */
  taskTold(task, labels) {
    const depth = depthOf(task);
    return filled(this.texts.task, {task: this.label(task), words: labels.taskWords(task.entry, task.args), ts: task.ts,
      depth, domain: this.domainTold(task, depth - 1)});
  }

  /** The domain of a level of a task's time: its own one, or one around that. */
  domainTold(task, level) {
    const kind = this.texts.kinds[kindAt(task, level)];
    return level === 0 ? filled(this.texts.root, {kind})
      : filled(this.texts.sub, {kind, maker: this.makerTold(task, level - 1)});
  }

  /** The task whose place in its domain a level of a time tells: the task itself at its last level, else a maker. */
  makerTold(task, level) {
    const [, dispatch] = task.domain.maker[level];
    const maker = this.all().find((it) => it.dispatched === dispatch);
    return maker ? this.label(maker) : this.nameOfMaker(dispatch) ?? this.texts.committed;
  }

  holderTold(task, level) {
    if (level === depthOf(task) - 1) return this.label(task);
    return filled(this.texts.maker, {maker: this.makerTold(task, level), task: this.label(task)});
  }

  /** Why one of two tasks comes after the other. */
  orderTold(one, other) {
    if (one === other) return this.texts.same;
    const [first, second] = this.compare(one, other) < 0 ? [one, other] : [other, one];
    return filled(this.texts.after, {first: this.label(first), second: this.label(second),
      why: this.why(first, second)});
  }

  compare(one, other) {
    const order = compareTimes(timeOf(one), timeOf(other));
    if (order) return order;
    return compareNumbers(this.spot(one), this.spot(other));
  }

  /** Where a task waits: queued ones come before spilled ones, then tiles count, and then places. */
  spot(task) {
    const {tile} = task;
    return task.id === null ? [1, tile, this.machine.blocks[tile].indexOf(task)]
      : [0, tile, this.machine.queues[tile].indexOf(task.id)];
  }

  why(first, second) {
    const [time, otherTime] = [timeOf(first), timeOf(second)];
    const differing = time.findIndex((level, place) => compareTimes([level], [otherTime[place]]));
    if (differing < 0 && time.length < otherTime.length)
      return filled(this.texts.within, {first: this.label(first)});
    // Times that don't differ are those of two tasks that wait.
    const last = differing < 0 ? time.length - 1 : differing;
    const values = {domain: this.domainTold(first, last), one: this.holderTold(first, last),
      other: this.holderTold(second, last), ts: time[last][0], other_ts: otherTime[last][0]};
    if (values.ts !== values.other_ts) return filled(this.texts.timestamps, values);
    return this.whyEqual(first, second, last, values);
  }

  whyEqual(first, second, level, values) {
    const [dispatch, otherDispatch] = [first, second].map((task) => timeOf(task)[level][1]);
    const spots = [this.spot(first), this.spot(second)];
    const name = dispatch !== otherDispatch ? (otherDispatch === Infinity ? "dispatched" : "dispatches")
      : spots[0][0] !== spots[1][0] ? "queued" : spots[0][1] !== spots[1][1] ? "tiles" : "places";
    const rule = filled(this.texts[name], {...values, tile: first.tile, other_tile: second.tile});
    const equal = filled(this.texts.equals[kindAt(first, level)], values);
    return filled(this.texts.equal, {...values, equal, rule});
  }
}

/** The least of the tasks that are left; undefined where none is. */
function leastIn(machine) {
  const orders = new Orders(machine, () => undefined);
  return orders.all().reduce((least, task) => (least && orders.compare(least, task) < 0 ? least : task), undefined);
}

/** Lists of as many numbers: the first that differs decides. */
function compareNumbers(one, other) {
  const place = one.findIndex((number, at) => number !== other[at]);
  return place < 0 ? 0 : one[place] - other[place];
}

// ---- the page's part: two tasks, picked by a click or by their labels

/** Puts a task into a field: into the other one where the first has a task already. */
function pick(label) {
  const [one, other] = [at("one-task"), at("other-task")];
  if (one.value && !other.value && one.value !== label) other.value = label;
  else [one.value, other.value] = [label, ""];
  showPair();
}

/** Puts two tasks into the fields. */
function pickBoth(one, other) {
  [at("one-task").value, at("other-task").value] = [one, other];
  showPair();
  at("pair").scrollIntoView({block: "nearest"});
}

/** The tasks behind the act that is shown. */
const ordersNow = () => new Orders(lastShown.machine, (dispatch) => course.makers.get(dispatch)?.name);

/** Says of the tasks that were picked what they are behind the act that is shown, and which comes first. */
function showPair() {
  // While an answer is read no act is shown.
  if (lastShown === null) return;
  const picked = ["one", "other"].map((name) => at(`${name}-task`).value.trim()).filter(Boolean);
  const orders = ordersNow(), tasks = picked.map((label) => orders.find(label));
  const told = picked.map((label, place) => (
    tasks[place] ? orders.taskTold(tasks[place], labels) : filled(sentences.order.none, {task: label})));
  if (tasks.length === 2 && tasks[0] && tasks[1]) told.push(orders.orderTold(...tasks));
  show(at("pair-told"), told.map((text) => `<p>${toldHtml(text)}</p>`).join(""));
}

function listenToPair() {
  at("tiles").addEventListener("click", ({target}) => {
    const item = target.closest("[data-label]");
    if (item) pick(item.dataset.label);
  });
  for (const name of ["one", "other"]) at(`${name}-task`).addEventListener("input", showPair);
}
