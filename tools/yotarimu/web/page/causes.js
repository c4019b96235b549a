// ---- why tasks were taken back: of each one what took it, and what that goes back to, as `lines/causes.py` has it

// What two accesses share, the narrowest first: a byte, a line, or only the bits that a filter has for both lines.
const [SAME_BYTE, SAME_LINE, SAME_BIT] = [0, 1, 2];
// The word for what takes tasks back, by what a task asks for or by the event; those of ROOMS want room.
const ROOTS = {load: "load", store: "store", end: "commit queue", enqueue: "task queue", split: "task queue",
  dispatch: "core", abort: "abort"};
const ROOMS = ["commit queue", "task queue", "core"];

/** The causes of an event, by the machine before it. Members come in the order of their times. */
class Cascade {
  constructor(line, before, head) {
    Object.assign(this, {before, rule: new LineRule(head), event: ROOTS[line.asks ?? line.do], access: accessIn(line),
      by: line.task ?? null, gone: new Set(line.gone), causes: new Map()});
    this.written = [new Map(), new Map(), new Map()];
    this.members = line.back.map(([id, work]) => (
      {task: before.tasks.get(id), work, accesses: accessesOf(before.accesses.get(id))}));
    this.members.sort((one, two) => compareTimes(timeOf(one.task), timeOf(two.task)));
  }

  /** The cause of each member, the least task first. */
  all() { return this.members.map((member) => this.take(member)); }

  take(member) {
    const ways = [this.byEvent(member), this.byCreator(member), this.byTouch(member)].filter(Boolean);
    const kind = this.access ? "access" : "touched";
    if (!ways.length) ways.push({member, kind, by: this.by, meeting: null, sharing: SAME_BIT});
    const cause = ways.reduce((best, way) => (way.sharing < best.sharing ? way : best));
    this.causes.set(member.task.id, cause);
    for (const access of member.accesses) if (access.isStore) this.keep(cause, access);
    return cause;
  }

  /** What the event itself does. */
  byEvent(member) {
    if (this.access) {
      const meeting = this.met(member.accesses, this.access) ?? this.jointly(member.accesses, this.access);
      return meeting && {member, kind: "access", by: this.by, meeting, sharing: meeting.sharing};
    }
    if (this.causes.size) return null;
    // The least member is the one that stood there; all others are later, and go with it.
    const isRoom = ROOMS.includes(this.event);
    return {member, kind: isRoom ? "room" : "abort", by: isRoom ? this.by : null, meeting: null, sharing: SAME_BYTE};
  }

  /** The access that shares the most with another one, the first of several. A load meets stores alone. */
  met(accesses, other) {
    let best = null;
    for (const own of accesses) {
      const sharing = own.isStore || other.isStore ? this.shared(own, other) : null;
      if (sharing !== null && (best === null || sharing < best.sharing)) best = {own, other, sharing};
      if (sharing === SAME_BYTE) break;
    }
    return best;
  }

  /** What meets an access where bits of several lines together are those of its line. A load meets stores alone. */
  jointly(accesses, other) {
    const noted = accesses.filter(({isStore}) => isStore || other.isStore);
    return this.rule.tells(noted)(other) ? {own: null, other, sharing: SAME_BIT} : null;
  }

  byCreator(member) {
    const before = this.gone.has(member.task.id) ? this.causes.get(member.task.creator) : null;
    return before && {member, kind: "child", by: before.member.task.id, meeting: null, sharing: before.sharing};
  }

  /** It touched what another member wrote: the way that shares the most, the first of several. */
  byTouch(member) {
    let best = null;
    for (const own of member.accesses) {
      for (const [sharing, places] of this.places(own)) {
        for (const [before, other] of places.map((place) => this.written[sharing].get(place)).filter(Boolean)) {
          const widest = Math.max(sharing, before.sharing);
          if (best && widest >= best.sharing) continue;
          best = {member, kind: "touched", by: before.member.task.id, meeting: {own, other, sharing}, sharing: widest};
        }
      }
      if (best?.sharing === SAME_BYTE) break;
    }
    return best ?? this.byJointTouch(member);
  }

  /** Its filter tells a line that another member wrote by bits of several lines together: the first such store. */
  byJointTouch(member) {
    const isTold = this.rule.tells(member.accesses);
    const found = [...this.written[SAME_LINE].values()].find(([, other]) => isTold(other));
    if (!found) return null;
    const [before, other] = found, meeting = {own: null, other, sharing: SAME_BIT};
    return {member, kind: "touched", by: before.member.task.id, meeting, sharing: SAME_BIT};
  }

  keep(cause, access) {
    for (const [sharing, places] of this.places(access)) {
      const kept = this.written[sharing];
      for (const place of places) {
        if (!kept.has(place) || cause.sharing < kept.get(place)[0].sharing) kept.set(place, [cause, access]);
      }
    }
  }

  /** The bytes, the line and the bits of an access. */
  places(access) {
    const {address, bytes} = access, line = this.rule.lineOf(access);
    return [[SAME_BYTE, Array.from({length: bytes}, (_, byte) => address + byte)], [SAME_LINE, [line]],
      [SAME_BIT, [this.rule.bitsWord(line)]]];
  }

  /** What two accesses share; null where it isn't even the bits of their lines. */
  shared(one, other) {
    if (one.address < other.address + other.bytes && other.address < one.address + one.bytes) return SAME_BYTE;
    const [line, met] = [one, other].map((access) => this.rule.lineOf(access));
    if (line === met) return SAME_LINE;
    return this.rule.bitsWord(line) === this.rule.bitsWord(met) ? SAME_BIT : null;
  }
}

/** How causes are said: by the names of tasks, labels and source lines, and the bytes of a line. */
class CauseSayer {
  constructor(named, labels, cascade) {
    Object.assign(this, {named, labels, cascade, texts: sentences["taken causes"]});
  }

  /** Why a task was taken back, as what is said of it behind its name. */
  sentence(cause) {
    const {texts} = this;
    if (cause.kind === "abort") return texts.abort;
    if (cause.kind === "child") return filled(texts.child, {by: this.behind(cause)});
    if (cause.kind === "room") return filled(texts[this.cascade.event], {by: this.behind(cause)});
    return cause.meeting ? this.meeting(cause) : texts.filter;
  }

  meeting(cause) {
    const {texts} = this, {own, other, sharing} = cause.meeting;
    const met = other.isStore ? "met by store" : "met by load";
    const place = sharing === SAME_BYTE ? texts.there
      : filled(texts.elsewhere, {place: this.labels.labelled(other.address)});
    const done = own ? this.did(own) : filled(texts.joint, {line: this.lineTold(other)});
    return filled(texts[cause.kind === "access" ? met : "touched"], {own: done, by: this.behind(cause), place,
      spot: this.spot(other), sharing: this.sharing(cause.meeting)});
  }

  did(own) {
    return filled(own.isStore ? this.texts.stored : this.texts.loaded,
      {value: signed(own.isStore ? own.value : own.old, own.bytes), place: this.labels.labelled(own.address),
        spot: this.spot(own)});
  }

  sharing({own, other, sharing}) {
    if (sharing === SAME_BYTE) return "";
    if (sharing === SAME_LINE) return filled(this.texts.line, {bytes: this.cascade.rule.size});
    if (!own) return this.texts["joint bits"];
    const [one, two] = [own, other].map((access) => this.lineTold(access));
    return filled(this.texts.alias, {one, other: two});
  }

  lineTold(access) { return grouped(this.cascade.rule.lineOf(access)); }

  /** Where in the source an access stands, if that is known. */
  spot({pc}) {
    const source = this.labels.source(pc);
    if (source) return filled(source.text ? this.texts["source spot"] : this.texts.spot, source);
    return this.labels.isKnown ? filled(this.texts.spot, {place: this.labels.labelled(pc)}) : "";
  }

  behind({by}) { return by === null ? this.texts.splitter : this.named(by); }
}
