// ---- the lines that the second program writes: an answer that begins as the one before isn't read again

const NEWLINE = 10;
// So many milliseconds at a time are spent on reading: half of what a screen has for a picture.
const MOST_MILLISECONDS = 8;

/** What was stopped by a person. */
class Interruption extends Error {}

// Whether a person wants what lasts to be stopped: a call, or the reading of its answer.
const stopping = {isWanted: false};

// It is held here: one that nothing holds may be gone before its message comes.
const channel = new MessageChannel();

/** Lets everything else in the page come first. A browser keeps a timer waiting for longer than a message. */
function pause() {
  return new Promise((resolve) => {
    channel.port1.onmessage = resolve;
    channel.port2.postMessage(null);
  });
}

/** A run as it was told last. */
class ToldRun {
  constructor() {
    Object.assign(this, {bytes: new Uint8Array(0), head: null, course: null, end: null, placed: [], actEnds: []});
    // Behind which byte the head and the tasks of the image end.
    this.opened = 0;
  }

  /** Whether an answer begins with the same machine and the same tasks, so that only its further acts are read. */
  isBegunBy(bytes) {
    return this.opened > 0 && sameBytes(this.bytes.subarray(0, this.opened), bytes) === this.opened;
  }

  /**
   * Takes an answer that begins as the one before, or a first one. Gives back how many acts stand as they stood. Where
   * it is stopped, the acts up to there stand, until another answer is taken.
   */
  async take(bytes, stop = stopping) {
    const kept = countUpTo(this.actEnds, this.bytes === bytes ? bytes.length : sameBytes(this.bytes, bytes));
    this.course?.cutTo(kept);
    this.actEnds.length = kept;
    this.bytes = bytes;
    this.end = null;
    await this.read(this.actEnds.at(-1) ?? this.opened, stop);
    if (this.course === null && this.head !== null) this.open(bytes.length);
    return kept;
  }

  async read(start, stop) {
    const text = new TextDecoder();
    let begin = performance.now();
    for (let place = start; place < this.bytes.length;) {
      if (performance.now() - begin > MOST_MILLISECONDS) {
        await pause();
        if (stop.isWanted) throw new Interruption();
        begin = performance.now();
      }
      const newline = this.bytes.indexOf(NEWLINE, place);
      // A line that was cut off tells nothing.
      if (newline < 0) break;
      this.follow(JSON.parse(text.decode(this.bytes.subarray(place, newline))), place, newline + 1);
      place = newline + 1;
    }
  }

  follow(line, start, behind) {
    if ("watch" in line) this.head = line;
    else if (line.do === "place") this.placed.push(line);
    else if ("end" in line) this.end = line;
    else if ("reply" in line) {
      if (this.course === null) this.open(start);
      this.course.follow(line);
      this.actEnds.push(behind);
    }
  }

  open(place) {
    this.opened = place;
    this.course = new Course(this.head, openingOf(this.head, this.placed));
  }
}

/** How many bytes two texts have in common from their beginning on. */
function sameBytes(one, two) {
  const most = Math.min(one.length, two.length);
  let place = 0;
  while (place < most && one[place] === two[place]) place++;
  return place;
}

/** The machine before the first act, by the lines that place the image's tasks. */
function openingOf(head, placed) {
  const lists = (item) => Array.from({length: head.tiles}, item);
  const opening = {at: 0, events: 0, commits: 0, useful: 0, wasted: 0, emitted: 0, dispatches: 0, journal: [],
    memory: [], stores: [], makers: [], tasks: [], queues: lists(() => []),
    cores: lists(() => Array(head.cores).fill(null)), finished: lists(() => []), blocks: lists(() => [])};
  for (const line of placed) {
    const task = {id: line.new ?? null, tile: line.tile, state: "new" in line ? "idle" : "spilled", core: null,
      name: line.name, creator: null, index: line.name[1], ts: line.ts, args: line.args, entry: line.entry,
      pc: line.entry, number: null, work: 0, made: 0, children: [], dispatched: Infinity, subdomain: null,
      domain: {maker: [], kinds: [head.root === "ordered"]}};
    if (task.id === null) {
      opening.blocks[line.tile].push(task);
    } else {
      opening.tasks.push(task);
      opening.queues[line.tile].push(task.id);
    }
  }
  return opening;
}
