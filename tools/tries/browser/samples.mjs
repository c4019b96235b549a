// ---- programs that run long, and what the page is asked while it shows them

// Tasks of which each makes the next one, without an end; those of the second one execute much before, and those of the
// third one run far ahead of a slow one, so that they have no names.
const END = " li a7, 0\n ecall\n", NEXT = `again: la a0, again\n li a1, 1\n li a7, 1\n ecall\n${END}`;
const SLOWLY = " li t0, 21000\n1: addi t0, t0, -1\n bnez t0, 1b\n";
export const ENDLESS = `# image: task again\n${NEXT}`;
export const LOOPING = ENDLESS.replace("again: ", `again:${SLOWLY}`);
export const AHEAD = `# image: root ordered\n# image: task slow\n# image: task again ts 1\nslow:${SLOWLY}${END}${NEXT}`;
export const opened = (source, options = {}, kind = "least") => `perform(() => openSources([{name: "long.s",
  text: ${JSON.stringify(source)}}], {options: ${JSON.stringify(options)},
  course: {kind: "${kind}", rounds: "9", seed: "1"}}))`;

// While lines are read a timer of the page is to run at least once for so many acts, and once in so many milliseconds.
// Slices of 8 milliseconds have some 800 acts on a machine that read 90 in a millisecond; a busy one has fewer in each.
export const MOST_ACTS_BETWEEN = 2500, MOST_STILL = 5000;
export const STOPPING = `
  const beats = {count: 0, most: 0, last: 0};
  function beginBeats() {
    setInterval(() => {
      const now = performance.now(), isReading = !machines.waiting.size && toldRun.course !== course;
      if (isReading && beats.last)
        Object.assign(beats, {count: beats.count + 1, most: Math.max(beats.most, now - beats.last)});
      beats.last = now;
    }, 5);
  }
  function beatsSoFar() { return beats; }
  function keptNow() {
    return JSON.stringify([subject.name, script.length, course.length, current, at("said").textContent,
      toldRun.bytes.length, toldRun.end, toldRun.course === course, at("call").textContent]);
  }
  async function stopOnce(begin, condition) {
    const before = keptNow();
    let isOver = false, isStopped = false;
    const done = begin().then(() => { isOver = true; });
    while (!isOver && !isStopped) {
      await new Promise((resolve) => setTimeout(resolve, 2));
      isStopped = !at("stop").hidden && condition() && !isOver;
    }
    at("stop").click();
    await done;
    return {isStopped, isSame: keptNow() === before, message: at("message").textContent, after: keptNow(), before};
  }
  0`;

// At which acts a cell or a lane of the tiles has something that is wider than it is.
export const COVERING = `Array.from({length: course.length + 1}, (_, place) => place).filter((place) => {
  go(place);
  return [...at("tiles").querySelectorAll("td, th, ul")].some((it) => it.scrollWidth > it.clientWidth + 1);
})`;

// At which acts, forwards and back, what steps have changed one by one differs from what is drawn anew.
export const REDRAWN = `(() => {
  const forwards = Array.from({length: course.length + 1}, (_, place) => place);
  const drawn = (place) => {
    go(place);
    showLate();
    return ["tiles", "journal", "memory", "listing"].map((id) => at(id).innerHTML).join();
  };
  const places = [...forwards, ...[...forwards].reverse()], stepped = places.map(drawn);
  if (places.length < 10) return [course.length];
  return places.filter((place, number) => {
    build(subject.listing);
    return drawn(place) !== stepped[number];
  });
})()`;
