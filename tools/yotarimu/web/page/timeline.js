// ---- the timeline: the picture of a run as a slider, with zoom, pointing and words

class Timeline extends Picture {
  constructor() {
    super();
    this.view = at("lanes");
    this.base = at("lanes-base").getContext("2d", {alpha: false});
    this.top = at("lanes-top").getContext("2d");
    Object.assign(this, {across: 0, isFitted: true, xs: [0], shownPlace: 0, waiting: 0, kind: "acts"});
    // How long pictures took to draw, for whoever measures: the last one, and the slowest.
    Object.assign(this, {drawn: 0, slowest: 0});
    this.ink = new Ink();
    this.listen();
  }

  listen() {
    matchMedia("(prefers-color-scheme: dark)").addEventListener("change", () => {
      this.ink = new Ink();
      this.ask(true);
    });
    // It comes when this frame's requests are over: what is drawn later would be seen too late.
    new ResizeObserver(() => {
      this.resize();
      this.draw();
    }).observe(this.view);
    this.view.addEventListener("scroll", () => this.ask(true), {passive: true});
    this.view.addEventListener("wheel", (event) => {
      if (!event.ctrlKey && !event.metaKey) return;
      event.preventDefault();
      this.zoom(Math.exp(-event.deltaY / 300), event.offsetX);
    }, {passive: false});
    let isHeld = false;
    this.view.addEventListener("pointerdown", (event) => {
      if (!course || event.button || event.offsetY > this.height || event.pointerType === "touch") return;
      isHeld = true;
      this.view.setPointerCapture(event.pointerId);
      this.seek(event);
    });
    this.view.addEventListener("pointermove", (event) => (isHeld ? this.seek(event) : this.hover(event)));
    for (const name of ["pointerup", "pointercancel"]) this.view.addEventListener(name, () => { isHeld = false; });
    this.view.addEventListener("click", (event) => { if (event.pointerType === "touch") this.seek(event); });
    this.view.addEventListener("pointerleave", () => { at("tip").hidden = true; });
  }

  // ---- what is shown

  open(shown) {
    this.course = shown;
    this.history = shown.history;
    this.kind = shown.head.course === "lockstep" ? this.wanted ?? "rounds" : "acts";
    at("by").hidden = shown.head.course !== "lockstep";
    this.measure();
    if (this.isFitted || !this.across) this.fit();
    else this.resize();
  }

  measure() {
    const {head} = this.course, {numbers, rounds} = this.history;
    // A page that begins within a run begins with the round in which it does.
    this.firstRound = Math.floor(rounds[0]);
    this.xs = this.kind === "rounds" ? rounds.map((it) => it - this.firstRound) : numbers.map((_, place) => place);
    this.last = Math.max(1, this.xs.at(-1));
    this.count = head.tiles * head.cores;
    this.rows = rowsFor(this.count, this.history.lanes);
    this.trackAt = AXIS + this.rows.gap / 2 + this.count * this.rows.pitch;
    this.height = this.trackAt + TRACK;
  }

  get wide() { return this.width - GUTTER; }

  fit() {
    this.isFitted = true;
    this.width = this.view.clientWidth;
    this.across = Math.min(MOST_ACROSS * this.unit, (this.wide - 14) / this.last);
    this.resize();
  }

  /** Pixels that one act may take at most, in a round many. */
  get unit() { return this.kind === "rounds" ? 4 : 1; }

  zoom(by, near = GUTTER + this.wide / 2) {
    const least = Math.min(MOST_ACROSS * this.unit, (this.wide - 14) / this.last);
    const point = (near - GUTTER + this.view.scrollLeft) / this.across;
    this.across = Math.max(least, Math.min(MOST_ACROSS * this.unit, this.across * by));
    this.isFitted = this.across === least;
    this.resize();
    this.view.scrollLeft = point * this.across - (near - GUTTER);
    this.ask(true);
  }

  resize() {
    if (!this.course) return;
    this.width = this.view.clientWidth;
    if (this.isFitted) this.across = Math.min(MOST_ACROSS * this.unit, (this.wide - 14) / this.last);
    this.scale = devicePixelRatio || 1;
    for (const context of [this.base, this.top]) {
      const {canvas} = context;
      [canvas.width, canvas.height] = [this.width * this.scale, this.height * this.scale];
      [canvas.style.width, canvas.style.height] = [`${this.width}px`, `${this.height}px`];
    }
    const whole = Math.max(this.width, GUTTER + this.last * this.across + 14);
    at("stretch").style.width = `${this.isFitted ? this.width : whole}px`;
    at("stretch").style.height = `${this.height}px`;
    this.view.style.height = `${Math.min(this.height, innerHeight * 0.6) + (this.isFitted ? 0 : 16)}px`;
    at("zoom-out").disabled = at("zoom-fit").disabled = this.isFitted;
    this.ask(true);
  }

  ask(isWhole = false) {
    this.isWhole ||= isWhole;
    if (this.waiting || !this.course) return;
    this.waiting = requestAnimationFrame(() => {
      this.waiting = 0;
      this.draw();
    });
  }

  draw() {
    if (!this.course) return;
    const begin = performance.now();
    if (this.isWhole) this.drawBase();
    this.isWhole = false;
    this.drawTop();
    this.drawn = performance.now() - begin;
    this.slowest = Math.max(this.slowest, this.drawn);
  }

  /** Shows an act: the cursor, and what ran then. */
  show(place) {
    this.shownPlace = place;
    const x = this.xs[place] * this.across, left = this.view.scrollLeft, wide = this.wide;
    if (!this.isFitted && (x < left + 20 || x > left + wide - 20)) this.view.scrollLeft = x - wide * 0.35;
    this.ask();
  }

  x(place) { return GUTTER + this.xs[place] * this.across - this.left; }

  y(row) { return AXIS + this.rows.gap / 2 + row * this.rows.pitch; }

  laneY(attempt) {
    const {run, lane, lanes} = this.rows;
    return this.y(attempt.row) + run + 1 + lane * Math.min(attempt.lane, lanes - 1);
  }

  // ---- pointing

  placeAt(offset) {
    const x = (offset - GUTTER + this.left) / this.across;
    let low = 0, high = this.xs.length - 1;
    while (low < high) {
      const middle = (low + high) >> 1;
      if (this.xs[middle] < x) low = middle + 1; else high = middle;
    }
    return low;
  }

  offsets(event) {
    const box = this.view.getBoundingClientRect();
    return [event.clientX - box.left, event.clientY - box.top + this.view.scrollTop];
  }

  seek(event) {
    player.stop();
    const [x] = this.offsets(event);
    this.goSoon(x < GUTTER ? 0 : this.placeAt(x));
  }

  /** The cursor follows at once, and all else as soon as the browser comes to it: tables take longer than a picture. */
  goSoon(place) {
    this.soon = place;
    if (performance.now() - (this.wentAt ?? 0) > 2 * (this.took ?? 0) + 40 || this.took < 8) return this.goNow();
    this.show(place);
    this.later ??= setTimeout(() => this.goNow(), this.took + 40);
    return undefined;
  }

  goNow() {
    clearTimeout(this.later);
    this.later = undefined;
    const begin = performance.now();
    go(this.soon);
    this.wentAt = performance.now();
    this.took = this.wentAt - begin;
  }

  hover(event) {
    if (!this.course || event.pointerType === "touch") return;
    const [x, y] = this.offsets(event), found = this.attemptAt(x, y), tip = at("tip");
    tip.hidden = !found;
    if (!found) return;
    tip.textContent = this.attemptTold(found);
    const wide = Math.min(300, innerWidth - 20);
    tip.style.left = `${Math.max(8, Math.min(event.clientX + 12, innerWidth - wide - 12))}px`;
    tip.style.top = `${event.clientY + 16}px`;
  }

  attemptAt(x, y) {
    if (x < GUTTER) return null;
    const row = Math.floor((y - AXIS) / this.rows.pitch), spot = (x - GUTTER + this.left) / this.across, {xs} = this;
    const isWait = (y - AXIS - this.rows.gap / 2) % this.rows.pitch > this.rows.run, last = this.course.length;
    return this.history.attempts.findLast((it) => it.row === row && (isWait
      ? it.finish !== null && xs[it.finish] <= spot && spot <= xs[it.end ?? last]
      : xs[Math.max(0, it.start - 1)] <= spot && spot <= xs[it.finish ?? it.end ?? last])) ?? null;
  }

  // ---- words

  attemptTold(it) {
    const {acts} = this.course, number = (place) => grouped(place ? acts[place - 1].at : 0);
    const named = it.name && it.name !== it.label ? `${it.label}, later ${it.name},` : it.label;
    const many = it.tried > 1 ? `, attempt ${it.tried}` : "";
    const task = `${named} ${labels.taskWords(it.entry, it.args)}, timestamp ${it.ts}`;
    const parts = [`${task}, tile ${it.tile}, core ${it.core}${many}: dispatched at act ${number(it.start)}`];
    if (it.finish !== null) parts.push(`finished at ${number(it.finish)}`);
    if (it.fate === "committed") parts.push(`committed at ${number(it.end)} as number ${it.turn}`);
    if (it.fate === "aborted") {
      const {from} = it.arrow, text = this.arrowTold(it.arrow);
      parts.push(`aborted at act ${number(it.end)} after ${plural(it.work, "instruction")}`
        + (from ? ` by ${from.name ?? from.label}${text ? ` (${it.arrow.line.asks} ${text})` : ""}` : ""));
    }
    if (it.trap) parts.push(`trapped at ${number(it.trap)}`);
    if (it.fate === null && !it.trap) parts.push(it.finish === null ? "runs on" : "waits");
    return `${parts.join(", ")}.`;
  }

  /** The picture in words, a line for each attempt in the order of their dispatches. */
  told() {
    const {attempts, arrows, commits} = this.history, back = attempts.filter((it) => it.fate === "aborted").length;
    const most = 300, near = Math.max(0, attempts.findIndex((it) => (it.end ?? Infinity) >= this.shownPlace) - 20);
    const first = attempts.length > most ? near : 0, list = attempts.slice(first, first + most);
    const head = `${plural(this.course.length, "act")} on ${plural(this.count, "core")}: `
      + `${plural(attempts.length, "attempt")}, ${commits.length} committed, `
      + `${back} aborted by ${plural(arrows.length, "act")}.`;
    const some = attempts.length > list.length
      ? ` Attempts ${grouped(first + 1)} to ${grouped(first + list.length)}:` : "";
    return {head: head + some, list: list.map((it) => this.attemptTold(it))};
  }
}
