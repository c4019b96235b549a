// ---- the picture of a run: a row per core, attempts as bars, arrows to what an access aborts, commits at the bottom

const {gutter: GUTTER, axis: AXIS, track: TRACK, few: FEW, signs: SIGNS, "most across": MOST_ACROSS} = look;
// Above so many arrows none has a head and a label.
const MOST_HEADS = 260;
// Above so many attempts in view no lines to children are drawn.
const MOST_CHILDREN = 1500;

const INKS = ["paper", "ink", "quiet", "rule", "band", "own", "back", "running", "run-line", "done", "done-line",
  "waits", "back-tint", "trapped", "veil"];

/** Colours of the page by their names, as the theme has them. */
class Ink {
  constructor() {
    const style = getComputedStyle(document.documentElement);
    for (const name of INKS) {
      this[name.replace(/-(\w)/g, (_, sign) => sign.toUpperCase())] = style.getPropertyValue(`--${name}`).trim();
    }
    this.patterns = new Map();
  }

  /** Slanted lines on a ground. */
  hatched(context, scale) {
    if (this.pattern?.scale === scale) return this.pattern.made;
    const size = 6 * scale, tile = new OffscreenCanvas(size, size), drawn = tile.getContext("2d");
    drawn.fillStyle = this.backTint;
    drawn.fillRect(0, 0, size, size);
    drawn.strokeStyle = this.back;
    drawn.globalAlpha = 0.5;
    drawn.lineWidth = 1.1 * scale;
    drawn.beginPath();
    for (const place of [-1, 0, 1]) {
      drawn.moveTo(place * size - scale, size + scale);
      drawn.lineTo(place * size + size + scale, -scale);
    }
    drawn.stroke();
    const made = context.createPattern(tile, "repeat");
    made.setTransform(new DOMMatrix().scale(1 / scale));
    this.pattern = {scale, made};
    return made;
  }
}

/** How high rows are: the fewer cores, the higher. */
function rowsFor(count, waiting) {
  const [, run, gap, lane, most] = look.rows.find(([cores]) => count <= cores);
  const lanes = Math.min(most, Math.max(1, waiting));
  return {run, gap, lane, lanes, pitch: run + gap + lane * lanes};
}

// Whether what comes after the act that is shown stays hidden, because it would answer a question.
let isSecret = () => false;

/** Draws attempts, arrows and commits on a canvas, and the cursor on another one above it. */
class Picture {
  drawBase() {
    const {base, ink, width, height} = this;
    this.left = this.isFitted ? 0 : this.view.scrollLeft;
    this.from = this.left / this.across;
    this.to = (this.left + this.wide) / this.across;
    base.setTransform(this.scale, 0, 0, this.scale, 0, 0);
    base.fillStyle = ink.paper;
    base.fillRect(0, 0, width, height);
    this.drawGround(base);
    base.save();
    base.beginPath();
    base.rect(GUTTER - 6, 0, this.wide + 6, height);
    base.clip();
    this.drawAxis(base);
    const seen = this.seen(), isNear = this.stepPixels() >= FEW;
    if (isNear && seen.length < MOST_CHILDREN) this.drawChildren(base, seen);
    this.drawBars(base, seen);
    this.drawTrack(base);
    this.drawArrows(base);
    base.restore();
    this.drawNames(base);
  }

  /** How wide an act is, on the mean. */
  stepPixels() { return this.last * this.across / Math.max(1, this.xs.length - 1); }

  seen() {
    const {from, to, xs} = this, last = this.course.length;
    return this.history.attempts.filter((it) => xs[Math.max(0, it.start - 1)] <= to && xs[it.end ?? last] >= from);
  }

  drawGround(context) {
    const {ink, rows, count} = this, {cores} = this.course.head;
    for (let row = 0; row < count; row++) {
      if (Math.floor(row / cores) % 2) continue;
      context.fillStyle = ink.band;
      context.fillRect(0, this.y(row) - rows.gap / 2, this.width, rows.pitch);
    }
    context.fillStyle = ink.rule;
    context.fillRect(0, this.trackAt - 0.5, this.width, 1);
    context.fillRect(0, AXIS - 0.5, this.width, 1);
  }

  drawAxis(context) {
    const {ink, across} = this, wanted = 56 / across;
    const power = 10 ** Math.floor(Math.log10(Math.max(1, wanted)));
    const step = Math.max(1, [1, 2, 5, 10].map((it) => it * power).find((it) => it >= wanted));
    context.font = "10.5px system-ui, sans-serif";
    context.textAlign = "center";
    context.textBaseline = "alphabetic";
    for (let number = Math.ceil(this.from / step) * step; number <= this.to && number <= this.last; number += step) {
      const x = Math.round(GUTTER + number * across - this.left);
      context.fillStyle = ink.rule;
      context.globalAlpha = 0.55;
      context.fillRect(x, AXIS, 1, this.height - AXIS);
      context.globalAlpha = 1;
      context.fillStyle = ink.quiet;
      if (number > 0) context.fillText(this.numberTold(number), x, 14);
    }
  }

  /** A round, or the number of an act as its line tells it. */
  numberTold(number) {
    if (this.kind === "rounds") return grouped(this.firstRound + number);
    return grouped(number ? this.course.acts[number - 1]?.at ?? number : 0);
  }

  drawNames(context) {
    const {ink, rows} = this, {cores, tiles} = this.course.head;
    context.fillStyle = ink.paper;
    context.globalAlpha = 0.92;
    context.fillRect(0, 0, GUTTER - 6, this.height);
    context.globalAlpha = 1;
    context.textAlign = "left";
    context.textBaseline = "middle";
    context.fillStyle = ink.quiet;
    context.font = "10.5px system-ui, sans-serif";
    context.fillText(this.kind === "rounds" ? "round" : "act", 0, 11);
    context.fillText("commits", 0, this.trackAt + TRACK / 2);
    for (let tile = 0; tile < tiles; tile++) {
      const y = this.y(tile * cores) + rows.run / 2;
      context.font = "600 11px system-ui, sans-serif";
      context.fillStyle = ink.ink;
      if (rows.pitch * cores >= 12) context.fillText(`tile ${tile}`, 0, y);
      context.font = "10.5px system-ui, sans-serif";
      context.fillStyle = ink.quiet;
      for (let core = 0; core < cores && cores > 1 && rows.pitch >= 12; core++)
        context.fillText(`c${core}`, 38, this.y(tile * cores + core) + rows.run / 2);
    }
    for (let tile = 0; tile < tiles && cores === 1 && rows.run >= 28; tile++)
      context.fillText("core 0", 0, this.y(tile) + rows.run / 2 + 14);
  }

  /** A thin line from where a child was made to where it is dispatched first. */
  drawChildren(context, seen) {
    const {ink, rows} = this;
    context.strokeStyle = ink.quiet;
    context.lineWidth = 1;
    context.globalAlpha = 0.55;
    context.beginPath();
    for (const {arrival, start, row, tried} of seen) {
      if (!arrival.parent || tried > 1) continue;
      const x1 = this.middle(arrival.start), y1 = this.y(arrival.parent.row) + rows.run;
      const x2 = this.x(Math.max(0, start - 1)), y2 = this.y(row) + rows.run / 2;
      const bend = Math.max(6, Math.min(40, (x2 - x1) / 2));
      context.moveTo(x1, arrival.parent.row > row ? y1 - rows.run : y1);
      context.bezierCurveTo(x1, (y1 + y2) / 2, x2 - bend, y2, x2, y2);
    }
    context.stroke();
    context.globalAlpha = 1;
  }

  middle(place) { return (this.x(Math.max(0, place - 1)) + this.x(place)) / 2; }

  drawBars(context, seen) {
    const painted = new Map();
    for (const attempt of seen) {
      const x1 = this.x(Math.max(0, attempt.start - 1)), stop = attempt.finish ?? attempt.end ?? this.course.length;
      const x2 = Math.max(x1 + 1, this.x(stop));
      // Where bars are narrower than a pixel, one of a kind stands for all that share it.
      if (x2 - x1 < 2) {
        const key = attempt.row * 4 + (attempt.fate === "aborted" ? 1 : 0), pixel = Math.floor(x1);
        if (painted.get(key) === pixel) continue;
        painted.set(key, pixel);
      }
      this.drawBar(context, attempt, x1, x2, attempt.fate);
      if (attempt.finish !== null) this.drawWait(context, attempt, attempt.end ?? this.course.length, attempt.fate);
    }
  }

  /** What an attempt without a fate does at the act that is shown. */
  stateOf({trap, finish}) {
    const {shownPlace: place} = this;
    return trap !== null && trap <= place ? "trapped" : finish !== null && finish <= place ? "waits" : "runs";
  }

  drawBar(context, attempt, x1, x2, fate, {isBare = false, label = attempt.name ?? attempt.label} = {}) {
    const {ink, rows} = this, wide = x2 - x1, y = this.y(attempt.row), isBack = fate === "aborted";
    const gap = wide > 8 ? 1 : wide > 3 ? 0.5 : 0;
    const high = isBack && wide < 6 ? rows.run * 0.5 : rows.run, top = y + rows.run - high;
    const [left, across] = [x1 + gap, wide - 2 * gap];
    if (wide < 4) {
      context.fillStyle = isBack ? ink.back : fate === "committed" ? ink.doneLine : ink.runLine;
      context.fillRect(left, top, across, high);
      return;
    }
    context.beginPath();
    context.roundRect(left, top, across, high, Math.min(4, across / 3));
    context.fillStyle = isBack ? ink.hatched(context, this.scale) : fate === "committed" ? ink.done
      : this.stateOf(attempt) === "trapped" ? ink.trapped : ink.running;
    context.fill();
    context.strokeStyle = isBack ? ink.back : fate === "committed" ? ink.doneLine : ink.runLine;
    context.lineWidth = 1.2;
    if (isBack) context.setLineDash([4, 2.5]);
    context.stroke();
    context.setLineDash([]);
    if (wide > 14 && !isBare && this.rows.run >= 9) this.drawWithin(context, attempt, {left, top, across, fate, label});
  }

  /** The text in a bar: the task, where it begins, how it ended, and what its legs asked for. */
  drawWithin(context, attempt, {left, top, across, fate, label}) {
    const {ink, rows} = this, isTall = rows.run >= 28;
    const sign = SIGNS[fate ?? this.stateOf(attempt)];
    const y = isTall ? top + 11.5 : top + rows.run / 2 + 0.5;
    context.textBaseline = "middle";
    context.textAlign = "right";
    context.font = "700 11px system-ui, sans-serif";
    const signAt = sign && across > (fate === "aborted" ? 20 : 34) ? 13 : 0;
    if (signAt && fate === "aborted") this.plate(context, left + across - 15, y, 13);
    context.fillStyle = fate === "aborted" ? ink.back : fate === "committed" ? ink.doneLine : ink.runLine;
    if (signAt) context.fillText(sign, left + across - 4, y);
    const visible = Math.max(left, GUTTER) + 5, room = left + across - visible - signAt;
    context.textAlign = "left";
    context.fillStyle = ink.ink;
    const size = rows.run >= 13 ? 11 : 9;
    context.font = `600 ${size}px system-ui, sans-serif`;
    const own = label.length * size * 0.58;
    let free = left;
    if (room >= own) {
      free = visible + own;
      const [words] = labels.taskWords(attempt.entry, attempt.args).split("+"), all = words.length * 5.6 + 5;
      if (fate === "aborted") this.plate(context, visible - 2, y, own + 4 + (room >= own + all ? all : 0));
      context.fillStyle = ink.ink;
      context.fillText(label, visible, y);
      if (room >= own + all && isTall || room >= own + all + 30) {
        context.font = `${size}px system-ui, sans-serif`;
        context.fillStyle = ink.quiet;
        context.fillText(words, visible + own + 5, y);
        free += all;
      }
    }
    this.drawMarks(context, attempt, {top, fate, isTall, free: isTall ? -Infinity : free,
      end: isTall ? Infinity : left + across - signAt});
  }

  /** A ground below a text on slanted lines. */
  plate(context, left, y, wide) {
    context.fillStyle = this.ink.backTint;
    context.beginPath();
    context.roundRect(left, y - 7.5, wide, 15, 3);
    context.fill();
  }

  /** What legs asked for, where there is room beside the text. */
  drawMarks(context, attempt, {top, fate, isTall, free, end}) {
    const {ink, rows} = this;
    for (const [place, sign] of attempt.marks) {
      if (fate === null && place > this.shownPlace) break;
      const x1 = this.x(place - 1), x2 = this.x(place), x = (x1 + x2) / 2, wide = x2 - x1;
      if (wide < FEW && this.kind === "acts" || x < GUTTER || x > this.width || x < free + 2 || x > end - 2) continue;
      if (isTall && wide >= 30) {
        context.font = "10px system-ui, sans-serif";
        context.textAlign = "center";
        const low = top + rows.run - 9;
        if (fate === "aborted") this.plate(context, x - 15, low, 30);
        context.fillStyle = ink.ink;
        context.fillText(sign, x, low + 0.5);
        continue;
      }
      if (!isTall && (this.kind === "acts" ? wide < 5 : this.across < 9)) continue;
      this.drawSign(context, sign, x, top + rows.run - (isTall ? 6 : 4));
    }
  }

  /** A load as a ring, a store as a disc, a child as a corner down, all else as a bar. */
  drawSign(context, sign, x, y) {
    context.fillStyle = context.strokeStyle = this.ink.quiet;
    context.lineWidth = 1.1;
    context.beginPath();
    if (sign === "child") {
      context.moveTo(x - 2.6, y - 2);
      context.lineTo(x + 2.6, y - 2);
      context.lineTo(x, y + 2.4);
      context.closePath();
    } else if (sign === "load" || sign === "store") context.arc(x, y, 2, 0, 7);
    else context.rect(x - 0.7, y - 2.5, 1.4, 5);
    if (sign === "load") context.stroke(); else context.fill();
  }

  drawWait(context, attempt, end, fate) {
    const {ink, rows} = this, x1 = this.x(attempt.finish), x2 = Math.max(x1 + 1, this.x(end)), y = this.laneY(attempt);
    const high = Math.max(2, rows.lane - 2), isBack = fate === "aborted";
    context.fillStyle = isBack ? ink.back : ink.waits;
    if (isBack && x2 - x1 > 6) {
      for (let x = x1; x < x2; x += 6) context.fillRect(x, y, Math.min(4, x2 - x), high);
    } else context.fillRect(x1, y, x2 - x1, high);
    if (this.across * (this.kind === "rounds" ? 1 : 2) < 8) return;
    context.font = "700 10px system-ui, sans-serif";
    context.textAlign = "center";
    context.textBaseline = "middle";
    if (isBack) {
      context.fillStyle = ink.back;
      context.fillText(SIGNS.aborted, x2 - 2, y + high / 2 - 1);
    }
  }

  /** Tasks that were discarded before they were dispatched: a dotted line below the first core of their tile. Before
      the act that discards such a task it is one that waits. */
  drawStays(context, place) {
    const {from, to, xs} = this;
    if (this.stepPixels() < FEW) return;
    context.lineWidth = 1;
    for (const stay of this.history.stays) {
      if (xs[stay.start] > to || xs[stay.end] < from || isSecret() && stay.start > place) continue;
      this.drawStay(context, stay, stay.start <= place && place < stay.end ? this.x(place) : null);
    }
  }

  drawStay(context, {tile, start, end, label}, until) {
    const {ink, rows} = this, y = this.y(tile * this.course.head.cores) + rows.run + rows.lane / 2 + 1;
    const x1 = this.middle(start), x2 = until ?? this.middle(end);
    context.strokeStyle = context.fillStyle = until === null ? ink.back : ink.quiet;
    context.setLineDash([1.5, 2.5]);
    context.beginPath();
    context.moveTo(x1, y - rows.lane / 2);
    context.lineTo(x1, y);
    context.lineTo(until ?? x2 - 4, y);
    context.stroke();
    context.setLineDash([]);
    context.textAlign = "center";
    context.textBaseline = "middle";
    context.font = "700 10px system-ui, sans-serif";
    if (until === null) context.fillText(SIGNS.aborted, x2, y + 0.5);
    if (rows.lane < 6 || x2 - x1 <= 60) return;
    context.font = "10px system-ui, sans-serif";
    context.fillText(label, x1 + label.length * 3 + 4, y + 6);
  }

  drawTrack(context) {
    const {ink, from, to, xs, rows} = this, y = this.trackAt + TRACK / 2;
    let free = -Infinity, last = -1;
    const shown = this.history.commits.filter(({place}) => xs[place] >= from && xs[place - 1] <= to);
    for (const {place, attempt, turn, name} of shown) {
      const x = this.middle(place), pixel = Math.round(x);
      if (shown.length < 200) {
        const top = attempt.finish === null ? this.y(attempt.row) + rows.run : this.laneY(attempt);
        context.strokeStyle = ink.doneLine;
        context.globalAlpha = 0.45;
        context.lineWidth = 1;
        context.setLineDash([1, 3]);
        context.beginPath();
        context.moveTo(x, top);
        context.lineTo(x, this.trackAt);
        context.stroke();
        context.setLineDash([]);
        context.globalAlpha = 1;
      }
      if (pixel === last) continue;
      last = pixel;
      context.fillStyle = ink.doneLine;
      context.fillRect(pixel - 0.5, this.trackAt, 1.5, 6);
      const text = `${turn}`, long = `${SIGNS.committed} ${turn}: ${name}`, wide = text.length * 6.4 + 4,
          all = long.length * 5.6 + 8;
      context.font = "10.5px system-ui, sans-serif";
      context.textBaseline = "middle";
      context.textAlign = "center";
      const isLong = x - all / 2 > free && this.roomAfter(shown, place) > all;
      const own = isLong ? all : wide;
      if ((x + own / 2 > this.width - 2 ? x - own - 4 : x - own / 2) > free) {
        context.fillStyle = ink.doneLine;
        const isLast = x + own / 2 > this.width - 2;
        context.fillText(isLong ? long : text, isLast ? x - own / 2 - 4 : x, y + 3);
        free = x + own / 2;
      }
    }
  }

  roomAfter(shown, place) {
    if (shown.length > 60) return 0;
    const following = shown[shown.findIndex((it) => it.place === place) + 1];
    return following ? this.middle(following.place) - this.middle(place) : Infinity;
  }

  drawArrows(context) {
    const {from, to, xs} = this;
    const shown = this.history.arrows.filter(({place}) => xs[place] >= from && xs[place - 1] <= to);
    const isFar = shown.length > MOST_HEADS;
    let free = -Infinity;
    for (const arrow of shown) free = this.drawArrow(context, arrow, {isFar, free});
  }

  /** From the access to each victim: a solid line to what conflicts with it, a dashed one to what is aborted along.
      Returns where the next label may begin. */
  drawArrow(context, arrow, {isFar = false, free = -Infinity, isNow = false} = {}) {
    const {ink, rows} = this, x = this.middle(arrow.place), own = arrow.from?.row ?? null;
    if (own === null) return free;
    const start = this.y(own) + rows.run / 2;
    const ends = arrow.victims.map((victim) => ({victim, isStay: !victim.attempt,
      row: victim.attempt?.row ?? victim.tile * this.course.head.cores}));
    context.strokeStyle = context.fillStyle = ink.back;
    context.globalAlpha = isFar ? 0.4 : isNow ? 1 : 0.8;
    context.lineWidth = isNow ? 2 : isFar ? 0.7 : 1.3;
    // A task that was never dispatched needs a line of its own only where none goes to an attempt in its row.
    const isDrawn = ({row, isStay}) => (isStay ? !ends.some((it) => !it.isStay && it.row === row) : row !== own);
    for (const end of ends.filter(isDrawn)) this.drawShaft(context, {x, start, own, isFar, isNow}, end);
    if (!isFar) {
      context.beginPath();
      context.arc(x, start, isNow ? 4 : 3, 0, 7);
      context.fill();
    }
    context.globalAlpha = 1;
    const text = this.arrowTold(arrow);
    if (isFar || !text || !isNow && x - 8 < free) return free;
    return this.drawLabel(context, text, x, {isNow, own, met: ends.map(({row}) => row).filter((row) => row !== own)});
  }

  drawShaft(context, {x, start, own, isFar, isNow}, {victim, row, isStay}) {
    const {rows} = this, isDown = row >= own, top = this.y(row);
    const end = isStay ? top + rows.run + (isDown ? rows.lane / 2 - 3 : rows.lane + 1) : top + (isDown ? 0 : rows.run);
    if (!victim.isDirect && !isFar) context.setLineDash([3, 3]);
    context.beginPath();
    context.moveTo(x, start);
    context.lineTo(x, end + (isDown ? -4 : 4));
    context.stroke();
    context.setLineDash([]);
    if (!isFar) this.drawHead(context, x, end, isDown, isNow);
  }

  /** The label of an arrow, between the rows that it joins. Returns where the next one may begin. */
  drawLabel(context, text, x, {isNow, own, met}) {
    const {ink, rows} = this, wide = text.length * (isNow ? 6.3 : 5.5) + (isNow ? 14 : 6);
    const next = met.reduce((best, row) => (Math.abs(row - own) < Math.abs(best - own) ? row : best), met[0] ?? own);
    const between = Math.max(this.y(next), this.y(own)) - rows.gap / 2 - (rows.run >= 28 ? 3 : 0);
    const y = next === own ? this.y(own) - 2 : between, left = x + 6 + wide > this.width ? x - 6 - wide : x + 6;
    context.font = `${isNow ? "600 11px" : "10px"} system-ui, sans-serif`;
    context.fillStyle = isNow ? ink.back : ink.paper;
    context.globalAlpha = isNow ? 1 : 0.85;
    context.beginPath();
    context.roundRect(left, y - (isNow ? 8 : 6), wide, isNow ? 16 : 12, isNow ? 8 : 3);
    context.fill();
    context.globalAlpha = 1;
    context.fillStyle = isNow ? ink.paper : ink.back;
    context.textAlign = "center";
    context.textBaseline = "middle";
    context.fillText(text, left + wide / 2, y + 0.5);
    return x + wide + 12;
  }

  arrowTold({addr, line}) {
    if (addr === null) return line.asks === "end" || line.asks === "enqueue" ? "no room" : "";
    return labels.labelled(addr);
  }

  drawHead(context, x, y, isDown, isNow) {
    const size = isNow ? 5 : 4, way = isDown ? -1 : 1;
    context.beginPath();
    context.moveTo(x, y);
    context.lineTo(x - size, y + way * size * 1.6);
    context.lineTo(x + size, y + way * size * 1.6);
    context.closePath();
    context.fill();
  }

  // ---- the cursor, and what ran at it

  drawTop() {
    const {top, width, height, shownPlace: place} = this;
    top.setTransform(this.scale, 0, 0, this.scale, 0, 0);
    top.clearRect(0, 0, width, height);
    if (place > this.course.length) return;
    const x = this.x(place);
    top.save();
    top.beginPath();
    top.rect(GUTTER - 7, 0, this.wide + 7, height);
    top.clip();
    this.drawStays(top, place);
    this.drawVeil(top, place, x);
    if (place === 0 && (isSecret() || !this.course.length)) this.drawHint(top);
    this.drawAlive(top, place, x);
    this.drawCursor(top, place, x);
    const arrow = this.history.arrows.find((it) => it.place === place);
    if (arrow) this.drawArrow(top, arrow, {isNow: true});
    this.drawNumber(top, place, x);
    top.restore();
  }

  /** What comes after the act is faint; where it would answer a question, it isn't shown. */
  drawVeil(context, place, x) {
    if (x >= this.width || place === this.course.length) return;
    context.fillStyle = isSecret() ? this.ink.paper : this.ink.veil;
    context.fillRect(x + (place ? 0 : 1), AXIS + 1, this.width - x, this.height - AXIS);
  }

  /** Says what an empty picture will show. */
  drawHint(context) {
    const wide = Math.min(this.wide, MOST_ACROSS * 10);
    context.font = "12.5px system-ui, sans-serif";
    context.fillStyle = this.ink.quiet;
    context.textAlign = "center";
    context.textBaseline = "middle";
    context.fillText("Each attempt at a task will be a bar here.", GUTTER + wide / 2,
      (AXIS + this.trackAt) / 2, wide - 24);
  }

  drawCursor(context, place, x) {
    const {ink, height} = this, before = this.x(Math.max(0, place - 1));
    context.fillStyle = ink.own;
    if (x - before > 5) {
      context.globalAlpha = 0.09;
      context.fillRect(before, AXIS, x - before, height - AXIS);
      context.globalAlpha = 1;
    }
    context.fillRect(Math.round(x) - 1, 4, 2, height - 4);
  }

  drawNumber(context, place, x) {
    const {ink, width, history} = this;
    const text = this.kind === "rounds" ? history.rounds[place].toFixed(1) : this.numberTold(place);
    const wide = text.length * 6.6 + 12, left = Math.max(GUTTER - 6, Math.min(x - wide / 2, width - wide));
    context.fillStyle = ink.own;
    context.beginPath();
    context.roundRect(left, 1, wide, 18, 9);
    context.fill();
    context.fillStyle = ink.paper;
    context.font = "600 11px system-ui, sans-serif";
    context.textAlign = "center";
    context.textBaseline = "middle";
    context.fillText(text, left + wide / 2, 10.5);
  }

  /** Attempts whose end comes later run or wait, as far as is known at the act. */
  drawAlive(context, place, x) {
    for (const attempt of this.history.attempts) {
      if (attempt.start > place) break;
      if ((attempt.end ?? Infinity) <= place || attempt.fate === null) continue;
      this.drawOneAlive(context, attempt, place, x);
      if (attempt.finish !== null && attempt.finish < place && attempt.fate === "aborted") {
        context.fillStyle = this.ink.waits;
        const from = this.x(attempt.finish);
        context.fillRect(from, this.laneY(attempt), x - from, Math.max(2, this.rows.lane - 2));
      }
    }
  }

  /** A bar up to the act has the name that the task has then; after the act is a bar without a text. */
  drawOneAlive(context, attempt, place, x) {
    const x1 = this.x(Math.max(0, attempt.start - 1)), stop = Math.min(place, attempt.finish ?? place);
    const x2 = Math.max(x1 + 1, this.x(stop)), task = lastShown?.machine.tasks.get(attempt.id);
    const whole = this.x(attempt.finish ?? attempt.end), top = this.y(attempt.row) - 1, high = this.rows.run + 2;
    const cover = (from, to) => {
      context.fillStyle = this.ink.paper;
      context.fillRect(from, top, to - from, high);
    };
    if ((attempt.finish === null || attempt.finish > place) && !isSecret()) {
      cover(x, whole + 1);
      context.save();
      context.beginPath();
      context.rect(x, top, whole + 1 - x, high);
      context.clip();
      this.drawBar(context, attempt, x1, whole, attempt.fate, {isBare: true});
      context.fillStyle = this.ink.veil;
      context.fillRect(x, AXIS, whole + 1 - x, this.height);
      context.restore();
    }
    cover(x1, x2);
    this.drawBar(context, attempt, x1, x2, null, {label: task ? lastShown.machine.label(task) : attempt.label});
  }
}
