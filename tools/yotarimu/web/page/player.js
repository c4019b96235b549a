// ---- playing: goes from act to act by itself, so many acts per second

const player = {
  frame: 0, isOn: false, speed: 2,
  toggle() { if (this.isOn) this.stop(); else this.start(); },
  start() {
    if (!course?.length) return;
    if (current >= course.length) go(0);
    this.isOn = true;
    this.last = performance.now();
    this.owed = 0;
    this.shown();
    this.frame = requestAnimationFrame((now) => this.tick(now));
  },
  stop() {
    if (!this.isOn) return;
    this.isOn = false;
    cancelAnimationFrame(this.frame);
    this.shown();
  },
  tick(now) {
    if (!this.isOn) return;
    this.owed += (now - this.last) / 1000 * this.speed;
    this.last = now;
    const whole = Math.floor(this.owed);
    if (whole) {
      this.owed -= whole;
      go(current + whole);
    }
    if (current >= course.length) this.stop();
    else this.frame = requestAnimationFrame((time) => this.tick(time));
  },
  shown() {
    const [sign, word] = this.isOn ? ["❚❚", "Pause"] : ["▶", "Play"];
    at("play").innerHTML = `<span aria-hidden="true">${sign}</span> ${word}`;
  },
};

let timeline = null;

function showTold() {
  if (!at("told-box").open || !timeline?.course) return;
  const {head, list} = timeline.told();
  show(at("told"), `<p>${escaped(head)}</p><ol>${list.map((text) => `<li>${escaped(text)}</li>`).join("")}</ol>`);
}

function listenToTimeline() {
  timeline = new Timeline();
  at("play").addEventListener("click", () => player.toggle());
  at("speed").addEventListener("change", () => { player.speed = Number(at("speed").value); });
  at("zoom-in").addEventListener("click", () => timeline.zoom(1.6, timeline.x(current)));
  at("zoom-out").addEventListener("click", () => timeline.zoom(1 / 1.6, timeline.x(current)));
  at("zoom-fit").addEventListener("click", () => timeline.fit());
  at("by").addEventListener("change", () => {
    timeline.wanted = at("by").value;
    timeline.isFitted = true;
    timeline.open(timeline.course);
    timeline.show(current);
  });
  at("told-box").addEventListener("toggle", showTold);
}
