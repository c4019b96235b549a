// ---- looks at the timeline: pictures, pointing, playing, zoom, rounds

import {Driver, WIDE, expect} from "./driver.mjs";

const LAPTOP = {width: 1280, height: 720};
const CONFLICT = "#example=schedules/conflict&acts=steps";
// A run of the conflict whose last act was made.
const PLAYED = "openExample(examples.find((it) => it.name === 'schedules/conflict'))";

// Where keys lead one after the other in that run, which aborts at act 6 and commits at 8, 14 and 17.
const KEYS = [["a", 6], ["c", 8], ["ArrowRight", 9], ["ArrowLeft", 8], ["c", 14], ["PageDown", 17], ["PageUp", 0],
  ["End", 17], ["C", 14], ["A", 6], ["Home", 0]];

// How the upper edges of some attempts' bars are coloured, each as red, green and blue.
const EDGES_OF = (numbers) => `(() => {
  timeline.drawBase();
  const {width} = timeline.base.canvas, {data} = timeline.base.getImageData(0, 0, width, timeline.base.canvas.height);
  const spread = (it) => Math.max(...it) - Math.min(...it);
  return ${JSON.stringify(numbers)}.map((number) => {
    const it = timeline.history.attempts[number], found = [];
    for (let y = -1; y < 3; y++) for (let x = 3; x < 15; x++) {
      const across = Math.round((timeline.x(it.start) + x) * timeline.scale);
      const down = Math.round((timeline.y(it.row) + y) * timeline.scale);
      found.push([0, 1, 2].map((colour) => data[4 * (down * width + across) + colour]));
    }
    return found.reduce((best, it) => (spread(it) > spread(best) ? it : best));
  });
})()`;

// A click or a drag with a mouse at an act.
const POINT = (kind, place) => `(() => {
  const box = at("lanes").getBoundingClientRect(), clientX = box.left + timeline.x(${place}) - 2;
  const event = {clientX, clientY: box.top + 40, bubbles: true, pointerId: 1, pointerType: "mouse", button: 0};
  at("lanes").setPointerCapture = () => {};
  at("lanes").dispatchEvent(new PointerEvent("${kind}", event));
  return current;
})()`;

const PAUSE = (milliseconds) => `new Promise((resolve) => setTimeout(resolve, ${milliseconds}))`;

export const TIMELINE_LOOKS = {
  async "attempts are bars with their fates, an abort is an arrow with its label, and words say the same"() {
    await Driver.at(CONFLICT, LAPTOP, async (driver) => {
      await driver.page.run(`perform(() => ${PLAYED})`);
      const [fates, label, victims] = await driver.page.run(`[timeline.history.attempts.map(({fate}) => fate),
        timeline.arrowTold(timeline.history.arrows[0]), timeline.history.arrows[0].victims.map((it) => it.label)]`);
      expect(`${fates}` === "aborted,committed,committed,committed", "four attempts", fates);
      expect(label === "first" && `${victims.sort()}` === "0.0,0.0+0", "an arrow to two tasks", [label, victims]);
      const [red, green] = await driver.page.run(EDGES_OF([0, 1]));
      expect(red[0] > red[1] + 40 && green[1] > green[0] + 30, "a red bar and a green one", [red, green]);
      await driver.page.run("at('told-box').open = true; showTold()");
      const told = await driver.page.run("at('told').textContent");
      expect(told.includes("aborted at act 6 after 10 instructions by 0.1 (store first)"), "the abort in words", told);
      const commits = await driver.page.run("timeline.history.commits.map(({turn, name}) => `${turn}: ${name}`)");
      expect(`${commits}` === "1: 0.1,2: 0.0,3: 2.0", "commits in order", commits);
    });
  },

  async "a click and a drag seek, play and pause go on by themselves, and the picture is a slider for keys"() {
    await Driver.at(CONFLICT, LAPTOP, async (driver) => {
      await driver.page.run(`perform(() => ${PLAYED})`);
      expect(await driver.page.run(POINT("pointerdown", 6)) === 6, "act 6 by a click", await driver.see());
      await driver.page.run(POINT("pointermove", 12));
      await driver.page.run(PAUSE(300));
      await driver.page.run(POINT("pointerup", 12));
      expect((await driver.see()).at === 12, "act 12 by a drag", await driver.see());
      await driver.choose("speed", 20);
      await driver.page.run("go(2); at('play').focus()");
      await driver.page.press("Enter");
      for (let wait = 0; wait < 50 && (await driver.see()).at < 5; wait++) await driver.page.run(PAUSE(100));
      const isOn = await driver.page.run("player.isOn || current === course.length");
      expect(isOn && (await driver.see()).at >= 5, "acts that go on", await driver.see());
      await driver.page.run("player.stop(); go(3); at('lanes').focus()");
      await driver.page.press("ArrowRight");
      const [role, now, text] = await driver.page.run(
        "['role', 'aria-valuenow', 'aria-valuetext'].map((name) => at('lanes').getAttribute(name))");
      expect(role === "slider" && now === "4" && text === "act 4 of 17", "a slider", [role, now, text]);
      await driver.page.press("a");
      expect((await driver.see()).at === 6, "the next abort by a key", await driver.see());
    });
  },

  async "each key goes to the act that it names, and Space plays and pauses"() {
    await Driver.at(CONFLICT, LAPTOP, async (driver) => {
      await driver.page.run(`perform(() => ${PLAYED})`);
      await driver.page.run("go(0); at('lanes').focus()");
      for (const [key, place] of KEYS) {
        await driver.page.press(key);
        expect((await driver.see()).at === place, `act ${place} by ${key}`, await driver.see());
      }
      await driver.page.press(" ");
      expect(await driver.page.run("player.isOn"), "that it plays", await driver.see());
      await driver.page.press(" ");
      expect(!await driver.page.run("player.isOn"), "that it pauses", await driver.see());
    });
  },

  async "zoom widens acts and fits again, and in lockstep the axis counts rounds or acts"() {
    await Driver.at("#example=shortest_paths&acts=lockstep+1000+1", LAPTOP, async (driver) => {
      const before = await driver.page.run("timeline.across");
      await driver.click("#zoom-in");
      expect(await driver.page.run("timeline.across") > before * 1.5, "wider acts", before);
      const wheel = '"wheel", {deltaY: -300, ctrlKey: true, bubbles: true, cancelable: true}';
      const [one, other] = await driver.page.run(
        `[timeline.across, (at("lanes").dispatchEvent(new WheelEvent(${wheel})), timeline.across)]`);
      expect(other > one * 1.5, "wider acts by the wheel", [one, other]);
      await driver.click("#zoom-fit");
      const [isFitted, after] = await driver.page.run("[timeline.isFitted, timeline.across]");
      expect(isFitted && Math.abs(after - before) < 2, "the whole run", [before, after]);
      const rounds = await driver.page.run("[timeline.kind, timeline.xs.at(-1)]");
      expect(rounds[0] === "rounds" && rounds[1] > 20 && rounds[1] < 40, "rounds", rounds);
      await driver.choose("by", "acts");
      const acts = await driver.page.run("[timeline.kind, timeline.xs.at(-1), course.length]");
      expect(acts[0] === "acts" && acts[1] === acts[2], "acts", acts);
    });
  },

  async "some thousand acts are drawn at once"() {
    await Driver.at("#example=shortest_paths&acts=lockstep+1000+1", LAPTOP, async (driver) => {
      await driver.page.run("perform(() => openExample(examples.find((it) => it.name === 'c/quicksort')))");
      const [acts, most] = await driver.page.run(`(() => {
        const times = Array.from({length: 9}, () => {
          const begin = performance.now();
          timeline.drawBase();
          timeline.drawTop();
          return performance.now() - begin;
        });
        return [course.length, times.sort((one, two) => one - two)[4]];
      })()`);
      expect(acts > 300 && most < 250, "a picture in a moment", [acts, most]);
    });
  },

  async "the story shows nothing of what it hasn't told, and then leaves the machine to the person"() {
    await Driver.at("", WIDE, async (driver) => {
      for (let step = 0; step < 4; step++) await driver.click("#story-on");
      const [text, isHidden] = await driver.page.run("[at('story-text').textContent, at('profile').hidden]");
      expect(text.endsWith("?") && isHidden, "a question before its answer", [text, isHidden]);
      const seen = await driver.page.run(`(() => {
        timeline.drawTop();
        const x = (timeline.x(8) + 10) * timeline.scale, {data} = timeline.top.getImageData(x, 60, 1, 1);
        return data[3];
      })()`);
      expect(seen === 255, "a picture up to the act alone", seen);
      for (let step = 0; step < 6; step++) await driver.click("#story-on");
      const {acts, at, story} = await driver.see();
      expect(acts === 0 && at === 0 && !story, "no act made yet", [acts, at, story]);
      await driver.click('[data-act="dispatch"]');
      expect((await driver.see()).script === 1, "a first act", await driver.see());
    });
  },
};
