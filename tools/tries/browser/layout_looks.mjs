// ---- looks at where things are, at each size and in both colours: a row for each state of the page

import {Driver, expect} from "./driver.mjs";

const LAPTOP = {width: 1280, height: 720}, PHONE = {width: 390, height: 844};
const SIZES = [LAPTOP, {...LAPTOP, dark: true}, {width: 1920, height: 1080}, {width: 853, height: 720}, PHONE];
const STORY = (step) => `for (let step = 0; step < ${step}; step++) at("story-on").click()`;
const EXAMPLE = (name) => `perform(() => openExample(examples.find((it) => it.name === "${name}")))`;
const FRAME = "new Promise((resolve) => requestAnimationFrame(() => setTimeout(resolve)))";

// What is further down is laid out too.
const WHOLE = `document.head.append(Object.assign(document.createElement("style"),
  {textContent: "* { content-visibility: visible !important; }"})); 0`;

// What is done on the page, one after the other, before it is looked at in each size.
const STATES = [
  ["the first step of the story", "0"],
  ["the conflict of the story", STORY(5)],
  ["a machine without acts", "nowYou()"],
  ["the rarer acts", "at('more-acts').open = true"],
  ["the machine's options", "at('more-acts').open = false; at('options-box').open = true"],
  ["a run in lockstep", `at("options-box").open = false; ${EXAMPLE("shortest_paths")}`],
  ["the legend and the words", "at('legend').open = at('told-box').open = true; go(160)"],
  ["an exercise", "openExercise('false_conflict').then(judge)"],
  ["help", "chooseTab('help')"],
];

// What a person can't read or reach: parts that are too wide, texts that are cut, fields on each other, weak colours.
const FLAWS = `(() => {
  const isSeen = (it) => it.checkVisibility() && !it.closest(".heard") && it.getBoundingClientRect().width > 1;
  const all = (chosen) => [...document.body.querySelectorAll(chosen)].filter(isSeen);
  const named = (it) => [it.tagName, it.id, it.textContent.trim().slice(0, 30)].join(" ");
  const isCut = (it) => {
    const {display, overflowX} = getComputedStyle(it);
    return display !== "inline" && overflowX !== "auto" && it.scrollWidth > it.clientWidth + 1;
  };
  const fields = all("button, select, input:not([type=file]), textarea, summary");
  const boxes = new Map(fields.map((it) => [it, it.getBoundingClientRect()]));
  const areOver = (one, other) => {
    const [a, b] = [boxes.get(one), boxes.get(other)], edge = 2;
    return one.closest(".pop") === other.closest(".pop") && a.left + edge < b.right && b.left + edge < a.right
      && a.top + edge < b.bottom && b.top + edge < a.bottom;
  };
  const channels = (colour) => colour.match(/[\\d.]+/g).map(Number);
  const light = (colour) => channels(colour).slice(0, 3).map((it) => it / 255)
    .map((it) => (it <= 0.04045 ? it / 12.92 : ((it + 0.055) / 1.055) ** 2.4))
    .reduce((sum, it, place) => sum + it * [0.2126, 0.7152, 0.0722][place], 0);
  const ground = (it) => {
    const colour = getComputedStyle(it).backgroundColor, [, , , alpha = 1] = channels(colour);
    return alpha > 0 || it === document.body ? colour : ground(it.parentElement);
  };
  const hasText = (it) => [...it.childNodes].some((node) => node.nodeType === Node.TEXT_NODE && node.data.trim());
  const isWeak = (it) => {
    const [low, high] = [light(getComputedStyle(it).color), light(ground(it))].sort((one, two) => one - two);
    return hasText(it) && !it.closest(":disabled, [aria-disabled=true]") && (high + 0.05) / (low + 0.05) < 4.5;
  };
  return [
    ...(document.documentElement.scrollWidth > innerWidth ? ["wider than the screen"] : []),
    ...all("button, label, th, td, p, li, h1, h2, h3, summary, output").filter(isCut).map((it) => "cut: " + named(it)),
    ...fields.flatMap((one, place) => fields.slice(place + 1).filter((other) => areOver(one, other))
      .map((other) => "over each other: " + named(one) + " and " + named(other))),
    ...all("*").filter(isWeak).map((it) => "weak: " + named(it)),
  ];
})()`;

// Which of these parts aren't whole on the screen.
const UNSEEN = (ids) => `${JSON.stringify(ids)}.filter((id) => {
  const {top, bottom, width} = at(id).getBoundingClientRect();
  return top < 0 || bottom > innerHeight || !width;
})`;
const MACHINE = ["lanes", "said", "tiles", "memory-box", "journal-box"];

// What is in view together: the state, the size of the screen, what is done, and the parts.
const TOGETHER = [
  ["the end of the story", "", LAPTOP, "nowYou()", [...MACHINE, "controls"]],
  ["an exercise", "#exercise=false_conflict&example=exercises/false_conflict&acts=steps", LAPTOP, "judge()",
    ["exercise-text", "verdict", "lanes", "said", "source-text", "assemble"]],
  ["an exercise on a phone", "#exercise=stall&example=exercises/stall&acts=steps", PHONE, "judge()",
    ["lanes", "exercise-text", "verdict", "said"]],
];

export const LAYOUT_LOOKS = {
  async "at each size and in both colours nothing is cut, covered or weak, and nothing needs scrolling sideways"() {
    await Driver.at("", LAPTOP, async (driver) => {
      await driver.page.run(WHOLE);
      for (const [state, action] of STATES) {
        await driver.page.run(action);
        await driver.page.run("chain");
        for (const how of SIZES) {
          await driver.page.look(how);
          await driver.page.run(FRAME);
          const flaws = await driver.page.run(FLAWS);
          expect(!flaws.length, `no flaw in ${state}`, [how, flaws]);
          await driver.shoot(`${state.replaceAll(" ", "_")}-${how.width}${how.dark ? "-dark" : ""}`);
        }
      }
    });
  },

  async "picture, sentence, tiles, memory and journal are in view together, and so are exercise and verdict"() {
    await Driver.at("", LAPTOP, async (driver) => {
      for (let step = 1; step <= 10; step++) {
        const unseen = await driver.page.run(UNSEEN([...MACHINE, "story"]));
        expect(!unseen.length, `all in view at step ${step}`, unseen);
        await driver.click("#story-on");
      }
    });
    for (const [state, hash, how, action, parts] of TOGETHER) {
      await Driver.at(hash, how, async (driver) => {
        await driver.page.run(action);
        const unseen = await driver.page.run(UNSEEN(parts));
        expect(!unseen.length, `all in view in ${state}`, unseen);
      });
    }
  },

  async "there are two columns from 1,100 pixels on, and on a phone the picture comes first"() {
    await Driver.at("#example=schedules/conflict&acts=steps", LAPTOP, async (driver) => {
      for (const [width, isBeside] of [[1100, true], [1099, false], [853, false]]) {
        await driver.page.look({width, height: 720});
        const [left, right, shown] = await driver.page.run(
          "[...['player', 'memory-box'].map((id) => at(id).getBoundingClientRect().top), innerWidth]");
        expect(shown === width && (Math.abs(left - right) < 60) === isBeside, `columns at ${width}`, [left, right]);
      }
    });
    await Driver.at("", PHONE, async (driver) => {
      const tops = await driver.page.run(
        "['lanes', 'story', 'said', 'tiles'].map((id) => at(id).getBoundingClientRect().top)");
      expect(tops.every((top, place) => !place || top > tops[place - 1]), "the picture first", tops);
      expect(tops[1] < 844, "the story on the first screen", tops);
    });
  },

  async "what opens over the page closes by Escape and by a press beside it, and the legend is folded"() {
    await Driver.at("#example=schedules/conflict&acts=steps", LAPTOP, async (driver) => {
      expect(!await driver.page.run("at('legend').open || at('options-box').open"), "folded", "open");
      for (const id of ["more-acts", "options-box"]) {
        await driver.page.run(`at("${id}").firstElementChild.focus()`);
        await driver.page.press("Enter");
        expect(await driver.page.run(`at("${id}").open`), `${id} open by a key`, id);
        await driver.page.press("Tab");
        await driver.page.press("Escape");
        const [isOpen, focused] = await driver.page.run(
          `[at("${id}").open, document.activeElement === at("${id}").firstElementChild]`);
        expect(!isOpen && focused, `${id} closed, with the focus at what opened it`, [isOpen, focused]);
        await driver.page.run(`at("${id}").open = true;
          at("tiles").dispatchEvent(new PointerEvent("pointerdown", {bubbles: true}))`);
        expect(!await driver.page.run(`at("${id}").open`), `${id} closed by a press beside it`, id);
      }
    });
  },
};
