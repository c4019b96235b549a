// ---- looks at long runs: that they can be stopped, that the page stays alive, and that steps draw what is drawn anew

import {AHEAD, ENDLESS, LOOPING, MOST_ACTS_BETWEEN, MOST_STILL, REDRAWN, STOPPING, opened} from "./samples.mjs";
import {BROWSER, Driver, NARROW, WIDE, expect} from "./driver.mjs";

export const LONG_LOOKS = {
  async "what steps change one by one is what is drawn anew, and what isn't on the screen is drawn too"() {
    await Driver.at("#example=hello", WIDE, async (driver) => {
      for (const name of ["conflict", "stall", "by_hand", "domains_by_hand"]) {
        await driver.open(`schedules/${name}`);
        const differing = await driver.page.run(REDRAWN);
        expect(!differing.length, `the same page of ${name}`, differing);
      }
    });
    await Driver.at("#example=hello", NARROW, async (driver) => {
      await driver.page.run(opened(AHEAD, {tiles: "2", "task-queue": "4", "commit-queue": "1"}, "lockstep"));
      const differing = await driver.page.run(REDRAWN);
      expect(!differing.length, "the same page with spilled tasks", differing);
      await driver.page.run("go(9); new Promise((resolve) => setTimeout(resolve, 10 * MOST_WAITING))");
      const [isUnseen, seen] = await driver.page.run("[unseen.has('tasks'), at('counts').textContent]");
      await driver.page.run("showCurves(null, 9)");
      const wanted = await driver.page.run("at('counts').textContent");
      expect(isUnseen && seen === wanted, "the counts, further down", [isUnseen, seen, wanted]);
    });
  },

  async "a browser that lacks a worker answers all the same, and one that lacks more says so"() {
    // Only this browser's debugger runs a script before those of the page.
    if (BROWSER !== "chromium") return;
    await Driver.at("#example=nested&acts=least", {before: "delete window.Worker"}, async (driver) => {
      const seen = await driver.see();
      expect(seen.end === "normal", "the run's end", seen);
    });
    await Driver.at("", {before: "delete window.WebAssembly"}, async (driver) => {
      const message = await driver.page.run("at('message').textContent");
      expect(message.includes("too old"), "a sentence", message);
    });
  },

  async "a long run can be stopped, in its call and while its lines are read, and the page stays alive meanwhile"() {
    await Driver.at("#example=hello", WIDE, async (driver) => {
      const stopped = async (sources, condition, what) => {
        const seen = await driver.page.run(`stopOnce(() => ${opened(...sources)}, () => ${condition})`);
        expect(seen.isStopped, `a stop ${what}`, seen);
        expect(seen.message.includes("stopped") && seen.isSame, "what was open before", seen);
      };
      await driver.page.run(STOPPING);
      await stopped([LOOPING, {quantum: "1024"}], "machines.waiting.size", "while the machine runs");
      await driver.click("[data-act=advance]");
      expect((await driver.see()).script >= 1, "a machine that is ready again", await driver.see());
      await stopped([ENDLESS], "!machines.waiting.size && toldRun.course?.length > 1000", "while lines are read");
      await driver.page.run(`${opened(ENDLESS)}, beginBeats(), chain`);
      const seen = await driver.see(), beats = await driver.page.run("beatsSoFar()");
      expect(
        seen.acts > 100000 && seen.call.includes("isn't shown whole"), "the first acts of a run that is too long",
        seen);
      expect(
        beats.count * MOST_ACTS_BETWEEN > seen.acts && beats.most < MOST_STILL, "a page that is alive",
        [beats, seen.acts]);
    });
  },

  async "a stop while further acts are read leaves those that were there"() {
    await Driver.at("#example=hello", WIDE, async (driver) => {
      await driver.page.run(STOPPING);
      await driver.page.run(`${opened(ENDLESS, {}, "steps")}`);
      await driver.choose("count", 10000);
      await driver.click("#run-many");
      const seen = await driver.page.run(`stopOnce(() => addActs(Array(190000).fill("advance")),
        () => course.length > 20000)`);
      expect(seen.isStopped && seen.isSame && seen.message.includes("stopped"), "10,000 acts as they were", seen);
      await driver.click("#run-many");
      expect((await driver.see()).acts === 20000, "further acts", await driver.see());
    });
  },

  async "of a long text the field shows a piece, and all of it is checked"() {
    await Driver.at("#example=hello", WIDE, async (driver) => {
      await driver.page.run(opened(ENDLESS, {commits: "9000"}));
      await driver.click("#make-report");
      const [shown, whole, note] = await driver.page.run(
        "[at('report').value, textIn('report')].map((text) => text.split('\\n').length)"
          + ".concat(at('report-note').textContent)");
      expect(shown === 2001 && whole === 9004 && note.includes("first 2,000"), "the first lines", [shown, whole, note]);
      await driver.click("#check-report");
      expect((await driver.see()).report.includes("9,000 tasks"), "that all is checked", await driver.see());
    });
  },
};
