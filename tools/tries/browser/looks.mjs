// ---- looks at the page's story, acts, options, exercises, links, files and keys, each a sentence

import {readFileSync} from "node:fs";
import {join} from "node:path";

import {AHEAD, COVERING, opened} from "./samples.mjs";
import {Driver, EXERCISES, NARROW, REFUSED_OF, WIDE, examples, expect} from "./driver.mjs";

export const LOOKS = {
  async "a story goes step by step through one conflict"() {
    await Driver.at("", WIDE, async (driver) => {
      for (let step = 0; step < 5; step++) await driver.click("#story-on");
      const seen = await driver.see();
      expect(seen.story.includes("a conflict") && seen.said.includes("2 tasks are aborted"), "the conflict", seen);
      await driver.shoot("story");
      await driver.click("#story-back");
      expect((await driver.see()).at === 5, "one step back", await driver.see());
      for (let step = 0; step < 6; step++) await driver.click("#story-on");
      expect((await driver.see()).story === "", "the story closed", await driver.see());
    });
  },

  async "each button makes its act by a key or says why it is refused, and undo restores what was before"() {
    await Driver.at("#example=schedules/one_word&acts=steps", WIDE, async (driver) => {
      await driver.page.run("at('more-acts').open = true");
      const made = new Set();
      for (const act of ["dispatch", "take", "give", "step", "advance", "coalesce", "split", "abort", "commit"]) {
        const before = await driver.see(), [isRefused, why] = await driver.page.run(REFUSED_OF(act));
        await driver.enter(`[data-act=${act}]`);
        const seen = await driver.see();
        const [note, reply] = await driver.page.run("[at('cut').textContent, course.acts.at(-1)?.reply]");
        if (!isRefused) made.add(act);
        const isMade = seen.script === before.script + (isRefused ? 0 : 1) && seen.at === seen.acts;
        expect(isMade && !seen.message, act, seen);
        expect(isRefused ? note.includes(why) && why : reply === "ok", `the reply to ${act}`, [note, why, reply]);
      }
      const wanted = ["dispatch", "take", "give", "step", "advance"];
      expect(wanted.every((act) => made.has(act)), "acts made", [...made]);
      const {script} = await driver.see();
      await driver.click("#undo");
      expect((await driver.see()).script === script - 1, "an act less", await driver.see());
      await driver.choose("count", 5);
      await driver.click("#run-many");
      expect((await driver.see()).script === script + 4, "five acts more", await driver.see());
      await driver.click("#run-rounds");
      expect((await driver.see()).script > script + 4, "some rounds", await driver.see());
      await driver.choose("count", 10000);
      await driver.click("#run-many");
      expect((await driver.see()).end === "normal", "the run's end", await driver.see());
      await driver.click("#run-many");
      expect((await driver.see()).message.includes("over"), "a sentence on a run that is over", await driver.see());
    });
  },

  async "acts are typed, and odd ones are told in a sentence"() {
    await Driver.at("#example=schedules/conflict&acts=steps", WIDE, async (driver) => {
      await driver.page.run("at('more-acts').open = true");
      await driver.type("dispatch 0");
      await driver.type("step 0 0");
      expect((await driver.see()).said.includes("loads 0"), "the load", await driver.see());
      for (const [text, part] of [
             ["dance 0", "isn't an act"], ["step 9 0", "tiles are 0 to 3"], ["step 0", "a tile and a core"],
             ["step 0 00", "leading zero"], ["step 0 2", "cores are 0 to 1"]]) {
        await driver.type(text);
        const seen = await driver.see();
        expect(seen.message.includes(part) && seen.script === 2, `a sentence on ${text}`, seen);
      }
      await driver.type("undo 2");
      await driver.type("run 3");
      expect((await driver.see()).script === 3, "three acts", await driver.see());
      await driver.type("order 0.0 0.1");
      const pair = await driver.page.run("at('pair-told').textContent"), seen = await driver.see();
      expect(
        pair.includes("0.0 comes after 0.1") && !seen.message && seen.script === 3, "which comes first", [pair, seen]);
      await driver.type("order 0.0");
      expect((await driver.see()).message.startsWith("order 0.0 isn't an act;"), "a sentence", await driver.see());
    });
  },

  async "options are changed, and what is outside their ranges stays as it was"() {
    await Driver.at("#example=nested&acts=least", WIDE, async (driver) => {
      await driver.choose("option-tiles", 16);
      expect((await driver.page.run("rows.length")) === 16, "16 tiles", await driver.see());
      await driver.choose("option-tiles", 17);
      expect((await driver.see()).message.includes("1 to 16"), "a sentence", await driver.see());
      expect((await driver.page.run("at('option-tiles').value")) === "16", "the value as it was", await driver.see());
      await driver.choose("course", "lockstep");
      expect((await driver.see()).call.includes("lockstep 1000 1"), "rounds", await driver.see());
      const settings = await driver.page.run("at('settings').textContent");
      expect(settings.includes("count those too that nothing asked for"), "how acts are numbered", settings);
      await driver.choose("option-filter", "bloom");
      expect((await driver.see()).call.includes("--filter bloom"), "the filter handed on", await driver.see());
      const filter = await driver.page.run("at('settings').textContent");
      expect(filter.includes("filters of the kind bloom"), "the filter named", filter);
      await driver.click("#make-report");
      expect((await driver.see()).message.includes("with filter modulo only"), "no report", await driver.see());
    });
  },

  async "the report is made and checked, and a changed one is refused"() {
    await Driver.at("#example=nested&acts=least", WIDE, async (driver) => {
      await driver.click("#make-report");
      const stored = readFileSync(join(examples, "nested", "report"), "utf8");
      expect((await driver.page.run("at('report').value")) === stored, "the stored report", await driver.see());
      await driver.click("#check-report");
      expect((await driver.see()).report.startsWith("Accepted"), "that it is accepted", await driver.see());
      await driver.page.run("at('report').value = at('report').value.replace('2 1.0', '2 1.1')");
      await driver.click("#check-report");
      expect((await driver.see()).report.includes("line 3"), "the wrong line", await driver.see());
    });
  },

  async "all exercises are judged"() {
    const answers = join(EXERCISES, "answers"), read = (...names) => readFileSync(join(answers, ...names), "utf8");
    await Driver.at("#example=hello", WIDE, async (driver) => {
      const begin = async (name) => {
        await driver.choose("exercise", name);
        await driver.page.run("at('more-acts').open = true");
        const {at, said} = await driver.see();
        expect(at === 0 && said.includes("nothing was done yet"), "a beginning that tells no answer", [at, said]);
      };
      const judged = async (kind) => {
        await driver.click("#judge");
        const seen = await driver.see();
        expect(seen.verdict.startsWith(kind), kind, seen);
      };
      for (const [name, answer] of [["journal", read("journal")], ["false_conflict", read("false_conflict", "task.s")],
        ["order", read("order", "task.s")], ["domains", read("domains", "task.s")], ["why", read("why")]]) {
        await begin(name);
        await judged("wrong");
        const field = name === "journal" || name === "why" ? "answer" : "source-text";
        await driver.page.run(`at("${field}").value = ${JSON.stringify(answer)}`);
        await judged("right");
      }
      for (const name of ["abort", "stall"]) {
        await begin(name);
        await judged("wrong");
        for (const line of read(name).split("\n")) if (line.split("#")[0].trim()) await driver.type(line);
        await judged("right");
      }
    });
  },

  async "a link brings another page to the same state"() {
    let address, before;
    await Driver.at("#example=schedules/stall&acts=steps&tiles=1&task-queue=4", WIDE, async (driver) => {
      await driver.click("#run-many");
      await driver.page.run("go(3)");
      [address, before] = [await driver.page.run("addressNow()"), await driver.see()];
    });
    await Driver.at(`#${address}`, WIDE, async (driver) => {
      const after = await driver.see();
      expect(
        after.said === before.said && after.at === 3 && after.script === before.script, "the same state",
        [before, after]);
    });
  },

  async "odd addresses are told in a sentence, and the story begins"() {
    for (const hash of
           ["#example=nothing", "#name=x&image=zzzz", "#example=nested&acts=dance", "#example=nested&tiles=99",
            "#example=schedules/stall&acts=steps&script=zz", "#at=5"]) {
      await Driver.at(hash, WIDE, async (driver) => {
        const seen = await driver.see();
        expect(seen.message && seen.story, `a sentence on ${hash}`, seen);
      });
    }
  },

  async "files of one's own are opened, and odd ones are told in a sentence"() {
    await Driver.at("#example=hello", WIDE, async (driver) => {
      const image = readFileSync(join(examples, "trap", "image.bin"));
      await driver.files(["mine.bin", image]);
      expect((await driver.see()).end === "trap", "the trap", await driver.see());
      expect(
        (await driver.page.run("at('listing').textContent")).includes("ecall"), "instructions", await driver.see());
      await driver.files(["task.s", readFileSync(join(examples, "hello", "task.s"))]);
      expect(
        (await driver.see()).end === "normal" && (await driver.see()).name === "task.s", "the source, run in rounds",
        await driver.see());
      await driver.files(["odd.bin", "no image at all, and no script"]);
      expect((await driver.see()).message.includes("isn't an image"), "that it is none", await driver.see());
      await driver.click("#before");
      const seen = await driver.see();
      expect(seen.name === "task.s" && seen.at === seen.acts - 1, "what was open before", seen);
      await driver.files(["task.s", "    dance a0\n"]);
      expect((await driver.see()).message.includes("task.s:1"), "the line", await driver.see());
      await driver.page.run("perform(() => openFiles([{name: 'large', size: 70 << 20}]))");
      expect((await driver.see()).message.includes("67,108,864"), "that it is too long", await driver.see());
      expect((await driver.see()).name === "task.s", "what was open before", await driver.see());
    });
  },

  async "keys alone lead through the acts, and the focus is seen"() {
    await Driver.at("#example=schedules/conflict&acts=steps", WIDE, async (driver) => {
      await driver.page.run("document.body.focus()");
      const names = [];
      // Behind the last one the browser's own fields come.
      await driver.page.run("for (const box of document.querySelectorAll('details')) box.open = true");
      for (let tab = 0; tab < 90 && names.at(-1) !== "source-text"; tab++) {
        await driver.page.press("Tab");
        names.push(await driver.page.run(
          "document.activeElement.id || document.activeElement.dataset.act || document.activeElement.tagName"));
      }
      for (const wanted of
             ["story-open", "example", "exercise", "play", "first", "taking", "zoom-in", "lanes", "tile", "dispatch",
              "undo", "give", "run-many", "typed", "course", "one-task", "make-report", "assemble", "source-text"])
        expect(names.includes(wanted), `${wanted} by Tab`, names);
      await driver.page.run("at('run-many').focus()");
      await driver.page.press("Enter");
      await driver.page.run("chain");
      await driver.page.run("at('first').focus()");
      for (const [key, place] of [
             ["Home", 0], ["ArrowRight", 1], ["ArrowRight", 2], ["ArrowLeft", 1], ["End", 13], ["Home", 0]]) {
        await driver.page.press(key);
        expect((await driver.see()).at === place, `act ${place} by ${key}`, await driver.see());
      }
    });
  },

  async "two tasks are picked by clicks or by what they are called, and the page says which comes first, and why"() {
    await Driver.at("#example=nested&acts=least&at=9", WIDE, async (driver) => {
      const told = () => driver.page.run("[...at('pair-told').children].map((it) => it.textContent)");
      for (const label of ["0.1", "1.1"])
        await driver.page.run(`document.querySelector('#tiles [data-label="${label}"]').click()`);
      const [one, other, order] = await told();
      expect(
        one === "0.1: transfer 7 with the timestamp 0, at depth 1 in the unordered root domain" &&
          other === "1.1: credit 5 with the timestamp 2, at depth 2 in the ordered subdomain of 0.0",
        "what both are", [one, other]);
      expect(
        order === "0.1 comes after 1.1: in the unordered root domain, timestamps don't count, and " +
            "0.0, within whose domain 1.1 is, is dispatched and 0.1 isn't.",
        "why", order);
      expect(
        (await driver.page.run("document.querySelector('#tiles [data-label=\"1.1\"]').textContent")).includes("@2 d2"),
        "the depth on the task", await driver.see());
      await driver.page.run("at('one-task').focus(); at('one-task').select()");
      await driver.page.press("9");
      expect((await told())[0] === "No uncommitted task is called 9 here.", "a sentence on another one", await told());
    });
  },

  async "a narrow page needs no scrolling sideways, nothing covers anything, and dark has its own colours"() {
    await Driver.at("#example=schedules/conflict&acts=least&at=4", NARROW, async (driver) => {
      await driver.shoot("narrow", true);
    });
    for (const how of [NARROW, {width: 800, height: 1000}, WIDE]) {
      await Driver.at("#example=hello", how, async (driver) => {
        await driver.page.run(opened(AHEAD, {tiles: "16", cores: "4"}, "lockstep"));
        const [width, shown] = await driver.page.run("[document.documentElement.scrollWidth, innerWidth]");
        expect(width <= shown, "no wider than the screen", [width, shown]);
        const wider = await driver.page.run(COVERING);
        expect(!wider.length, "nothing beyond its cell", [how, wider]);
        await driver.shoot(`16-tiles-${shown}`);
      });
    }
    await Driver.at("#example=schedules/conflict&acts=least&at=4", {dark: true}, async (driver) => {
      const paper = await driver.page.run("getComputedStyle(document.body).backgroundColor");
      expect(paper === "rgb(19, 23, 29)", "dark paper", paper);
      await driver.shoot("dark");
    });
  },
};
