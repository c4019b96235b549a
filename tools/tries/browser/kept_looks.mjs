// ---- looks at what the page keeps, at what it asks before it leaves something, and at what it doesn't give away

import {readFileSync} from "node:fs";
import {join} from "node:path";

import {Driver, EXERCISES, WIDE, expect} from "./driver.mjs";

const PAUSE = (milliseconds) => `new Promise((resolve) => setTimeout(resolve, ${milliseconds}))`;
const WRITE = (text) => `at("source-text").value = ${JSON.stringify(text)};
  at("source-text").dispatchEvent(new Event("input", {bubbles: true})); ${PAUSE("2 * CHECK_AFTER")}`;
const TEXT = "at('source-text').value";
const IS_ASKED = "[!at('ask').hidden, at('ask-text').textContent]";
const own = (wanted, source = "task.s") => [["wanted", wanted], ["words", "steps --tiles 2 --cores 1\n"],
  ["script", readFileSync(join(EXERCISES, "false_conflict", "script"))],
  [source, readFileSync(join(EXERCISES, "false_conflict", "task.s"))]];
const NOTHING_ABORTED = "# Move a word.\nanswer source\ntaken 0\nend normal\n";

export const KEPT_LOOKS = {
  async "a program of several files is shown, checked and run whole"() {
    await Driver.at("#example=hello", WIDE, async (driver) => {
      await driver.open("schedules/stall");
      const names = await driver.page.run("[...at('files').options].map((it) => it.textContent)");
      expect(`${names}` === "parent.s,tasks.s" && !await driver.page.run("at('files').hidden"), "both files", names);
      const image = await driver.page.run("subject.image.join()");
      await driver.choose("files", 1);
      const text = await driver.page.run(TEXT);
      expect(text.includes("# image: task parent ts 5"), "the second file", text);
      await driver.page.run(WRITE(text.replace("task parent", "task nobody")));
      await driver.choose("files", 0);
      const told = await driver.page.run("at('assembled').textContent");
      expect(told.startsWith("tasks.s:5: "), "the file and the line", told);
      await driver.click("#assemble");
      const [name, line]
        = await driver.page.run("[fileNow().name, document.querySelector('#gutter .wrong').innerText]");
      expect(name === "tasks.s" && line.trim() === "5", "the wrong line in its file", [name, line]);
      await driver.page.run(WRITE(text.replace("ts 5", "ts 6")));
      await driver.click("#assemble");
      const [changed, seen] = [await driver.page.run("subject.image.join()"), await driver.see()];
      expect(changed !== image && seen.acts > 0 && !seen.message, "both files assembled", seen);
      await driver.page.run(PAUSE(800));
      await driver.reload();
      await driver.choose("files", 1);
      expect((await driver.page.run(TEXT)).includes("ts 6"), "both files kept", await driver.page.run(TEXT));
    });
  },

  async "a text of a link or a file replaces none that is kept, and is kept beside it"() {
    let link;
    await Driver.at("#example=hello", WIDE, async (driver) => {
      const text = await driver.page.run(TEXT);
      await driver.page.run(WRITE(`${text}# theirs\n`));
      await driver.click("#assemble");
      link = await driver.page.run("addressNow()");
      await driver.page.run(WRITE(`${text}# mine\n`));
      await driver.page.run(PAUSE(500));
      await driver.page.run(`location.hash = ${JSON.stringify(`#${link}&at=1`)}; ${PAUSE(300)}.then(() => chain)`);
      expect((await driver.page.run(TEXT)).endsWith("# theirs\n"), "the text of the link", await driver.page.run(TEXT));
      await driver.page.run(WRITE(`${text}# theirs, changed\n`));
      await driver.page.run("go(2)");
      await driver.page.run(PAUSE(800));
      await driver.reload();
      const after = await driver.page.run(TEXT);
      expect(after.endsWith("# theirs, changed\n"), "the changed text of the link after a reload", after);
      await driver.open("nested");
      await driver.open("hello");
      expect((await driver.page.run(TEXT)).endsWith("# mine\n"), "the own text", await driver.page.run(TEXT));
      await driver.files(["hello.s", `${text}# of a file\n`]);
      await driver.page.run(WRITE(`${text}# of a file, changed\n`));
      await driver.files(["hello.s", text]);
      expect(await driver.page.run(TEXT) === text, "the other file's text", await driver.page.run(TEXT));
      await driver.files(["hello.s", `${text}# of a file\n`]);
      expect((await driver.page.run(TEXT)).endsWith("changed\n"), "the first file's", await driver.page.run(TEXT));
      expect(!await driver.page.run("at('revert').hidden"), "the way back to the file", await driver.page.run(TEXT));
    });
  },

  async "a question comes before acts are left by Run, by a link, and after a reload, and undo restores a script"() {
    await Driver.at("#example=schedules/conflict&acts=steps", WIDE, async (driver) => {
      for (const act of ["dispatch 1", "step 1 0"]) await driver.page.run(`addActs(["${act}"])`);
      await driver.page.run(`globalThis.isAsking = true; ${PAUSE(800)}`);
      await driver.click("#assemble");
      expect((await driver.page.run(IS_ASKED))[0], "a question before Run", await driver.page.run(IS_ASKED));
      await driver.click("#ask-no");
      expect((await driver.see()).script === 2, "the acts still there", await driver.see());
      await driver.page.run(`location.hash = "#example=hello"; ${PAUSE(300)}`);
      expect((await driver.page.run(IS_ASKED))[0], "a question before a link", await driver.page.run(IS_ASKED));
      await driver.click("#ask-no");
      await driver.page.run(PAUSE(500));
      expect((await driver.see()).name === "schedules/conflict", "the same program", await driver.see());
      await driver.reload();
      expect((await driver.see()).script === 2, "the acts after a reload", await driver.see());
      await driver.page.run("globalThis.isAsking = true");
      await driver.open("hello");
      const [isAsked, question] = await driver.page.run(IS_ASKED);
      expect(isAsked && question.includes("2 acts"), "a question after a reload", question);
      await driver.click("#ask-no");
      await driver.page.run(`at("script-box").open = true; at("script").value = "dispatch 0";
        at("script").dispatchEvent(new Event("change")); chain`);
      expect((await driver.see()).script === 1, "the other script", await driver.see());
      await driver.click("#undo");
      expect((await driver.see()).script === 2, "the acts as before", await driver.see());
    });
  },

  async "own exercises keep their answers apart, and Run plays the exercise's script"() {
    await Driver.at("#example=hello", WIDE, async (driver) => {
      await driver.files(...own(NOTHING_ABORTED));
      expect(await driver.page.run("at('profile').hidden"), "no answer in the conflicts", await driver.see());
      await driver.click("#judge");
      expect((await driver.see()).verdict.startsWith("wrong"), "two words in one line", await driver.see());
      const answer = readFileSync(join(EXERCISES, "answers", "false_conflict", "task.s"), "utf8");
      await driver.page.run(WRITE(answer));
      await driver.click("#assemble");
      const seen = await driver.see(), aborts = await driver.page.run("timeline.history.arrows.length");
      expect(seen.course === "steps" && seen.acts > 20 && !aborts, "the script played", [seen, aborts]);
      await driver.click("#judge");
      expect((await driver.see()).verdict.startsWith("right"), "the answer", await driver.see());
      expect(!await driver.page.run("at('profile').hidden"), "the conflicts afterwards", await driver.see());
      await driver.files(...own(NOTHING_ABORTED.replace("Move", "Shift")));
      expect(await driver.page.run(TEXT) !== answer, "another exercise's text", await driver.page.run(TEXT));
      await driver.files(...own(NOTHING_ABORTED));
      expect(await driver.page.run(TEXT) === answer, "the answer again", await driver.page.run(TEXT));
      await driver.page.run(PAUSE(800));
      await driver.reload();
      const [name, text] = await driver.page.run("[openedExercise, at('source-text').value]");
      expect(name === "own" && text === answer, "exercise and answer after a reload", [name, text]);
    });
  },

  async "neither the story nor an exercise gives its answer away"() {
    await Driver.at("", WIDE, async (driver) => {
      for (let step = 0; step < 4; step++) {
        const [isHot, isShown] = await driver.page.run(
          "[Boolean(document.querySelector('#gutter em')), !at('curves').hidden || !at('told-box').hidden]");
        expect(!isHot && !isShown, "no abort before it happens", [step, isHot, isShown]);
        await driver.click("#story-on");
      }
      const reds = await driver.page.run(`(() => {
        const {width, height} = timeline.top.canvas, {data} = timeline.top.getImageData(0, 0, width, height);
        let count = 0;
        for (let place = 0; place < data.length; place += 4)
          count += data[place + 3] > 200 && data[place] > data[place + 1] + 90 && data[place] > data[place + 2] + 60;
        return count;
      })()`);
      expect(reds === 0, "nothing red before the abort", reds);
      await driver.choose("exercise", "false_conflict");
      const hidden = await driver.page.run("[at('profile').hidden, !document.querySelector('#gutter em')]");
      expect(hidden.every(Boolean), "no advice before the answer", hidden);
      await driver.choose("exercise", "why");
      const [acts, aborts] = await driver.page.run("[course.length, timeline.history.arrows.length]");
      expect(acts === 11 && !aborts, "the act that aborts not made", [acts, aborts]);
      await driver.click("#exercise-close");
      expect(await driver.page.run("at('answer-pane').hidden"), "no field without an exercise", await driver.see());
    });
  },

  async "code is code, values are signed, and the end that is open says what it means"() {
    await Driver.at("#example=hello", WIDE, async (driver) => {
      await driver.page.run("at('more-acts').open = true");
      await driver.type("dance 0");
      const message = await driver.page.run("at('message').innerHTML");
      expect(message.startsWith("<code>dance 0</code> isn't an act"), "code in a message", message);
      await driver.open("shortest_paths");
      await driver.page.run("go(course.acts.findIndex((line) => line.asks === 'store' && line.old > 2 ** 31) + 1)");
      const {said} = await driver.see();
      expect(said.includes("replacing -1") && !said.includes("4294967295"), "a signed value", said);
      await driver.page.run("pickBoth('0.0', '9.9')");
      await driver.open("schedules/two_lines");
      await driver.page.run("go(course.length)");
      const ends = await driver.page.run("sentences.ends.open");
      expect(ends.includes("stop before the run is over"), "what it means", ends);
      const raw = await driver.page.run("document.body.innerText.split('\\n').filter((line) => /`/.test(line))");
      expect(!raw.length, "no backticks", raw);
      const groups = await driver.page.run("[...document.querySelectorAll('#example optgroup')].map((it) => it.label)");
      expect(groups.at(-1) === "Schedules" && groups[0] === "To begin with", "test material last", groups);
    });
  },

  async "rounds without a commit have a number of their own, by either name"() {
    for (const word of ["starved", "barren"]) {
      await Driver.at(`#example=hello&acts=lockstep+50+7+${word}+4`, WIDE, async (driver) => {
        const {call, end} = await driver.see(), told = await driver.page.run("at('settings').textContent");
        const name = await driver.page.run("STARVED");
        expect(call.includes(`lockstep 50 7 ${name} 4`) && end === "normal", "the mode", call);
        expect(told.includes("at most 4 starved"), "the number", told);
        const link = await driver.page.run("addressNow()");
        expect(link.includes(`${name}+4`), "it in a link", link);
      });
    }
  },
};
