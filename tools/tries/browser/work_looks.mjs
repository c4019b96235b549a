// ---- looks at what a person makes: acts, sources, the profile, what is kept, and exercises of their own

import {readFileSync} from "node:fs";
import {join} from "node:path";

import {Driver, WIDE, examples, expect} from "./driver.mjs";

const CONFLICT = "#example=schedules/conflict&acts=steps";
const OWN = [
  ["wanted", "# Let the second task be aborted.\nanswer script\nacts ..20\ntaken 1..\nend normal\n"],
  ["words", "steps --tiles 2 --cores 1\n"],
  ["task.s", `# image: root ordered
# image: task add ts 1
# image: task add ts 2
add: la t0, sum
 lw t1, 0(t0)
 addi t1, t1, 1
 sw t1, 0(t0)
 li a7, 0
 ecall
 .data
sum: .word 0
`]];
const ABORTING = ["dispatch 1", "dispatch 0", "step 1 0", "step 0 0", "step 0 0"];

/** Types into the editor as a person does, and waits until it was checked. */
const WRITE = (text) => `at("source-text").value = ${JSON.stringify(text)};
  at("source-text").dispatchEvent(new Event("input", {bubbles: true}));
  new Promise((resolve) => setTimeout(resolve, 2 * CHECK_AFTER))`;

export const WORK_LOOKS = {
  async "an act made within the run replaces what follows, and undo restores it"() {
    await Driver.at(CONFLICT, WIDE, async (driver) => {
      await driver.open("schedules/conflict");
      const before = await driver.page.run("script.join()");
      await driver.page.run("go(3)");
      await driver.click("[data-act=advance]");
      const {script, at} = await driver.see(), cut = await driver.page.run("at('cut').textContent");
      expect(script === 4 && at === 4 && cut.includes("14 acts after act 3 were replaced"), "the act", [script, cut]);
      await driver.click("#undo");
      expect(await driver.page.run("script.join()") === before, "the script as before", await driver.see());
      expect((await driver.see()).at === 3, "the same place", await driver.see());
      const rare = await driver.page.run(
        "[...at('more-acts').querySelectorAll('[data-act]')].map((it) => it.dataset.act)");
      expect(`${rare}` === "coalesce,split,take,give", "the rarer acts under more", rare);
    });
  },

  async "keys alone make acts and undo them, a refused one says why, and each act has words for a screen reader"() {
    await Driver.at(CONFLICT, WIDE, async (driver) => {
      const pressed = async (button) => {
        await driver.enter(button);
        return driver.see();
      };
      for (const [place, act] of ["dispatch", "step", "advance"].entries()) {
        const {script, said} = await pressed(`[data-act=${act}]`);
        expect(script === place + 1 && said.startsWith("T"), `the act ${act} by a key`, [script, said]);
      }
      const {script} = await pressed("[data-act=commit]");
      const [why, role] = await driver.page.run("[at('cut').textContent, at('cut').getAttribute('role')]");
      expect(script === 3 && why.includes("Refused: ") && role === "status", "the reason", [script, why, role]);
      expect((await pressed("#undo")).script === 2, "an act less by a key", await driver.see());
      await driver.open("schedules/conflict");
      const silent = await driver.page.run(`[...Array(course.length + 1).keys()].filter((place) => {
        go(place);
        const text = at("lanes").getAttribute("aria-valuetext"), {textContent: said} = at("said");
        const marks = [...at("tiles").querySelectorAll(".task > span")].map((it) => it.getAttribute("aria-label"));
        return text !== "act " + place + " of 17" || said.length < 20 || marks.some((it) => !it)
          || !marks.length && place < 17;
      })`);
      expect(!silent.length && await driver.page.run("at('said').getAttribute('aria-live')") === "polite",
        "words for each act", silent);
    });
  },

  async "one editor has each example's source, marks what is wrong, and runs what it shows"() {
    await Driver.at("#example=hello", WIDE, async (driver) => {
      const without
        = await driver.page.run("examples.filter((it) => !it.sources.length && !it.c).map((it) => it.name)");
      expect(!without.length, "sources of all examples", without);
      const others = await driver.page.run(`examples.filter((it) => it.sources.length
        && btoa(String.fromCharCode(...imageOf(assembled(...it.sources)))) !== it.image).map((it) => it.name)`);
      expect(!others.length, "sources that make the image", others);
      await driver.open("hello");
      const text = await driver.page.run("at('source-text').value");
      await driver.page.run(WRITE(text.replace("ecall", "dance a0")));
      const [told, line] = await driver.page.run("[at('assembled').textContent, editor.wrong]");
      expect(told.includes("dance") && line > 0, "the line that is wrong", [told, line]);
      expect(await driver.page.run("document.querySelector('#gutter .wrong span').textContent") === `${line}`,
        "the line marked", told);
      await driver.click("#assemble");
      expect(await driver.page.run("document.activeElement.id") === "source-text", "the caret there", told);
      await driver.page.run(WRITE(`here: dance a0\n${text}${"# more\n".repeat(99)}`));
      await driver.page.run("at('source-text').setSelectionRange(9999, 9999); at('source-text').scrollTop = 9999");
      await driver.click("#assemble");
      const isSeen = await driver.page.run(
        `new Promise((resolve) => setTimeout(resolve, 200)).then(() => at("source-text").scrollTop < LINE_HIGH
          && Boolean(document.querySelector("#gutter .wrong")))`);
      expect(isSeen, "the wrong line in sight", isSeen);
      await driver.page.run(WRITE(text));
      const runs = await driver.page.run("at('assembled').textContent");
      expect(runs.startsWith("This text runs"), "the text that runs", runs);
      await driver.click("#tab-help");
      const help = await driver.page.run("at('help-pane').innerText");
      for (const part of ["makes its subdomain", "emits the low byte", "a5", "10000000", "# image: task"])
        expect(help.includes(part), `${part} in the help`, help.slice(0, 200));
      await driver.open("c/bank");
      const [isFixed, c] = await driver.page.run("[at('source-text').readOnly, at('source-text').value]");
      expect(isFixed && c.includes("#include"), "C to read", [isFixed, c.slice(0, 80)]);
    });
  },

  async "an own program opens in lockstep, and the profile says which lines abort which tasks and what would help"() {
    await Driver.at("#example=hello", WIDE, async (driver) => {
      await driver.files(["mine.s", readFileSync(join(examples, "shortest_paths", "task.s"))]);
      const {course, end} = await driver.see();
      expect(course === "lockstep" && end === "normal", "rounds", [course, end]);
      const table = await driver.page.run("at('profile-table').innerText");
      for (const part of ["distance", "aborted", "line 18", "sw a3, 0(t1)", "same line", ".balign 16", "lost"])
        expect(table.replace(/ +/g, " ").includes(part), part, table);
      await driver.page.run("go(0); document.querySelector('[data-word]').click()");
      const {said} = await driver.see();
      expect(said.includes("aborted"), "the act of an abort", said);
      expect((await driver.page.run("at('memory').innerText")).includes("-1"), "signed decimals", said);
    });
  },

  async "text, answer, exercise and place are kept, and a question comes before acts are left"() {
    await Driver.at("#example=hello", WIDE, async (driver) => {
      await driver.open("nested");
      const text = `${await driver.page.run("at('source-text').value")}\n# mine\n`;
      await driver.page.run(WRITE(text));
      await driver.choose("exercise", "journal");
      await driver.page.run("at('answer').value = '1 0.0 1 0'; at('answer').dispatchEvent(new Event('input'))");
      await driver.page.run("new Promise((resolve) => setTimeout(resolve, 900))");
      const link = await driver.page.run("addressNow()");
      expect(link.includes("exercise=journal"), "the exercise in the link", link);
      await driver.reload();
      const [name, answer] = await driver.page.run("[openedExercise, at('answer').value]");
      expect(name === "journal" && answer === "1 0.0 1 0", "the exercise and its answer", [name, answer]);
      await driver.open("nested");
      expect(await driver.page.run("at('source-text').value") === text, "the text", name);
      await driver.open("schedules/conflict");
      await driver.page.run("go(2); globalThis.isAsking = true");
      await driver.click("[data-act=advance]");
      await driver.open("hello");
      const [isAsked, question] = await driver.page.run("[!at('ask').hidden, at('ask-text').textContent]");
      expect(isAsked && question.includes("3 acts"), "a question", [isAsked, question]);
      await driver.click("#ask-no");
      expect((await driver.see()).name === "schedules/conflict", "what was open", await driver.see());
      await driver.open("hello");
      await driver.click("#ask-yes");
      await driver.page.run("new Promise((resolve) => setTimeout(resolve, 50)).then(() => chain)");
      expect((await driver.see()).name === "hello", "the other one", await driver.see());
    });
  },

  async "a lecturer's own exercise is opened from files and by a link, and is judged"() {
    let link;
    await Driver.at("#example=hello", WIDE, async (driver) => {
      await driver.files(...OWN);
      const [text, acts] = await driver.page.run("[at('exercise-text').textContent, course.length]");
      expect(text.includes("Let the second task be aborted.") && text.includes("taken 1..") && acts === 0, "it", text);
      await driver.click("#judge");
      expect((await driver.see()).verdict.startsWith("wrong"), "no answer yet", await driver.see());
      link = await driver.page.run("addressNow()");
    });
    await Driver.at(`#${link}`, WIDE, async (driver) => {
      await driver.page.run("at('more-acts').open = true");
      for (const act of [...ABORTING, "run 12"]) await driver.type(act);
      await driver.click("#judge");
      expect((await driver.see()).verdict === "right: all 3 conditions hold.", "the answer", await driver.see());
      await driver.files(["wanted", "answer script\nfly 3\n"], OWN[2]);
      expect((await driver.see()).message.includes("wanted:2: unknown condition"), "a sentence", await driver.see());
    });
  },

  async "what the page says has the field's words"() {
    await Driver.at("", WIDE, async (driver) => {
      for (const name of ["schedules/conflict", "schedules/stall", "shortest_paths"]) {
        await driver.open(name);
        const text = await driver.page.run("document.body.innerText");
        for (const word of ["taken back", "took back", "takes back", "behind this act"])
          expect(!text.toLowerCase().includes(word), `no \`${word}\``, name);
      }
    });
  },
};
