// ---- drives the page in a browser, as a person does

import {join} from "node:path";
import {pathToFileURL} from "node:url";

export const BROWSER = process.env.BROWSER ?? "chromium";
export const {Page} = await import(`./${BROWSER}.mjs`);

export const [, , file, examples, shots] = process.argv;
const url = pathToFileURL(file).href;
export const EXERCISES = join(examples, "exercises");
export const [WIDE, NARROW] = [{}, {width: 390, height: 844}];

/** What a look at the page is to find. */
export function expect(isSo, what, seen) {
  if (!isSo) throw new Error(`expected ${what}; seen ${JSON.stringify(seen)}`);
}

export const REFUSED_OF = (act) => `(() => {
  const button = document.querySelector("[data-act=${act}]");
  return [button.getAttribute("aria-disabled") === "true", button.title];
})()`;
const SEEN = `({said: at("said").textContent, call: at("call").textContent, message: at("message").textContent,
  acts: course.length, at: current, script: script.length, course: courseNow().kind, name: subject.name,
  end: toldRun.end && toldRun.end.end, verdict: at("verdict").textContent, report: at("report-said").textContent,
  where: at("where").textContent, story: at("story").hidden ? "" : at("story-text").textContent})`;

// What was begun is done; a question whether acts may be left is answered with yes.
const SETTLED = `(async () => {
  await new Promise((resolve) => setTimeout(resolve));
  if (!at("ask").hidden && !globalThis.isAsking) at("ask-yes").click();
  await new Promise((resolve) => setTimeout(resolve));
  await chain;
})()`;

export class Driver {
  static async at(hash, how, action) {
    const driver = Object.assign(new Driver(), {page: await Page.open(`${url}${hash}`, how)});
    try {
      await driver.page.run("ready");
      await action(driver);
      const errors = await driver.page.errors();
      expect(!errors.length, "nothing in the browser's log", errors);
    } finally {
      await driver.page.close();
    }
  }

  see() { return this.page.run(SEEN); }

  async click(id) { await this.page.run(`document.querySelector(${JSON.stringify(id)}).click(); ${SETTLED}`); }

  /** Presses a button as a person without a mouse does. */
  async enter(id) {
    await this.page.run(`document.querySelector(${JSON.stringify(id)}).focus()`);
    await this.page.press("Enter");
    await this.page.run(SETTLED);
  }

  async choose(id, value) {
    const change = 'dispatchEvent(new Event("change", {bubbles: true}))';
    await this.page.run(`at("${id}").value = ${JSON.stringify(String(value))}; at("${id}").${change}; ${SETTLED}`);
  }

  async type(text) {
    await this.page.run(`at("typed").value = ${JSON.stringify(text)}; at("typed").focus()`);
    await this.page.press("Enter");
    await this.page.run("chain");
  }

  /** The same page anew, with what the browser kept. */
  async reload() {
    await this.page.go("about:blank");
    await this.page.go(url);
    await this.page.run("ready");
  }

  async open(name) {
    await this.choose("example", await this.page.run(`examples.findIndex((it) => it.name === "${name}")`));
  }

  async files(...files) {
    const given = files.map(([name, data]) => [name, Buffer.from(data).toString("base64")]);
    await this.page.run(
      `perform(() => openFiles(${JSON.stringify(given)}.map(([name, text]) => new File([bytesOf(text)], name))))`);
  }

  async shoot(name, isWhole = false) { if (shots) await this.page.shoot(join(shots, `${name}.png`), isWhole); }
}
