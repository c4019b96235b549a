// ---- a page in headless Firefox, over its Marionette: no package is wanted

import {spawn} from "node:child_process";
import {mkdtempSync, rmSync, writeFileSync} from "node:fs";
import {connect, createServer} from "node:net";
import {tmpdir} from "node:os";
import {join} from "node:path";

const KEYS = {
  Enter: "\uE006",
  Tab: "\uE004",
  ArrowLeft: "\uE012",
  ArrowUp: "\uE013",
  ArrowRight: "\uE014",
  ArrowDown: "\uE015",
  End: "\uE010",
  Home: "\uE011",
  PageUp: "\uE00E",
  PageDown: "\uE00F",
  Escape: "\uE00C"
};
const MOST_TRIES = 900, BETWEEN = 100, MOST_MILLISECONDS = 300000;
const pause = (milliseconds) => new Promise((resolve) => setTimeout(resolve, milliseconds));

/** Evaluates a text by a script of the page, and hands over what it comes to as JSON. */
function inPage(text, done) {
  document.addEventListener("driven", () => done(document.documentElement.dataset.driven), {once: true});
  const script = document.createElement("script");
  script.textContent = `(async () => {
    let told;
    try { told = {value: await (0, eval)(${JSON.stringify(text)})}; } catch (error) { told = {failed: String(error)}; }
    document.documentElement.dataset.driven = JSON.stringify(told);
    document.dispatchEvent(new Event("driven"));
  })()`;
  document.head.append(script);
  script.remove();
}

/** A port that nobody has. */
function freePort() {
  return new Promise((resolve) => {
    const server = createServer().listen(0, "127.0.0.1", () => {
      const {port} = server.address();
      server.close(() => resolve(port));
    });
  });
}

// A window has a least width, so it is the page within it that gets its size.
const LOOK = `const [width, height, isDark] = arguments, {style} = gBrowser.selectedBrowser;
  Services.prefs.setIntPref("layout.css.prefers-color-scheme.content-override", isDark ? 0 : 1);
  style.minWidth = style.maxWidth = width + "px";
  style.minHeight = style.maxHeight = height + "px";`;
// The page is in another process, which hears of its size a little later.
const SIZED = `const [width, height, done] = arguments;
  const look = () => (innerWidth === width && innerHeight === height ? done(null) : setTimeout(look, 20));
  look();`;
// A page begins without what an earlier one kept or reported.
const CLEAN = `const [done] = arguments;
  Services.console.reset();
  Services.clearData.deleteData(Ci.nsIClearDataService.CLEAR_DOM_STORAGES, {onDataDeleted: () => done(null)});`;
// One process for pages is enough, and the browser's own pages aren't wanted.
const PREFERENCES = {
  "browser.shell.checkDefaultBrowser": false,
  "browser.startup.page": 0,
  "browser.newtab.preload": false,
  "browser.newtabpage.enabled": false,
  "dom.ipc.processCount": 1,
  "dom.ipc.processPrelaunch.enabled": false,
  "fission.autostart": false,
  "extensions.systemAddon.update.enabled": false,
  "toolkit.cosmeticAnimations.enabled": false
};
const WINDOW = {width: 2100, height: 1600};
const ERRORS = "return Services.console.getMessageArray().map(String);";

/** The browser in which all pages are, one after the other; it is started for the first of them. */
class Browser {
  constructor() {
    const folder = mkdtempSync(join(tmpdir(), "fractal-page-"));
    Object.assign(this, {folder, number: 0, waiting: new Map(), rest: Buffer.alloc(0)});
  }

  async begin() {
    const port = await freePort();
    const preferences = Object.entries({...PREFERENCES, "marionette.port": port});
    writeFileSync(
      join(this.folder, "user.js"), preferences.map((it) => `user_pref(${it.map(JSON.stringify)});\n`).join(""));
    this.child = spawn(
      "firefox-esr",
      ["--headless", "--marionette", "--remote-allow-system-access", "--no-remote", "--profile", this.folder],
      {stdio: "ignore", env: {...process.env, MOZ_DISABLE_CONTENT_SANDBOX: "1", HOME: this.folder}});
    await this.connect(port);
    await this.send("WebDriver:NewSession", {capabilities: {}});
    await this.send("WebDriver:SetTimeouts", {script: MOST_MILLISECONDS, pageLoad: MOST_MILLISECONDS});
    await this.send("WebDriver:SetWindowRect", WINDOW);
    return this;
  }

  /** Connects once the browser listens. */
  async connect(port) {
    for (let attempt = 0; ; attempt++) {
      try {
        await new Promise((resolve, reject) => {
          this.socket = connect(port, "127.0.0.1", resolve).on("error", reject);
        });
        break;
      } catch (error) {
        if (attempt === MOST_TRIES) throw error;
        await pause(BETWEEN);
      }
    }
    this.socket.on("data", (data) => this.take(data));
  }

  /** Messages are their length, a colon and JSON. */
  take(data) {
    this.rest = Buffer.concat([this.rest, data]);
    for (let colon; (colon = this.rest.indexOf(":")) >= 0;) {
      const end = colon + 1 + Number(this.rest.subarray(0, colon).toString());
      if (this.rest.length < end) break;
      this.answered(JSON.parse(this.rest.subarray(colon + 1, end).toString()));
      this.rest = this.rest.subarray(end);
    }
  }

  answered(message) {
    if (!Array.isArray(message)) return;
    const [, id, error, result] = message, [resolve, reject] = this.waiting.get(id);
    this.waiting.delete(id);
    if (error) reject(new Error(error.message));
    else resolve(result);
  }

  send(name, parameters = {}) {
    const id = ++this.number, text = Buffer.from(JSON.stringify([0, id, name, parameters]));
    this.socket.write(Buffer.concat([Buffer.from(`${text.length}:`), text]));
    return new Promise((resolve, reject) => this.waiting.set(id, [resolve, reject]));
  }

  /** What a script gives back; one of the browser itself may do what no page may. */
  async script(script, args = [], {isOwn = false, isLate = false} = {}) {
    if (isOwn) await this.send("Marionette:SetContext", {value: "chrome"});
    const {value} = await this.send(`WebDriver:Execute${isLate ? "Async" : ""}Script`, {script, args});
    if (isOwn) await this.send("Marionette:SetContext", {value: "content"});
    return value;
  }

  async end() {
    const ended = new Promise((resolve) => { this.child.on("exit", resolve); });
    await this.send("Marionette:Quit", {flags: ["eForceQuit"]}).catch(() => {});
    await ended;
    this.socket.destroy();
    rmSync(this.folder, {recursive: true, force: true, maxRetries: 5, retryDelay: 200});
  }
}

let browser = null;

/** The page that is open; nothing of an earlier one is left. */
export class Page {
  static async open(url, {width = 1400, height = 1300, dark = false} = {}) {
    browser ??= await new Browser().begin();
    const page = new Page();
    await page.go("about:blank");
    await browser.script(CLEAN, [], {isOwn: true, isLate: true});
    await page.look({width, height, dark});
    await page.go(url);
    return page;
  }

  /** Sets how large the page is on the screen, and whether it is dark. */
  async look({width, height, dark = false}) {
    await browser.script(LOOK, [width, height, dark], {isOwn: true});
    await browser.script(SIZED, [width, height], {isLate: true});
  }

  /** Ends the browser of all pages. */
  static async quit() {
    await browser?.end();
    browser = null;
  }

  async go(url) { await browser.send("WebDriver:Navigate", {url}); }

  /** What an expression in the page comes to. A script of the page's own sees what its other scripts declare. */
  async run(expression) {
    const told = JSON.parse(await browser.script(`(${inPage})(...arguments);`, [expression], {isLate: true}));
    if ("failed" in told) throw new Error(told.failed);
    return told.value;
  }

  /** What went wrong in the page, as the browser's log has it. */
  async errors() {
    const found = await browser.script(ERRORS, [], {isOwn: true});
    return found.filter((it) => it.includes("JavaScript Error") && it.includes('file: "file:'));
  }

  async press(key) {
    const value = KEYS[key] ?? key;
    await browser.send(
      "WebDriver:PerformActions",
      {actions: [{type: "key", id: "keys", actions: [{type: "keyDown", value}, {type: "keyUp", value}]}]});
  }

  async shoot(file, isWhole = false) {
    const {value} = await browser.send("WebDriver:TakeScreenshot", {full: isWhole, hash: false});
    writeFileSync(file, Buffer.from(value, "base64"));
  }

  async close() { await this.go("about:blank"); }
}
