// ---- a page in headless Chromium, over the pipe that its debugger has: no package is wanted

import {spawn} from "node:child_process";
import {mkdtempSync, rmSync, writeFileSync} from "node:fs";
import {tmpdir} from "node:os";
import {join} from "node:path";

const [TO, FROM] = [3, 4];

/** The browser in which all pages are; it is started for the first of them. */
class Browser {
  constructor() {
    Object.assign(this, {folder: mkdtempSync(join(tmpdir(), "fractal-page-")), number: 0, waiting: new Map(),
      pages: new Map()});
    this.child = spawn(
      "chromium",
      ["--headless", "--no-sandbox", "--disable-gpu", "--remote-debugging-pipe", `--user-data-dir=${this.folder}`],
      {stdio: ["ignore", "ignore", "ignore", "pipe", "pipe"]});
    let rest = Buffer.alloc(0);
    this.child.stdio[FROM].on("data", (data) => {
      rest = Buffer.concat([rest, data]);
      for (let end; (end = rest.indexOf(0)) >= 0; rest = rest.subarray(end + 1))
        this.take(JSON.parse(rest.subarray(0, end)));
    });
  }

  take({id, error, result, sessionId, method, params}) {
    if (!id) {
      this.pages.get(sessionId)?.take(method, params);
      return;
    }
    const [resolve, reject] = this.waiting.get(id);
    this.waiting.delete(id);
    if (error) reject(new Error(JSON.stringify(error)));
    else resolve(result);
  }

  send(method, params = {}, sessionId = undefined) {
    const id = ++this.number;
    this.child.stdio[TO].write(`${JSON.stringify({id, method, params, sessionId})}\0`);
    return new Promise((resolve, reject) => this.waiting.set(id, [resolve, reject]));
  }

  async end() {
    const ended = new Promise((resolve) => { this.child.on("exit", resolve); });
    await this.send("Browser.close").catch(() => {});
    await ended;
    rmSync(this.folder, {recursive: true, force: true, maxRetries: 5, retryDelay: 200});
  }
}

let browser = null;

/** A page that shares nothing with other pages: it keeps nothing of theirs. */
export class Page {
  static async open(url, {width = 1400, height = 1300, dark = false, before = ""} = {}) {
    browser ??= new Browser();
    const {browserContextId} = await browser.send("Target.createBrowserContext");
    const {targetId} = await browser.send("Target.createTarget", {url: "about:blank", browserContextId});
    const {sessionId} = await browser.send("Target.attachToTarget", {targetId, flatten: true});
    const page = Object.assign(new Page(), {browserContextId, sessionId, logs: []});
    browser.pages.set(sessionId, page);
    for (const domain of ["Page", "Runtime", "Log"]) await page.send(`${domain}.enable`);
    await page.look({width, height, dark});
    if (before) await page.send("Page.addScriptToEvaluateOnNewDocument", {source: before});
    await page.go(url);
    return page;
  }

  /** Sets how large the page is on the screen, and whether it is dark. */
  async look({width, height, dark = false}) {
    await this.send("Emulation.setDeviceMetricsOverride", {width, height, deviceScaleFactor: 1, mobile: width < 500});
    const features = [{name: "prefers-color-scheme", value: dark ? "dark" : "light"}];
    await this.send("Emulation.setEmulatedMedia", {features});
  }

  /** Ends the browser of all pages. */
  static async quit() {
    await browser?.end();
    browser = null;
  }

  take(method, params) {
    if (method === "Page.loadEventFired") this.loaded?.();
    if (method === "Runtime.exceptionThrown")
      this.logs.push(params.exceptionDetails.exception?.description ?? params.exceptionDetails.text);
    if (method === "Runtime.consoleAPICalled")
      this.logs.push(params.args.map((it) => it.value ?? it.description).join(" "));
    if (method === "Log.entryAdded") this.logs.push(params.entry.text);
  }

  send(method, params = {}) { return browser.send(method, params, this.sessionId); }

  async go(url) {
    const loaded = new Promise((resolve) => { this.loaded = resolve; });
    await this.send("Page.navigate", {url});
    await loaded;
  }

  /** What an expression in the page comes to. */
  async run(expression) {
    const {result, exceptionDetails}
    = await this.send("Runtime.evaluate", {expression, awaitPromise: true, returnByValue: true});
    if (exceptionDetails) throw new Error(exceptionDetails.exception?.description ?? exceptionDetails.text);
    return result.value;
  }

  /** What the page's log has. */
  errors() { return this.logs; }

  /** A key as a person presses it. */
  async press(key) {
    const codes
      = {Enter: 13, Tab: 9, Escape: 27, ArrowLeft: 37, ArrowRight: 39, ArrowDown: 40, ArrowUp: 38, PageUp: 33,
        PageDown: 34, Home: 36, End: 35, " ": 32};
    const typed = key === "Enter" ? "\r" : key.length === 1 ? key : "";
    const event = {key, windowsVirtualKeyCode: codes[key] ?? key.toUpperCase().charCodeAt(0), text: typed};
    await this.send("Input.dispatchKeyEvent", {type: event.text ? "keyDown" : "rawKeyDown", ...event});
    await this.send("Input.dispatchKeyEvent", {type: "keyUp", ...event});
  }

  async shoot(file, isWhole = false) {
    const {data} = await this.send("Page.captureScreenshot", {format: "png", captureBeyondViewport: isWhole});
    writeFileSync(file, Buffer.from(data, "base64"));
  }

  async close() {
    browser.pages.delete(this.sessionId);
    await browser.send("Target.disposeBrowserContext", {browserContextId: this.browserContextId});
  }
}
