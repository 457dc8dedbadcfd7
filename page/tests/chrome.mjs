// A headless Chromium, driven through the DevTools protocol over a pipe.
import { spawn } from "node:child_process";
import { mkdtempSync, rmSync } from "node:fs";
import { tmpdir } from "node:os";
import { join } from "node:path";

const FLAGS = ["--headless=new", "--no-sandbox", "--disable-gpu", "--no-first-run", "--disable-dev-shm-usage", "--remote-debugging-pipe",
  // With these a page behind another one runs as fast as the one in front.
  "--disable-background-timer-throttling", "--disable-backgrounding-occluded-windows", "--disable-renderer-backgrounding"];
const COMPLAINTS = ["Runtime.exceptionThrown", "Runtime.consoleAPICalled", "Log.entryAdded"];

const pause = (milliseconds) => new Promise((done) => setTimeout(done, milliseconds));

/** A page of the browser. */
class Page {
  constructor(send) {
    this.send = send;
  }

  /** Returns the value of an expression in the page. */
  async evaluate(expression) {
    const { result, exceptionDetails } = await this.send("Runtime.evaluate", { expression, awaitPromise: true, returnByValue: true });
    if (exceptionDetails) {
      throw new Error(JSON.stringify(exceptionDetails).slice(0, 800));
    }
    return result.value;
  }

  /** Waits until an expression is true. */
  async until(expression, milliseconds = 120_000) {
    for (const start = Date.now(); Date.now() - start < milliseconds; await pause(20)) {
      if (await this.evaluate(expression).catch(() => false)) {
        return;
      }
    }
    throw new Error(`not so after ${milliseconds} ms: ${expression}`);
  }

  async screenshot() {
    return Buffer.from((await this.send("Page.captureScreenshot", { format: "png" })).data, "base64");
  }

  /** Presses a key; modifiers are 1 for Alt, 2 for Control, 8 for Shift. */
  async press(key, code, keyCode, modifiers = 0) {
    const event = { key, code, modifiers, windowsVirtualKeyCode: keyCode };
    await this.send("Input.dispatchKeyEvent", { type: "keyDown", ...event });
    await this.send("Input.dispatchKeyEvent", { type: "keyUp", ...event });
  }

  async type(text) {
    await this.send("Input.insertText", { text });
  }

  async mouse(type, place) {
    await this.send("Input.dispatchMouseEvent", { type, ...place, button: type === "mouseMoved" ? "none" : "left", clickCount: 1 });
  }

  async colours(scheme) {
    await this.send("Emulation.setEmulatedMedia", { features: [{ name: "prefers-color-scheme", value: scheme }] });
  }
}

export class Chrome {
  #process;
  #folder = mkdtempSync(join(tmpdir(), "chrome-"));
  #number = 0;
  #waiting = new Map();
  #heard = [];

  constructor() {
    const words = [...FLAGS, `--user-data-dir=${this.#folder}`, "about:blank"];
    this.#process = spawn(process.env.CHROMIUM ?? "chromium", words, { stdio: ["ignore", "ignore", "ignore", "pipe", "pipe"] });
    // In case the tests end before they close the browser.
    process.on("exit", () => {
      this.#process.kill("SIGKILL");
      this.#remove();
    });
    let rest = Buffer.alloc(0);
    this.#process.stdio[4].on("data", (bytes) => {
      rest = Buffer.concat([rest, bytes]);
      for (let end = rest.indexOf(0); end >= 0; end = rest.indexOf(0)) {
        this.#hear(JSON.parse(rest.subarray(0, end).toString()));
        rest = rest.subarray(end + 1);
      }
    });
  }

  #hear(message) {
    if (message.id === undefined) {
      this.#heard.push(message);
      return;
    }
    const { done, fail } = this.#waiting.get(message.id);
    this.#waiting.delete(message.id);
    message.error ? fail(new Error(JSON.stringify(message.error))) : done(message.result);
  }

  #send(method, params = {}, sessionId = undefined) {
    const id = (this.#number += 1);
    this.#process.stdio[3].write(`${JSON.stringify({ id, method, params, sessionId })}\0`);
    return new Promise((done, fail) => this.#waiting.set(id, { done, fail }));
  }

  /** Returns the messages on the consoles, and the failures. */
  get complaints() {
    return this.#heard.filter(({ method }) => COMPLAINTS.includes(method)).map(({ params }) => JSON.stringify(params).slice(0, 600));
  }

  /** Opens a page of this size, in light or dark colours. */
  async open(url, { scheme = "light", width = 1280, height = 900 } = {}) {
    const { targetId } = await this.#send("Target.createTarget", { url: "about:blank" });
    const { sessionId } = await this.#send("Target.attachToTarget", { targetId, flatten: true });
    const page = new Page((method, params) => this.#send(method, params, sessionId));
    for (const part of ["Page", "Runtime", "Log"]) {
      await page.send(`${part}.enable`);
    }
    await page.send("Emulation.setDeviceMetricsOverride", { width, height, deviceScaleFactor: 1, mobile: false });
    await page.colours(scheme);
    await page.send("Page.navigate", { url });
    await page.until("document.body?.dataset.ready === 'yes'");
    return page;
  }

  async close() {
    await this.#send("Browser.close").catch(() => {});
    await new Promise((done) => (this.#process.exitCode === null ? this.#process.on("exit", done) : done()));
    this.#remove();
  }

  #remove() {
    // Processes of the browser may still write there for a moment.
    rmSync(this.#folder, { recursive: true, force: true, maxRetries: 20, retryDelay: 100 });
  }
}
