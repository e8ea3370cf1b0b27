"use strict";
// A headless Chromium, led over its debugging pipe: messages are JSON, each ended by a zero byte. Time is real time: with
// the browser's own virtual clock a wait may pass before the work that it waits for, which other processes do, has begun.
const { spawn } = require("node:child_process");

class Browser {
  constructor(program, folder) {
    const words = ["--headless", "--no-sandbox", "--disable-gpu", "--remote-debugging-pipe", `--user-data-dir=${folder}`];
    this.process = spawn(program, [...words, "about:blank"], { stdio: ["ignore", "ignore", "ignore", "pipe", "pipe"] });
    this.waiting = new Map();
    this.count = 0;
    this.rest = "";
    this.ended = new Promise((done) => this.process.on("exit", done));
    this.process.stdio[4].on("data", (bytes) => this.receive(bytes.toString()));
    this.process.on("error", (error) => this.giveUp(error));
    this.ended.then(() => this.giveUp(new Error("the browser ended")));
  }

  receive(text) {
    const messages = (this.rest + text).split("\0");
    this.rest = messages.pop();
    for (const message of messages.map((one) => JSON.parse(one))) {
      const [done, failed] = this.waiting.get(message.id) ?? [() => {}, () => {}];
      this.waiting.delete(message.id);
      if (message.error) failed(new Error(message.error.message));
      else done(message.result);
    }
  }

  giveUp(error) {
    for (const [, failed] of this.waiting.values()) failed(error);
    this.waiting.clear();
  }

  // Sends a command and gives its result; no answer within a minute is an error.
  send(method, params = {}) {
    const id = ++this.count;
    const answer = new Promise((done, failed) => this.waiting.set(id, [done, failed]));
    const timer = setTimeout(() => this.waiting.get(id)?.[1](new Error(`${method} isn't answered`)), 60000);
    this.process.stdio[3].write(`${JSON.stringify({ id, method, params, sessionId: this.session })}\0`);
    return answer.finally(() => clearTimeout(timer));
  }

  // Opens a page in a tab of its own, which the next commands go to.
  async open(url) {
    this.session = undefined;
    const { targetId } = await this.send("Target.createTarget", { url });
    const { sessionId } = await this.send("Target.attachToTarget", { targetId, flatten: true });
    this.session = sessionId;
    await this.send("Page.bringToFront");
    // A new tab begins with an empty document, which is complete too.
    const there = `location.href === ${JSON.stringify(url)} && document.readyState === "complete"`;
    while (!(await this.run(there))) await new Promise((done) => setTimeout(done, 20));
  }

  // Runs a script in the page, waits for what it promises, and gives that.
  async run(expression) {
    const wanted = { expression, awaitPromise: true, returnByValue: true };
    const { result, exceptionDetails } = await this.send("Runtime.evaluate", wanted);
    if (exceptionDetails) throw new Error(exceptionDetails.exception?.description ?? exceptionDetails.text);
    return result.value;
  }

  // Presses a key as a hand does.
  async press(key, code) {
    const named = { key, code: key, windowsVirtualKeyCode: code };
    await this.send("Input.dispatchKeyEvent", { type: "keyDown", ...named });
    await this.send("Input.dispatchKeyEvent", { type: "keyUp", ...named });
  }

  async close() {
    this.session = undefined;
    await this.send("Browser.close").catch(() => {});
    await this.ended;
  }
}

module.exports = { Browser };
