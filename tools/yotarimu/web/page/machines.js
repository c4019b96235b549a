// ---- calls of the machine from the page

// More output than this isn't shown: the program is told that it can't be written.
const MOST_OUTPUT = 32 << 20;

/** Both programs, in a worker where the browser allows one for a file from a disk, else in the page's own thread. */
class Machines {
  constructor(packed) {
    this.packed = packed;
    this.number = 0;
    this.waiting = new Map();
    this.worker = null;
  }

  async start() {
    try {
      const text = ["\"use strict\";", at("host-source").textContent, at("worker-source").textContent].join("\n");
      this.worker = new Worker(URL.createObjectURL(new Blob([text], {type: "text/javascript"})));
    } catch {
      return this.startHere();
    }
    this.worker.onmessage = ({data}) => this.answered(data);
    const failed = new Promise((_, reject) => { this.worker.onerror = () => reject(new Error("no worker")); });
    try {
      await Promise.race([this.ask({modules: this.packed}), failed]);
    } catch (error) {
      if (error.message !== "no worker") throw error;
      await this.startHere();
    }
  }

  async startHere() {
    this.worker = null;
    const made = Object.entries(this.packed).map(async ([name, text]) => [name, await Program.unpacked(text)]);
    this.programs = Object.fromEntries(await Promise.all(made));
  }

  ask(question) {
    const number = ++this.number;
    return new Promise((resolve, reject) => {
      this.waiting.set(number, {resolve, reject});
      this.worker.postMessage({number, ...question});
    });
  }

  answered({number, broken, ...told}) {
    const {resolve, reject} = this.waiting.get(number);
    this.waiting.delete(number);
    if (broken === undefined) resolve(told);
    else reject(new Error(broken));
  }

  /** The status and the output of a call. */
  async call(program, words, input) {
    if (this.worker) return this.ask({program, words, input, most: MOST_OUTPUT});
    return this.programs[program].call(words, input, MOST_OUTPUT);
  }

  /** Ends a call that runs, and makes the machine ready for the next. */
  async stop() {
    if (!this.worker || !this.waiting.size) return;
    this.worker.terminate();
    for (const {reject} of this.waiting.values()) reject(new Interruption());
    this.waiting.clear();
    await this.start();
  }
}
