/** The dialogue with `tps serve`: a line goes out, and its answer comes back. docs/DRIVERS.md has the protocol. */
import { spawn } from "node:child_process";
import { ProgramMissing } from "./errors.mjs";

const FAULTS = ["disk fault", "no memory", "read fault"];

/** The program has ended: its last line, or none, and its status, which is negative where a signal ended it. */
export class Ended extends Error {
  constructor(line, status) {
    super(`serve ended with ${line || "no line"}, status ${status}`);
    this.line = line;
    this.status = status;
  }
}

/** The piece of a line such as `piece 4: do 2.reserve take 3 2` or `piece 9: end 2`; null if it is another line. */
export function readPiece(line) {
  const words = line.split(" ");
  if (words[0] !== "piece") return null;
  const [process, step = ""] = words[3].split(".");
  const [operation = "", key = 0, amount = 0] = words.slice(4);
  return { number: parseInt(words[1]), work: words[2], process: Number(process), step, operation, key: Number(key), amount: Number(amount) };
}

export const placeOf = (piece) => `${piece.process}.${piece.step}`;

/** One run of `tps serve`. `active` has the processes, with their names, that an earlier run left. */
export class Dialogue {
  #lines = [];
  #rest = "";
  #readers = [];
  #closed = false;
  #child;
  #ended;

  static async open(program, folder, scenario) {
    const dialogue = new Dialogue(program, folder);
    try {
      dialogue.#say(`${scenario.trimEnd()}\n%%\n`);
      dialogue.active = await dialogue.#readReady();
      return dialogue;
    } catch (error) {
      await dialogue.close();
      throw error;
    }
  }

  constructor(program, folder) {
    // A signal for the driver's own group, such as that of Ctrl-C, isn't for the program.
    this.#child = spawn(program, ["serve"], { cwd: folder, stdio: ["pipe", "pipe", "inherit"], detached: true });
    this.#ended = new Promise((resolve) => {
      this.#child.on("error", (error) => resolve(error));
      this.#child.on("close", (status, signal) => resolve(status ?? (signal ? -1 : -2)));
    });
    this.#child.stdin.on("error", () => {});
    this.#child.stdout.setEncoding("latin1");
    this.#child.stdout.on("data", (text) => this.#take(text));
    this.#ended.then(() => {
      this.#closed = true;
      this.#wake();
    });
  }

  get pid() {
    return this.#child.pid;
  }

  /** Ends the input, and waits until the program has ended. */
  async close() {
    this.#child.stdin.end();
    await this.#ended;
  }

  /** The lines of the answer to a line. */
  async ask(line) {
    return (await this.askAll([line]))[0];
  }

  /** The answers to these lines, which go out in one write each 200. */
  async askAll(lines) {
    const answers = [];
    for (let at = 0; at < lines.length; at += 200) {
      const some = lines.slice(at, at + 200);
      this.#say(some.map((line) => `${line}\n`).join(""));
      for (const _ of some) answers.push(await this.#readAnswer());
    }
    return answers;
  }

  #say(text) {
    this.#child.stdin.write(text, "latin1");
  }

  #take(text) {
    const lines = (this.#rest + text).split("\n");
    this.#rest = lines.pop();
    for (const line of lines) this.#lines.push(line);
    this.#wake();
  }

  #wake() {
    while (this.#readers.length && (this.#lines.length || this.#closed)) this.#readers.shift()();
  }

  async #readLine() {
    if (!this.#lines.length && !this.#closed) await new Promise((resolve) => this.#readers.push(resolve));
    if (!this.#lines.length) throw await this.#endedWith("");
    return this.#lines.shift();
  }

  async #readAnswer() {
    const first = await this.#readLine();
    if (FAULTS.includes(first)) throw await this.#endedWith(first);
    if (!first.startsWith("lines ")) return [first];
    const lines = [];
    for (let count = Number(first.split(" ")[1]); count > 0; count--) lines.push(await this.#readLine());
    return lines;
  }

  async #readReady() {
    const first = await this.#readLine();
    if (!first.startsWith("ready ")) throw await this.#endedWith(first);
    const active = new Map();
    for (let count = Number(first.split(" ")[1]); count > 0; count--) {
      const [how, number, name] = (await this.#readLine()).split(" ");
      if (how === "completing" || how === "resuming") active.set(Number(number), name);
    }
    return active;
  }

  async #endedWith(line) {
    const status = await this.#ended;
    if (typeof status === "number") return new Ended(line, status);
    return status.code === "ENOENT" ? new ProgramMissing(`${status.path} is not there`) : status;
  }
}
