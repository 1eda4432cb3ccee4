/** A small client for PostgreSQL with the three calls that the library asks of `pg`, for machines that have no `pg`: the simple protocol over a
 * socket of the server's folder, without a password. For tests alone. */
import { createConnection } from "node:net";

export class Client {
  #socket;
  #bytes = Buffer.alloc(0);
  #turn = Promise.resolve();
  #wake = () => {};
  #ended = null;

  constructor({ host, user, database }) {
    Object.assign(this, { host, user, database });
  }

  on() {}

  async connect() {
    this.#socket = createConnection(`${this.host}/.s.PGSQL.5432`);
    this.#socket.on("data", (more) => {
      this.#bytes = Buffer.concat([this.#bytes, more]);
      this.#wake();
    });
    this.#socket.on("error", (error) => (this.#ended ??= error));
    this.#socket.on("close", () => {
      this.#ended ??= new Error("Connection terminated unexpectedly");
      this.#wake();
    });
    const words = Buffer.from(`user\0${this.user}\0database\0${this.database}\0\0`);
    const head = Buffer.alloc(8);
    head.writeInt32BE(8 + words.length, 0);
    head.writeInt32BE(196608, 4);
    this.#socket.write(Buffer.concat([head, words]));
    await this.#answer();
  }

  query(text) {
    const done = this.#turn.then(() => {
      this.#send("Q", Buffer.from(`${text}\0`));
      return this.#answer();
    });
    this.#turn = done.catch(() => {});
    return done;
  }

  async end() {
    if (!this.#ended) this.#send("X", Buffer.alloc(0));
    this.#socket.end();
  }

  #send(kind, body) {
    const head = Buffer.alloc(5);
    head.write(kind);
    head.writeInt32BE(4 + body.length, 1);
    this.#socket.write(Buffer.concat([head, body]));
  }

  async #message() {
    for (;;) {
      if (this.#bytes.length >= 5 && this.#bytes.length > this.#bytes.readInt32BE(1)) {
        const length = this.#bytes.readInt32BE(1);
        const message = [String.fromCharCode(this.#bytes[0]), this.#bytes.subarray(5, length + 1)];
        this.#bytes = this.#bytes.subarray(length + 1);
        return message;
      }
      if (this.#ended) throw this.#ended;
      await new Promise((wake) => (this.#wake = wake));
    }
  }

  /** All up to where the server is ready for the next statement, or the error that it told. */
  async #answer() {
    const result = { rows: [], rowCount: null, command: "" };
    let names = [];
    let error = null;
    for (;;) {
      const [kind, body] = await this.#message();
      if (kind === "T") names = namesOf(body);
      else if (kind === "D") result.rows.push(rowOf(body, names));
      else if (kind === "C") {
        const words = body.toString("utf8", 0, body.length - 1).split(" ");
        result.command = words[0];
        result.rowCount = /^\d+$/.test(words.at(-1)) ? Number(words.at(-1)) : null;
      } else if (kind === "E") error = errorOf(body);
      else if (kind === "Z" && error) throw error;
      else if (kind === "Z") return result;
      if (error?.severity === "FATAL") throw error;
    }
  }
}

function namesOf(body) {
  const names = [];
  for (let at = 2, count = body.readInt16BE(0); count > 0; count--) {
    const end = body.indexOf(0, at);
    names.push(body.toString("utf8", at, end));
    at = end + 19;
  }
  return names;
}

function rowOf(body, names) {
  const row = {};
  let at = 2;
  for (const name of names) {
    const length = body.readInt32BE(at);
    at += 4;
    row[name] = length < 0 ? null : body.toString("utf8", at, at + length);
    at += Math.max(length, 0);
  }
  return row;
}

function errorOf(body) {
  const fields = Object.fromEntries(body.toString("utf8").split("\0").filter(Boolean).map((field) => [field[0], field.slice(1)]));
  return Object.assign(new Error(fields.M), { severity: fields.V ?? fields.S, code: fields.C });
}
