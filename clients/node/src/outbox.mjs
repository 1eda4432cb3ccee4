/** An outbox in front of a system that can't prepare: mail, or HTTP with an idempotency key. What is prepared is a row, and what is committed is
 * sent until it goes through. */
import { debuglog } from "node:util";
import { Work } from "./participants.mjs";
import { Sqlite } from "./sqlite.mjs";
import { literal } from "./statements.mjs";

const debug = debuglog("sihtolem");
const QUEUE =
  "CREATE TABLE IF NOT EXISTS sihtolem_outbox (number INTEGER PRIMARY KEY, name TEXT NOT NULL UNIQUE, mark TEXT NOT NULL, place TEXT NOT NULL," +
  " undo INTEGER NOT NULL, process TEXT NOT NULL, operation TEXT NOT NULL, key INTEGER NOT NULL, amount INTEGER NOT NULL," +
  " sent INTEGER NOT NULL DEFAULT 0)";
const put = (behind, undo) =>
  "INSERT OR IGNORE INTO sihtolem_outbox (name, mark, place, undo, process, operation, key, amount)" +
  ` SELECT mark || '/' || place || '${behind}', mark, place, ${undo}, process, operation, key, amount FROM sihtolem_work` +
  " WHERE mark || '/' || place = :name";

/** Sends the work of these operations by `send(work)`, in the order of their commits, again and again until it throws nothing. `work.name` is the
 * idempotency key: the receiver drops what comes twice. The undo of a step is work too, with `work.undo`, and goes out behind the step. */
export class Outbox extends Sqlite {
  #sender = null;
  #closing = false;
  #wake = () => {};
  #isAwake = false;

  constructor(database, operations, send, { firstPause = 50, longestPause = 60_000 } = {}) {
    const held = { commit: put("", 0), undo: put(" undo", 1) };
    super(database, Object.fromEntries(operations.map((operation) => [operation, held])), { setUp: [QUEUE] });
    Object.assign(this, { send, firstPause, longestPause });
  }

  /** The sender begins here: what an earlier run committed and didn't send goes out first. */
  async begin(mark) {
    await super.begin(mark);
    this.#sender ??= this.#sendAll();
  }

  async commit(work) {
    await super.commit(work);
    this.#rouse();
  }

  /** What is committed and not sent yet, in order. */
  async unsent() {
    const query = "SELECT mark, place, undo, process, operation, key, amount FROM sihtolem_outbox WHERE sent = 0 ORDER BY number";
    const rows = await this.transaction(() => this.database.prepare(query).all());
    return rows.map((row) => new Work(row.mark, row.place, Boolean(row.undo), row.process, row.operation, Number(row.key), Number(row.amount)));
  }

  /** Sends what can be sent at once. The rest goes out at the next start. */
  async close() {
    this.#closing = true;
    this.#rouse();
    await this.#sender;
    await super.close();
  }

  #rouse() {
    this.#isAwake = true;
    this.#wake();
  }

  async #sendAll() {
    for (let pause = this.firstPause; ; ) {
      this.#isAwake = false;
      let sent = false;
      try {
        sent = await this.#sendSome();
      } catch (error) {
        debug("%s", error.message);
      }
      pause = sent ? this.firstPause : Math.min(2 * pause, this.longestPause);
      if (this.#closing) return;
      if (!this.#isAwake) await this.#sleep(sent ? undefined : pause);
    }
  }

  async #sleep(pause) {
    let timer;
    await new Promise((wake) => {
      this.#wake = wake;
      if (pause !== undefined) timer = setTimeout(wake, pause);
    });
    clearTimeout(timer);
  }

  /** Whether all went out. What isn't taken holds up nothing but what is of its own process. */
  async #sendSome() {
    const late = new Set();
    for (const work of await this.unsent()) {
      if (late.has(work.process)) continue;
      try {
        await this.send(work);
      } catch (error) {
        debug("%s isn't sent yet: %s", work.name, error.message);
        late.add(work.process);
        continue;
      }
      await this.transaction(() => this.database.exec(`UPDATE sihtolem_outbox SET sent = 1 WHERE name = ${literal(work.name)}`));
    }
    return late.size === 0;
  }
}
