/** A SQLite database that takes part. It can't prepare a transaction, so what is prepared is a row, and what it holds back. */
import { Overtaken, Refused, Unreachable, WorkAhead } from "./errors.mjs";
import { State } from "./settling.mjs";
import { filled, inOrder, literal } from "./statements.mjs";

const TABLE =
  "CREATE TABLE IF NOT EXISTS sihtolem_work (mark TEXT NOT NULL, place TEXT NOT NULL, process TEXT NOT NULL, operation TEXT NOT NULL," +
  " key INTEGER NOT NULL, amount INTEGER NOT NULL, state TEXT NOT NULL, PRIMARY KEY (mark, place))";

/** `database` is one of `node:sqlite` or `better-sqlite3`, which the caller opens and nobody else uses; it may answer by promises too.
 * An operation is `{hold, commit, release, undo, refusal}`: `hold` holds back what the step needs, and refuses it where a statement of it changes
 * or finds no row; `commit` is carried out once the step took effect, `release` where it didn't, and `undo` where it is undone later. */
export class Sqlite {
  #turn = Promise.resolve();

  constructor(database, operations, { setUp = [] } = {}) {
    this.database = database;
    this.held = operations;
    this.operations = Object.keys(operations);
    this.setUp = [TABLE, ...setUp];
  }

  /** A transaction of a driver that was killed is gone with it. */
  async begin() {
    await this.transaction(() => {});
  }

  async found(mark) {
    const query = `SELECT place, state FROM sihtolem_work WHERE mark = ${literal(mark)} ORDER BY rowid`;
    const rows = await this.transaction(() => this.database.prepare(query).all());
    return new Map(rows.map(({ place, state }) => [place, state]));
  }

  prepare(work) {
    return this.transaction(async () => {
      const [state, kept] = await this.kept(work);
      if (work.undo && state === State.COMMITTED) return this.#set(work, State.UNDO_PREPARED);
      if (work.undo || state !== State.ABSENT) return;
      const { hold, refusal = "no row was changed" } = this.held[kept.operation];
      for (const statement of inOrder(hold)) if ((await this.#changed(filled(statement, kept))) === 0) throw new Refused(refusal);
      const values = [kept.mark, kept.place, kept.process, kept.operation, kept.key, kept.amount, State.PREPARED].map(literal);
      await this.database.exec(`INSERT INTO sihtolem_work VALUES (${values.join(", ")})`);
    });
  }

  commit(work) {
    return this.transaction(async () => {
      const [state, kept] = await this.kept(work);
      if (work.undo && state === State.UNDO_PREPARED) {
        await this.#run(this.held[kept.operation].undo, kept);
        await this.#set(work, State.UNDONE);
      } else if (!work.undo && state === State.PREPARED) {
        await this.#run(this.held[kept.operation].commit, kept);
        await this.#set(work, State.COMMITTED);
      }
    });
  }

  takeBack(work) {
    return this.transaction(async () => {
      const [state, kept] = await this.kept(work);
      if (work.undo && state === State.UNDO_PREPARED) return this.#set(work, State.COMMITTED);
      if (work.undo || state !== State.PREPARED) return;
      await this.#run(this.held[kept.operation].release, kept);
      await this.database.exec(`DELETE FROM sihtolem_work WHERE ${at(work)}`);
    });
  }

  /** The caller opened the database, and closes it. */
  async close() {
    await this.#turn;
  }

  /** One transaction behind the other, since they share one connection. */
  transaction(task) {
    const done = this.#turn.then(() => this.#inTransaction(task));
    this.#turn = done.catch(() => {});
    return done;
  }

  async #inTransaction(task) {
    try {
      await this.#open();
      await this.database.exec("BEGIN IMMEDIATE");
      const told = await task();
      await this.database.exec("COMMIT");
      return told;
    } catch (error) {
      await Promise.resolve()
        .then(() => this.database.exec("ROLLBACK"))
        .catch(() => {});
      throw named(error);
    }
  }

  /** Before the first transaction. */
  async #open() {
    if (!this.setUp.length) return;
    for (const text of ["PRAGMA journal_mode = WAL", "PRAGMA synchronous = FULL"]) await this.database.prepare(text).all();
    for (const text of ["BEGIN IMMEDIATE", ...this.setUp, "COMMIT"]) await this.database.exec(text);
    this.setUp = [];
  }

  /** The state of the step, and its work with what was kept of it. It is called within each transaction of a step, first. Work of another process
   * under this name is none of this one. */
  async kept(work) {
    const [row] = await this.database.prepare(`SELECT process, operation, key, amount, state FROM sihtolem_work WHERE ${at(work)}`).all();
    if (row && !["", row.process].includes(work.process)) {
      throw new WorkAhead(`the system has work of ${row.process} under the name of work of ${work.process}`, [work.name]);
    }
    return row ? [row.state, work.with(row)] : [State.ABSENT, work];
  }

  #set(work, state) {
    return this.database.exec(`UPDATE sihtolem_work SET state = ${literal(state)} WHERE ${at(work)}`);
  }

  async #changed(statement) {
    if (/^\s*(select|with)\b/i.test(statement)) return (await this.database.prepare(statement).all()).length;
    return (await this.database.prepare(statement).run()).changes;
  }

  async #run(sql, work) {
    for (const statement of inOrder(sql)) await this.database.exec(filled(statement, work));
  }
}

const at = (work) => `mark = ${literal(work.mark)} AND place = ${literal(work.place)}`;

function named(error) {
  if (error instanceof Refused || error instanceof Overtaken) return error;
  const told = `${error.code ?? ""} ${error.errstr ?? ""} ${error.message}`;
  if (/constraint/i.test(told)) return new Refused(error.message);
  if (/busy|locked|disk I\/O|disk is full|unable to open/i.test(told)) return new Unreachable(error.message);
  return error;
}
