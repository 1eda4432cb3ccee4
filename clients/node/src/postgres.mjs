/** A PostgreSQL database that takes part, by prepared transactions. It stands on `pg`, which the caller brings, or whatever has its three calls. */
import { randomUUID } from "node:crypto";
import { NoParticipant, NotReady, Refused, SihtolemError, Superseded, Unreachable, WorkLost } from "./errors.mjs";
import { State } from "./settling.mjs";
import { filled, inOrder, literal } from "./statements.mjs";

const TABLES = [
  "CREATE TABLE IF NOT EXISTS sihtolem_session (mark text PRIMARY KEY, token text NOT NULL)",
  "CREATE TABLE IF NOT EXISTS sihtolem_work (mark text, place text, process text NOT NULL, operation text NOT NULL, key bigint NOT NULL," +
    " amount bigint NOT NULL, undone boolean NOT NULL DEFAULT false, PRIMARY KEY (mark, place))",
];
const UNDEFINED_OBJECT = "42704";
// The classes and codes of what may go well later: lost connections, resources, interventions, deadlocks, locks that aren't given.
const LATER = ["08", "53", "57", "58", "40001", "40P01", "55P03", "55000", "55006", "XX"];
// Constraints, and exceptions that functions raise.
const REFUSALS = ["23", "P0001"];
const LOST = /^(E[A-Z]+)$/;

const begins = (code, kinds) => kinds.some((kind) => code.startsWith(kind));

function named(error) {
  if (error instanceof SihtolemError || error instanceof Refused || error instanceof Unreachable) return error;
  if (error.severity && begins(error.code, LATER)) return new Unreachable(error.message);
  if (error.severity && begins(error.code, REFUSALS)) return new Refused(error.message);
  if (!error.severity && (LOST.test(error.code ?? "") || /connection/i.test(error.message))) return new Unreachable(error.message);
  return error;
}

/** A database, with what its operations do: `{do, undo, refusal}`. A statement of `do` that changes or finds no row refuses the work, with the
 * words of `refusal`. `connect` gives a new client of `pg`. The server needs `max_prepared_transactions`. */
export class Postgres {
  #connect;
  #statements;
  #idle = [];
  #begun = new Set();
  #lost = new Map();
  #token = "";
  #application = "";

  constructor(connect, operations) {
    this.#connect = connect;
    this.#statements = operations;
    this.operations = Object.keys(operations);
  }

  /** Nobody prepares under this mark from now on but with the new token, and whoever began before is ended. So what is prepared once this
   * returns is all that former sessions will ever have prepared. */
  async begin(mark) {
    await this.#dropIdle();
    this.#begun.clear();
    this.#lost.clear();
    this.#application = `sihtolem/${mark}`.slice(0, 63);
    const token = randomUUID();
    await this.#session("", async (session) => {
      await this.#setUp(session);
      await session.execute(
        `INSERT INTO sihtolem_session VALUES (${literal(mark)}, ${literal(token)}) ON CONFLICT (mark) DO UPDATE SET token = ${literal(token)}`,
      );
      await this.endFormerSessions(session, this.#application);
    });
    this.#token = token;
  }

  found(mark) {
    return this.#session("", async (session) => {
      const kept = await session.execute(`SELECT place, undone FROM sihtolem_work WHERE mark = ${literal(mark)}`);
      const states = new Map(kept.rows.map(({ place, undone }) => [place, undone === true || undone === "t" ? State.UNDONE : State.COMMITTED]));
      const prepared = `SELECT gid FROM pg_prepared_xacts WHERE database = current_database() AND starts_with(gid, ${literal(`${mark}/`)})`;
      for (const { gid } of (await session.execute(prepared)).rows) {
        const place = gid.slice(mark.length + 1);
        if (place.endsWith(" undo")) states.set(place.slice(0, -5), State.UNDO_PREPARED);
        else states.set(place, State.PREPARED);
      }
      return states;
    });
  }

  prepare(work) {
    return this.#session(work.name, async (session) => {
      if (this.#begun.has(work.name) && (await isPrepared(session, work))) return;
      this.#begun.add(work.name);
      await session.execute("BEGIN");
      try {
        await (work.undo ? this.#undo(session, work) : this.#do(session, work));
      } catch (error) {
        if (error instanceof Refused) await session.execute("ROLLBACK");
        throw error;
      }
      const { command } = await session.execute(`PREPARE TRANSACTION ${literal(work.name)}`);
      if (command === "ROLLBACK") throw new Error(`the transaction of ${work.name} had failed: let errors of a statement pass`);
    });
  }

  commit(work) {
    return this.#session("", async (session) => {
      if (!(await finish(session, "COMMIT", work)) && !(await isCommitted(session, work))) {
        throw new WorkLost("the server has nothing of what it had prepared", [work.name]);
      }
    });
  }

  takeBack(work) {
    return this.#session("", (session) => finish(session, "ROLLBACK", work));
  }

  async close() {
    await this.#dropIdle();
  }

  // The work of a step.

  async #do(session, work) {
    const values = [work.mark, work.place, work.process, work.operation, work.key, work.amount].map(literal).join(", ");
    const added = await session.execute(`INSERT INTO sihtolem_work SELECT ${values} FROM sihtolem_session WHERE ${this.#isMine(work)}`);
    if (added.rowCount !== 1) throw new Superseded(`${work.name} in ${this.#application}`);
    const { do: sql, refusal = "no row was changed" } = this.#statements[work.operation];
    await run(session, sql, work, refusal);
  }

  /** The row of the step tells what is undone. Its statements may change no row. */
  async #undo(session, work) {
    const marked = await session.execute(
      "UPDATE sihtolem_work AS work SET undone = true FROM sihtolem_session WHERE" +
        ` work.mark = ${literal(work.mark)} AND place = ${literal(work.place)} AND NOT undone AND ${this.#isMine(work)}` +
        " RETURNING process, operation, key, amount",
    );
    if (!marked.rows.length) throw new Superseded(`${work.name} in ${this.#application}`);
    const kept = work.with(marked.rows[0]);
    const { undo } = this.#statements[kept.operation];
    if (undo === undefined) throw new NoParticipant(`the undo of operation ${kept.operation}`);
    await run(session, undo, kept, null);
  }

  #isMine(work) {
    return `sihtolem_session.mark = ${literal(work.mark)} AND token = ${literal(this.#token)}`;
  }

  // Sessions.

  /** Lends a session. After a fault its connection is given up: the server may still be at its last statement, so before a second try under the
   * same name that session is ended first. */
  async #session(name, task) {
    let session = null;
    try {
      session = await this.#lend();
      if (this.#lost.has(name)) {
        const { pid, since } = this.#lost.get(name);
        await endWhere(session, `pid = ${pid} AND backend_start = ${literal(since)}`);
        this.#lost.delete(name);
      }
      const told = await task(session);
      this.#idle.push(session);
      return told;
    } catch (error) {
      if (error instanceof Refused) this.#idle.push(session);
      else await this.#giveUp(session, name);
      throw named(error);
    }
  }

  async #lend() {
    if (this.#idle.length) return this.#idle.pop();
    const client = await this.#connect();
    // What ends while nobody asks is found out by the next statement.
    client.on?.("error", () => {});
    await client.connect();
    const session = { client, execute: (text) => client.query(text).catch((error) => Promise.reject(named(error))) };
    await session.execute(`SET application_name = ${literal(this.#application)}`);
    const { rows } = await session.execute("SELECT pid, backend_start::text AS since FROM pg_stat_activity WHERE pid = pg_backend_pid()");
    return Object.assign(session, rows[0]);
  }

  async #giveUp(session, name) {
    if (!session) return;
    if (name) this.#lost.set(name, session);
    await this.#dropIdle();
    await closed(session);
  }

  /** A server that went away once took all connections with it. */
  async #dropIdle() {
    const dropped = this.#idle;
    this.#idle = [];
    await Promise.all(dropped.map(closed));
  }

  async #setUp(session) {
    const { rows } = await session.execute("SHOW max_prepared_transactions");
    if (Number(rows[0].max_prepared_transactions) === 0) throw new NotReady("max_prepared_transactions of the server is 0");
    for (const table of TABLES) await session.execute(table);
  }

  /** Ends them, and waits until the server has none of them any more. */
  async endFormerSessions(session, application) {
    await endWhere(session, `application_name = ${literal(application)} AND datname = current_database() AND pid <> ${session.pid}`);
  }
}

async function closed(session) {
  await Promise.race([session.client.end().catch(() => {}), new Promise((done) => setTimeout(done, 1000).unref())]);
}

async function run(session, sql, work, refusal) {
  if (typeof sql === "function") await sql(session.execute, work);
  for (const statement of inOrder(sql)) {
    const { rowCount } = await session.execute(filled(statement, work));
    if (rowCount === 0 && refusal !== null) throw new Refused(refusal);
  }
}

/** Whether there was something prepared. */
async function finish(session, how, work) {
  try {
    await session.execute(`${how} PREPARED ${literal(work.name)}`);
    return true;
  } catch (error) {
    if (error.code === UNDEFINED_OBJECT) return false;
    throw error;
  }
}

async function isCommitted(session, work) {
  const where = `mark = ${literal(work.mark)} AND place = ${literal(work.place)}${work.undo ? " AND undone" : ""}`;
  return (await session.execute(`SELECT 1 AS there FROM sihtolem_work WHERE ${where}`)).rows.length > 0;
}

async function isPrepared(session, work) {
  return (await session.execute(`SELECT 1 AS there FROM pg_prepared_xacts WHERE gid = ${literal(work.name)}`)).rows.length > 0;
}

async function endWhere(session, who) {
  for (let pause = 5; ; pause = Math.min(2 * pause, 200)) {
    const { rows } = await session.execute(`SELECT pg_terminate_backend(pid) AS told FROM pg_stat_activity WHERE ${who}`);
    if (!rows.length) return;
    await new Promise((done) => setTimeout(done, pause));
  }
}
