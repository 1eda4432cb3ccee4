/** As lost.py. */
import assert from "node:assert/strict";
import { readFileSync } from "node:fs";
import { Postgres, Refused, State, Superseded, Unreachable, Work } from "../node/src/index.mjs";

const { Client } = await import(process.env.PG_CLIENT ?? "pg").then((pg) => pg.default ?? pg);
const [host, database] = process.argv.slice(2);
const connect = () => new Client({ host, user: "postgres", database });
const RESERVE = {
  reserve: {
    do: "UPDATE shelves SET free = free - :amount WHERE item = :key AND free >= :amount",
    undo: "UPDATE shelves SET free = free + :amount WHERE item = :key",
    refusal: "empty",
  },
};

/** One that is lost at the first statement of those that begin so. */
class Connection {
  constructor(fault) {
    this.inner = connect();
    this.fault = fault;
  }
  connect() {
    return this.inner.connect();
  }
  end() {
    return this.inner.end();
  }
  async query(text) {
    const [statement, when] = this.fault;
    const isHit = statement !== undefined && text.startsWith(statement);
    if (!isHit || when === "after") {
      const told = await this.inner.query(text);
      if (!isHit) return told;
    }
    this.fault.length = 0;
    await this.inner.end();
    throw Object.assign(new Error("played"), { code: "ECONNRESET" });
  }
}

/** Does it until its system is reached. Gives how often it wasn't. */
async function tried(task) {
  for (let at = 0; at < 5; at++) {
    try {
      await task();
      return at;
    } catch (error) {
      if (!(error instanceof Unreachable)) throw error;
    }
  }
  assert.fail("it is never reached");
}

const work = (mark, place, undo = false, amount = 2) => new Work(mark, place, undo, "order", "reserve", 1, amount);

async function play(mark, row) {
  const fault = [...row];
  const participant = new Postgres(() => new Connection(fault), RESERVE);
  await participant.begin(mark);
  let lost = 0;
  for (const [call, what] of [
    ["prepare", work(mark, "1.a")],
    ["prepare", work(mark, "1.a")],
    ["commit", work(mark, "1.a")],
    ["prepare", work(mark, "1.b")],
    ["takeBack", work(mark, "1.b")],
    ["prepare", work(mark, "1.b")],
    ["commit", work(mark, "1.b")],
    ["prepare", work(mark, "1.b", true)],
    ["takeBack", work(mark, "1.b", true)],
    ["prepare", work(mark, "1.b", true)],
    ["commit", work(mark, "1.b", true)],
  ]) {
    lost += await tried(() => participant[call](what));
  }
  assert.equal(lost, 1, row.join(", "));
  await assert.rejects(participant.prepare(work(mark, "1.c", false, 1000)), (error) => error instanceof Refused && error.message === "empty");
  assert.deepEqual(Object.fromEntries(await participant.found(mark)), { "1.a": State.COMMITTED, "1.b": State.UNDONE }, row.join(", "));
  await participant.close();
}

async function playSuperseded() {
  const [one, other] = [new Postgres(connect, RESERVE), new Postgres(connect, RESERVE)];
  await one.begin("s");
  await one.prepare(work("s", "1.a"));
  await other.begin("s");
  await assert.rejects(tried(() => one.prepare(work("s", "1.b"))), Superseded);
  assert.deepEqual(Object.fromEntries(await other.found("s")), { "1.a": State.PREPARED });
  await other.takeBack(work("s", "1.a"));
  await one.close();
  await other.close();
}

const rows = JSON.parse(readFileSync(new URL("lost.json", import.meta.url), "utf8"));
for (const [at, row] of rows.entries()) await play(`m${at}`, row);
await playSuperseded();
