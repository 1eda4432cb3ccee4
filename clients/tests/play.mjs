#!/usr/bin/env node
/** Plays the tables of clients/tests against the library in JavaScript, as play.py does in Python. PROGRAM names the program. */
import assert from "node:assert/strict";
import { mkdtempSync, readFileSync, readdirSync, rmSync } from "node:fs";
import { createServer } from "node:http";
import { tmpdir } from "node:os";
import { join } from "node:path";
import {
  Action,
  Answer,
  Fenced,
  Outbox,
  Overtaken,
  Refused,
  Scheduler,
  SihtolemError,
  Sqlite,
  State,
  Unreachable,
  Work,
  WorkAhead,
  Worker,
  settle,
} from "../node/src/index.mjs";
import { readPiece } from "../node/src/dialogue.mjs";
import { answerOf } from "../node/src/opening.mjs";
import { conflict, operationsOf, readReport } from "../node/src/report.mjs";
import { filled } from "../node/src/statements.mjs";
import { Memory } from "./memory.mjs";
import { openDatabase } from "./sqlite.mjs";

const PROGRAM = process.env.PROGRAM;
const OPERATIONS = ["deliver", "reserve", "charge", "place", "ship", "mail"];
const isLoud = process.argv.includes("-v");
const log = isLoud ? console : { debug() {}, info() {}, warn() {}, error() {} };

const table = (name) => JSON.parse(readFileSync(new URL(`${name}.json`, import.meta.url), "utf8"));
const values = (choices) => Object.values(choices);

function playSettling() {
  const rows = table("settling");
  const all = values(State).flatMap((state) => values(Answer).map((answer) => `${state}, ${answer}`));
  assert.deepEqual(rows.map(([state, answer]) => `${state}, ${answer}`).sort(), all.sort());
  for (const [state, answer, action] of rows) {
    assert.ok(values(Action).includes(action));
    assert.equal(settle(state, answer), action, `${state}, ${answer}`);
  }
}

function playLines() {
  const lines = table("lines");
  for (const [line, piece] of lines.pieces) assert.deepEqual(readPiece(line), piece, line);
  for (const [line, answer] of lines.answers) assert.equal(answerOf(line), answer);
  for (const [text, operations] of lines.operations) assert.deepEqual(operationsOf(text), operations);
  for (const [statement, wanted] of lines.fills) assert.equal(filled(statement, new Work("m", "2.x", true, "order_1", "take", 3, -7)), wanted);
  for (const report of lines.reports) {
    const told = readReport(report.lines);
    for (const part of ["names", "paths", "acts"]) assert.deepEqual(Object.fromEntries(told[part]), report[part]);
    assert.deepEqual([...told.ended], report.ended);
    for (const [one, key, other, otherKey, wanted] of report.conflicts) assert.equal(conflict(told.conflicts, [one, key], [other, otherKey]), wanted);
  }
}

/** The text for each number, where the story has a count. */
const spread = (story, text) =>
  text.includes("#") ? Array.from({ length: story.count }, (_, at) => text.replaceAll("#", String(at + 1))) : [text];

async function playStory(scenario, story) {
  const folder = mkdtempSync(join(tmpdir(), "sihtolem-"));
  try {
    const memory = new Memory(OPERATIONS, story.handlers, story.commits);
    const texts = story.processes.flatMap((text) => spread(story, text));
    const options = { program: PROGRAM, mark: "m", firstPause: 10, longestPause: 50, mostActive: story.most_active ?? 64, log };
    const scheduler = await Scheduler.open(join(folder, "files"), scenario, [memory], options);
    memory.onCall = (count) => (story.kill_at ?? []).includes(count) && process.kill(scheduler.dialogue.pid, "SIGKILL");
    const outcomes = await submitAll(scheduler, story, texts);
    await scheduler.close();
    if (!story.any_end) {
      const wanted = Object.entries(story.ends).flatMap(([text, end]) => spread(story, text).map((name) => [name, end]));
      assert.deepEqual(Object.fromEntries([...outcomes].map(([name, it]) => [name, [it.path, it.reasons]])), Object.fromEntries(wanted), story.name);
    }
    checkWhole(story.name, memory, outcomes);
    for (const [step, state] of Object.entries(story.states ?? {})) {
      assert.deepEqual([...memory.states].filter(([place]) => place.endsWith(`.${step}`)).map(([, told]) => told), [state]);
    }
    const { calls } = memory;
    const again = await Scheduler.open(join(folder, "files"), scenario, [memory], options);
    const paths = (told) => Object.fromEntries([...told].map(([name, it]) => [name, it.path]));
    assert.deepEqual(paths(await submitAll(again, story, texts)), paths(outcomes), `${story.name}, once more`);
    await again.close();
    assert.equal(memory.calls, calls, `${story.name}, calls once more`);
  } finally {
    rmSync(folder, { recursive: true, force: true });
  }
}

/** The outcome of each process by name, one after another or all at once. Those that are refused have the class of their error. */
async function submitAll(scheduler, story, texts) {
  const outcomes = new Map();
  const refused = {};
  const submit = async (text) => {
    const name = text.split(" ")[text.startsWith("process ") ? 1 : 0];
    try {
      outcomes.set(name, await scheduler.submit(text));
    } catch (error) {
      if (!(error instanceof SihtolemError)) throw error;
      refused[name] = error.name;
    }
  };
  if (story.one_by_one) for (const text of texts) await submit(text);
  else await Promise.all(texts.map(submit));
  assert.deepEqual(refused, story.refused ?? {}, `${story.name}: what is refused`);
  return outcomes;
}

/** The system has committed exactly the steps that the outcomes tell, and nothing is left over. */
function checkWhole(name, memory, outcomes) {
  const at = (...states) => [...memory.states].filter(([, state]) => states.includes(state)).map(([place]) => place).sort();
  const told = [...outcomes.values()].flatMap((it) => it.path.map((step) => `${it.number}.${step}`));
  assert.deepEqual(at(State.COMMITTED), told.sort(), `${name}: what stands`);
  assert.deepEqual(at(State.PREPARED, State.UNDO_PREPARED), [], `${name}: what is open`);
}

/** As play_outbox in play.py. */
async function playOutbox() {
  const story = table("outbox");
  const received = new Map();
  const calls = [];
  const send = async (work) => {
    const step = `${work.process}.${work.place.split(".")[1]}${work.undo ? " undo" : ""}`;
    calls.push(step);
    if (story.fails[step]-- > 0) throw new Error("played");
    if (!received.has(work.name)) received.set(work.name, step);
  };
  const folder = mkdtempSync(join(tmpdir(), "sihtolem-"));
  const options = { program: PROGRAM, mark: "m", firstPause: 10, longestPause: 50, log };
  const told = () => [...received.values()].sort();
  try {
    const run = async (files, task) => {
      const databases = [await openDatabase(join(folder, "shop.db")), await openDatabase(join(folder, "mail.db"))];
      const shop = new Sqlite(databases[0], story.shop, { setUp: story.tables });
      const outbox = new Outbox(databases[1], story.sent, send, { firstPause: 10, longestPause: 50 });
      const scheduler = await Scheduler.open(join(folder, files), story.scenario, [shop, outbox], options);
      await task(scheduler, outbox, databases);
      await scheduler.close();
      await databases[1].exec("UPDATE sihtolem_outbox SET sent = 0");
      databases.forEach((database) => database.close());
    };
    const untilSent = async (outbox) => {
      while ((await outbox.unsent()).length) await new Promise((done) => setTimeout(done, 10));
    };
    await run("files", async (scheduler, outbox) => {
      for (const text of story.processes) {
        const outcome = await scheduler.submit(text);
        assert.deepEqual([outcome.path, outcome.reasons], story.ends[outcome.name], text);
      }
      await untilSent(outbox);
      await scheduler.backup(join(folder, "copy"));
      assert.equal(readdirSync(join(folder, "copy")).length, 9);
    });
    assert.deepEqual(told(), [...story.received].sort(), "what was received");
    const sent = calls.length;
    await run("copy", async (scheduler, outbox, databases) => {
      await untilSent(outbox);
      assert.deepEqual((await databases[0].prepare("SELECT free FROM shelves").all()).map(({ free }) => free), [story.free]);
    });
    assert.equal(calls.length - sent, story.received.length, "what was sent again");
    assert.deepEqual(told(), [...story.received].sort(), "what was received once more");
  } finally {
    rmSync(folder, { recursive: true, force: true });
  }
}

/** As play_closing in play.py. */
async function playClosing(scenario) {
  const order = "process a r tell mail 1 1 end";
  const folder = mkdtempSync(join(tmpdir(), "sihtolem-"));
  const files = join(folder, "files");
  const options = { program: PROGRAM, mark: "m", firstPause: 10, longestPause: 50, log };
  const isOf = (name) => (error) => error.name === name && error.message.endsWith(error.advice);
  try {
    const memory = new Memory(OPERATIONS, { "a.tell": Array(100000).fill("unreachable") });
    const first = await Scheduler.open(files, scenario, [memory], options);
    const outcome = first.submit(order);
    const closed = assert.rejects(outcome, isOf("Closed"));
    await assert.rejects(Scheduler.open(files, scenario, [new Memory(OPERATIONS)], { ...options, patience: 300 }), isOf("FolderInUse"));
    let isOpen = false;
    const second = Scheduler.open(files, scenario, [memory], options).finally(() => (isOpen = true));
    await new Promise((done) => setTimeout(done, 300));
    assert.equal(isOpen, false, "waits for the folder");
    await first.close({ untilEnded: false });
    await closed;
    await assert.rejects(first.submit(order), isOf("Closed"));
    memory.prepares = {};
    const scheduler = await second;
    assert.equal((await scheduler.submit(order)).name, "a");
    await scheduler.close();
    await assert.rejects(Scheduler.open(files, scenario, [memory], { ...options, program: "no_such_program" }), isOf("ProgramMissing"));
    await assert.rejects(Scheduler.open(join(folder, "other"), "version", [memory], options), isOf("ScenarioRefused"));
    await assert.rejects(Scheduler.open(files, "version = 1\n", [memory], options), isOf("ScenarioRefused"));
  } finally {
    rmSync(folder, { recursive: true, force: true });
  }
}

/** As play_abort in play.py. */
async function playAbort(scenario) {
  const folder = mkdtempSync(join(tmpdir(), "sihtolem-"));
  try {
    const memory = new Memory(OPERATIONS);
    const scheduler = await Scheduler.open(join(folder, "files"), scenario, [memory], { program: PROGRAM, mark: "m", mostActive: 1, log });
    memory.onCall = (count) => count === 2 && ["b", "a"].forEach((name) => scheduler.abort(name));
    const text = (name) => `process ${name} c reserve reserve 3 2 p pay charge 1 40 r tell mail 1 1 end`;
    const outcomes = await Promise.all(["a", "b"].map((name) => scheduler.submit(text(name))));
    const wanted = [[1, [], ["aborted"]], [0, [], ["aborted before its start"]]];
    assert.deepEqual(outcomes.map((it) => [it.number, it.path, it.reasons]), wanted);
    await scheduler.close();
    assert.deepEqual(Object.fromEntries(memory.states), { "1.reserve": State.UNDONE, "1.pay": State.ABSENT });
  } finally {
    rmSync(folder, { recursive: true, force: true });
  }
}

/** As play_void in play.py. */
async function playVoid(scenario) {
  const folder = mkdtempSync(join(tmpdir(), "sihtolem-"));
  try {
    const memory = new Memory(OPERATIONS, { "a.ship": ["refused"] });
    const pauses = { firstPause: 10, longestPause: 50 };
    const scheduler = await Scheduler.open(join(folder, "files"), scenario, [memory], { program: PROGRAM, mark: "m", ...pauses, log });
    memory.onCall = async (count) => {
      if (count !== 4) return;
      scheduler.abort("a");
      await new Promise((resolve) => setTimeout(resolve, 300));
    };
    const outcome = await scheduler.submit("process a p pay charge 1 40 choose c place place 5 1 p ship ship 1 1 or r post mail 1 1 done end");
    assert.deepEqual(outcome.path, ["pay", "post"]);
    await scheduler.close();
    assert.equal(memory.calls, 6);
    const left = { "1.pay": State.COMMITTED, "1.place": State.UNDONE, "1.post": State.COMMITTED };
    assert.deepEqual(Object.fromEntries(memory.states), left);
  } finally {
    rmSync(folder, { recursive: true, force: true });
  }
}

/** As play_fence in play.py. Words of a refusal that sound like an error of SQLite are a refusal. */
async function playFence() {
  const work = new Work("m", "2.x", false, "order_1", "take", 3, 1);
  const folder = mkdtempSync(join(tmpdir(), "sihtolem-"));
  try {
    const database = await openDatabase(join(folder, "shop.db"));
    const shop = new Fenced(database, { take: {}, keep: { hold: "SELECT 1 WHERE 0", refusal: "the counter is busy" } });
    for (const [lease, call] of [[7, "prepare"], [8, "prepare"], [9, "takeBack"]]) await shop.under(lease, () => shop[call](work));
    for (const call of ["prepare", "commit"]) {
      await assert.rejects(async () => shop.under(8, () => shop[call](work)), Overtaken);
      assert.equal((await shop.found("m")).size, 0, "what is prepared");
    }
    const kept = new Work("m", "3.x", false, "order_2", "keep", 3, 1);
    await assert.rejects(async () => shop.under(10, () => shop.prepare(kept)), Refused);
    const settled = new Work("m", "2.x", false, "", "take", 0, 0), other = new Work("m", "2.x", false, "order_9", "take", 3, 1);
    await shop.under(11, () => shop.prepare(work));
    for (const call of ["prepare", "commit", "takeBack"]) await assert.rejects(async () => shop.under(12, () => shop[call](other)), WorkAhead);
    await shop.under(12, () => shop.commit(settled));
    assert.deepEqual([...(await shop.found("m"))], [["2.x", State.COMMITTED]], "what is of another process");
    database.close();
  } finally {
    rmSync(folder, { recursive: true, force: true });
  }
}

/** A worker of a service that is played: what it does with each lease, and what the service hears of it. The last lease is ended by the service. */
async function playWorker() {
  const heard = {};
  const tries = {};
  const names = ["done", "refused", "unreachable", "broken", "slow", "ended"];
  const system = {
    operations: ["take"],
    async prepare({ process }) {
      tries[process] = (tries[process] ?? 0) + 1;
      if (process === "refused") throw new Refused("there are too few");
      if (process === "broken") throw new TypeError("played");
      if (process === "ended" || (process === "unreachable" && tries[process] < 3)) throw new Unreachable("played");
      if (process === "slow") await new Promise((done) => setTimeout(done, 400));
    },
  };
  const toLend = names.map((process, at) => ({ lease: at + 1, action: "prepare", mark: "m", place: `${at + 1}.x`, undo: false, process }));
  const server = createServer((call, answer) => {
    const parts = [];
    call.on("data", (part) => parts.push(part));
    call.on("end", () => {
      const body = Buffer.concat(parts).toString();
      const [, lease, word] = call.url.match(/^\/v1\/work(?:\/(\d+)\/(\w+))?$/);
      const say = (status, told) => setTimeout(() => answer.writeHead(status).end(told && JSON.stringify(told)), status === 204 ? 20 : 0);
      assert.equal(call.headers.authorization, "Bearer secret");
      if (lease) {
        const said = (heard[names[lease - 1]] ??= []);
        const reason = body && ` ${JSON.parse(body).reason}`;
        if (word !== "heartbeat" || !said.includes(word)) said.push(word + reason);
        return say(names[lease - 1] === "ended" ? 409 : 200, {});
      }
      assert.deepEqual(JSON.parse(body), { worker: "w", operations: ["take"], wait: 5 });
      const lent = toLend.shift();
      return lent ? say(200, { ...lent, operation: "take", key: 3, amount: 1, seconds: 0.3 }) : say(204);
    });
  });
  await new Promise((done) => server.listen(0, "127.0.0.1", done));
  const worker = new Worker(`127.0.0.1:${server.address().port}`, [system], { name: "w", token: "secret", threads: 3, pause: 20, log });
  const words = (name) => (heard[name] ?? []).filter((word) => word !== "heartbeat");
  const isOver = () => names.every((name) => name === "broken" || (name === "ended" ? heard[name] : words(name).length));
  for (let tried = 0; !isOver(); tried++) {
    assert.ok(tried < 1000, `what the service heard: ${JSON.stringify(heard)}`);
    await new Promise((done) => setTimeout(done, 10));
  }
  await worker.close();
  server.close();
  const wanted = { done: ["done"], refused: ["refused there are too few"], unreachable: ["done"], broken: [], slow: ["done"], ended: [] };
  assert.deepEqual(Object.fromEntries(names.map((name) => [name, words(name)])), wanted);
  for (const name of ["slow", "ended"]) assert.ok(heard[name].includes("heartbeat"), `a sign of life of ${name}`);
  assert.equal(tries.unreachable, 3, "tries where the system is out of reach");
}

/** As play_resuming in play.py. */
async function playResuming(scenario) {
  const folder = mkdtempSync(join(tmpdir(), "sihtolem-"));
  try {
    const memory = new Memory(OPERATIONS);
    const program = new URL("resuming", import.meta.url).pathname;
    const scheduler = await Scheduler.open(join(folder, "files"), scenario, [memory], { program, mark: "m", log });
    const outcomes = await Promise.all(["a", "b"].map((name) => scheduler.submit(`process ${name} r tell mail 1 1 end`)));
    assert.deepEqual(outcomes.map((it) => it.path), [["tell"], []], "who goes on");
    await scheduler.close();
    assert.deepEqual(Object.fromEntries(memory.states), { "1.tell": State.COMMITTED });
  } finally {
    rmSync(folder, { recursive: true, force: true });
  }
}

playSettling();
playLines();
const stories = table("stories");
for (const story of stories.stories) {
  if (isLoud) console.log(story.name);
  await playStory(stories.scenario, story);
}
await playClosing(stories.scenario);
await playAbort(stories.scenario);
await playVoid(stories.scenario);
await playFence();
await playWorker();
await playResuming(stories.scenario);
await playOutbox();
console.log(`clients, JavaScript: the settling over ${table("settling").length} states, lines, ${stories.stories.length} stories, an outbox, and a worker`);
