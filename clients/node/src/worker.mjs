/** A worker of `sihtolemd`: it fetches work over HTTP, and participants of this library do it. docs/OPERATING.md has the paths. */
import { AsyncLocalStorage } from "node:async_hooks";
import { Agent, request } from "node:http";
import { debuglog } from "node:util";
import { Overtaken, Refused, Unreachable } from "./errors.mjs";
import { Work } from "./participants.mjs";
import { Sqlite } from "./sqlite.mjs";
import { literal } from "./statements.mjs";

const debug = debuglog("sihtolem");
const LEASES = "CREATE TABLE IF NOT EXISTS sihtolem_lease (name TEXT PRIMARY KEY, lease INTEGER NOT NULL)";
const CALLS = { prepare: "prepare", commit: "commit", "take back": "takeBack" };
const SECONDS_TO_WAIT = 5;

/** A database of a worker. It keeps the greatest lease that it saw of each step, and drops what comes under an earlier one: so a worker that is late
 * can't prepare anew what another has taken back. */
export class Fenced extends Sqlite {
  #lease = new AsyncLocalStorage();

  constructor(database, operations, { setUp = [] } = {}) {
    super(database, operations, { setUp: [LEASES, ...setUp] });
  }

  /** What the task asks for is under this lease. */
  under(lease, task) {
    return this.#lease.run(lease, task);
  }

  async kept(work) {
    const lease = this.#lease.getStore();
    if (lease === undefined) throw new Error(`${work.name} is under no lease`);
    const name = literal(work.stepName);
    const [row] = await this.database.prepare(`SELECT lease FROM sihtolem_lease WHERE name = ${name}`).all();
    if (row && row.lease > lease) throw new Overtaken(`${work.name}: lease ${lease} is overtaken by ${row.lease}`);
    await this.database.exec(`INSERT OR REPLACE INTO sihtolem_lease VALUES (${name}, ${lease})`);
    return super.kept(work);
  }
}

/** Calls of the service at `HOST:PORT`, or at a Unix socket by `unix:PATH`. Several may be under way. */
export class Service {
  #agent = new Agent({ keepAlive: true });

  constructor(address, token = "", timeout = 90_000) {
    const [host, port] = address.startsWith("unix:") ? [] : address.split(/:(?=\d+$)/);
    this.place = host === undefined ? { socketPath: address.slice("unix:".length) } : { host: host.replace(/^\[|\]$/g, ""), port };
    this.headers = { "Content-Type": "application/json", ...(token && { Authorization: `Bearer ${token}` }) };
    this.timeout = timeout;
  }

  /** The status and the JSON of the answer. It is rejected where there is none. */
  async call(method, path, body) {
    const text = body === undefined ? "" : JSON.stringify(body);
    const headers = { ...this.headers, "Content-Length": Buffer.byteLength(text) };
    const [status, told] = await new Promise((done, fail) => {
      const call = request({ ...this.place, method, path, headers, agent: this.#agent, timeout: this.timeout }, (answer) => {
        const parts = [];
        answer.on("data", (part) => parts.push(part));
        answer.on("end", () => done([answer.statusCode, Buffer.concat(parts).toString()]));
        answer.on("error", fail);
      });
      call.on("timeout", () => call.destroy(new Error(`no answer within ${this.timeout} ms`)));
      call.on("error", fail);
      call.end(text);
    });
    return [status, told ? JSON.parse(told) : {}];
  }

  close() {
    this.#agent.destroy();
  }
}

/** Does so many pieces of work at once until it is closed, and keeps their leases alive meanwhile. Work that throws `Unreachable` is tried again; an
 * error of no class ends the try, and the lease lapses: so another worker has it. */
export class Worker {
  #of;
  #service;
  #beats;
  #isClosing = false;
  #loops;
  // The leases under way, each with the timer of its next sign of life.
  #leases = new Map();

  constructor(address, participants, { name, token = "", threads = 4, pause = 200, log } = {}) {
    if (typeof name !== "string") throw new TypeError("a worker has a `name`");
    this.#of = new Map([...participants].flatMap((participant) => [...participant.operations].map((operation) => [operation, participant])));
    this.#service = new Service(address, token);
    this.#beats = new Service(address, token, 10_000);
    this.name = name;
    this.pause = pause;
    this.log = log ?? { debug, info: debug, warn: (...words) => console.warn(...words), error: (...words) => console.error(...words) };
    this.#loops = Array.from({ length: threads }, () => this.#work());
  }

  /** Ends once what is under way is done; a wait for work ends by itself. */
  async close() {
    this.#isClosing = true;
    await Promise.all(this.#loops);
    this.#service.close();
    this.#beats.close();
  }

  async #work() {
    const wanted = { worker: this.name, operations: [...this.#of.keys()].sort(), wait: SECONDS_TO_WAIT };
    while (!this.#isClosing) {
      try {
        const [status, told] = await this.#service.call("POST", "/v1/work", wanted);
        if (status === 200) await this.#do(told);
        else if (status !== 204) await this.#complain("no work", told);
      } catch (error) {
        await this.#complain("the service is out of reach", error.message);
      }
    }
  }

  async #complain(what, why) {
    this.log.warn(`${what}:`, why);
    await sleep(this.pause);
  }

  async #do(told) {
    const { lease, action } = told;
    const work = new Work(told.mark, told.place, told.undo, told.process, told.operation, told.key, told.amount);
    this.#keepAlive(lease, (told.seconds * 1000) / 3);
    let refusal;
    try {
      refusal = await this.#refusal(lease, action, work);
    } catch (error) {
      if (error instanceof Overtaken) this.log.warn(error.message);
      else this.log.error(`${action} of ${work.name} fails:`, error);
      return;
    } finally {
      this.#letGo(lease);
    }
    if (refusal === null) await this.#service.call("POST", `/v1/work/${lease}/done`);
    else await this.#service.call("POST", `/v1/work/${lease}/refused`, { reason: refusal });
  }

  /** Does it, as often as it takes. Gives why the system refuses, or null where it is done. */
  async #refusal(lease, action, work) {
    const participant = this.#of.get(work.operation);
    const task = () => participant[CALLS[action]](work);
    for (;;) {
      try {
        await (participant instanceof Fenced ? participant.under(lease, task) : task());
        return null;
      } catch (error) {
        if (error instanceof Refused) return error.message;
        if (!(error instanceof Unreachable)) throw error;
        this.log.warn(`${work.name}: ${error.message}`);
        await sleep(this.pause);
        if (!this.#leases.has(lease)) throw new Overtaken(`${work.name}: lease ${lease} has ended`);
      }
    }
  }

  /** A sign of life after so many milliseconds, and again and again. A lease that has ended is given up. */
  #keepAlive(lease, between, first = between) {
    const beat = async () => {
      const status = await this.#beats.call("POST", `/v1/work/${lease}/heartbeat`).then(
        ([told]) => told,
        () => null,
      );
      if (!this.#leases.has(lease)) return;
      if (status === 200 || status === null) this.#keepAlive(lease, between, status === null ? this.pause : between);
      else this.#letGo(lease);
    };
    this.#leases.set(lease, setTimeout(beat, first));
  }

  #letGo(lease) {
    clearTimeout(this.#leases.get(lease));
    this.#leases.delete(lease);
  }
}

const sleep = (pause) => new Promise((done) => setTimeout(done, pause));
