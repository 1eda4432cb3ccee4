/** Runs processes over several transactional systems by `tps serve`. See clients/README.md. */

/** Thrown by a handler: its system refuses this work for good. Nothing of it is prepared. */
export class Refused extends Error {}
/** Thrown by a handler: its system can't be reached, or can't say yet. The work is tried again, after a pause that grows. */
export class Unreachable extends Error {}
/** Somebody has a later lease of this work: what this one asks for comes too late, and changes nothing. */
export class Overtaken extends Error {}

/** What the library can't mend by itself. `advice` says what a person does. */
export class SihtolemError extends Error {
  readonly advice: string;
}
export class ProgramMissing extends SihtolemError {}
export class ScenarioRefused extends SihtolemError {}
export class FilesRefused extends SihtolemError {}
export class FolderInUse extends SihtolemError {}
export class ServeFailed extends SihtolemError {}
export class ProcessRefused extends SihtolemError {}
export class FilesFull extends SihtolemError {}
export class NoParticipant extends SihtolemError {}
export class NotReady extends SihtolemError {}
export class Superseded extends SihtolemError {}
export class Closed extends SihtolemError {}
/** Files and systems aren't of one moment. Nothing was changed. `names` has the work that tells it. */
export class Unsettled extends SihtolemError {
  readonly names: readonly string[];
}
export class WorkLost extends Unsettled {}
export class WorkAhead extends Unsettled {}

/** How far the work of a step has come in its system. */
export const State: {
  readonly ABSENT: "absent";
  readonly PREPARED: "prepared";
  readonly COMMITTED: "committed";
  readonly UNDO_PREPARED: "undo prepared";
  readonly UNDONE: "undone";
};
export type State = (typeof State)[keyof typeof State];

/** What the files tell of a step. */
export const Answer: {
  readonly DONE: "done";
  readonly UNDONE: "undone";
  readonly NOT_DONE: "not done";
  readonly UNKNOWN: "unknown";
  readonly NO_STEP: "no step";
};
export type Answer = (typeof Answer)[keyof typeof Answer];

/** What to do about it. */
export const Action: {
  readonly NOTHING: "nothing";
  readonly COMMIT: "commit";
  readonly TAKE_BACK: "take back";
  readonly COMMIT_UNDO: "commit undo";
  readonly TAKE_BACK_UNDO: "take back undo";
  readonly UNDO: "undo";
  readonly STOP_LOST: "stop: lost";
  readonly STOP_AHEAD: "stop: ahead";
};
export type Action = (typeof Action)[keyof typeof Action];

/** The action for work in that state of which the files tell that. */
export function settle(state: State, answer: Answer): Action;

/** One step, or the undo of one. */
export class Work {
  constructor(mark: string, place: string, undo: boolean, process: string, operation: string, key: number, amount: number);
  readonly mark: string;
  /** `I.STEP` */
  readonly place: string;
  readonly undo: boolean;
  /** The name of the process. */
  readonly process: string;
  readonly operation: string;
  readonly key: number;
  readonly amount: number;
  /** `MARK/I.STEP` */
  get stepName(): string;
  /** The name of this work in its system. Receivers drop what comes twice by it. */
  get name(): string;
}

type Answered<T> = T | Promise<T>;

/** A system that does the work of some operations. Each call may throw `Unreachable`, and is then made again. */
export interface Participant {
  readonly operations: readonly string[];
  readonly keepsNoWork?: boolean;
  /** Before each settling: ends what former sessions left under way. */
  begin(mark: string): Answered<void>;
  /** The places of which the system has work under this mark, prepared or more. */
  found(mark: string): Answered<Map<string, State>>;
  /** Prepares the work. A second call changes nothing more. Throws `Refused` where the system refuses. */
  prepare(work: Work): Answered<void>;
  /** Commits what is prepared. A second call changes nothing more. */
  commit(work: Work): Answered<void>;
  /** Takes back what is prepared, if anything is. What is committed stays. */
  takeBack(work: Work): Answered<void>;
  close(): Answered<void>;
}

/** Operations that the program's own stores count. There is nothing to do outside. */
export class ProgramAlone implements Participant {
  constructor(...operations: string[]);
  readonly operations: string[];
  readonly keepsNoWork: true;
  begin(): void;
  found(): Map<string, State>;
  prepare(): void;
  commit(): void;
  takeBack(): void;
  close(): void;
}

/** The three calls of a client of `pg`. */
export interface PostgresClient {
  connect(): Promise<unknown>;
  query(text: string): Promise<{ rows: any[]; rowCount: number | null; command?: string }>;
  end(): Promise<unknown>;
}

type PostgresSql = string | string[] | ((execute: PostgresClient["query"], work: Work) => Promise<void>);

/** A database of PostgreSQL. `:key`, `:amount`, `:process` and `:name` in a statement stand for those of the work. A statement of `do` that changes or
 * finds no row refuses the work, with the words of `refusal`. */
export class Postgres implements Participant {
  constructor(connect: () => Answered<PostgresClient>, operations: Record<string, { do: PostgresSql; undo?: PostgresSql; refusal?: string }>);
  readonly operations: string[];
  begin(mark: string): Promise<void>;
  found(mark: string): Promise<Map<string, State>>;
  prepare(work: Work): Promise<void>;
  commit(work: Work): Promise<void>;
  takeBack(work: Work): Promise<void>;
  close(): Promise<void>;
}

/** The calls of a database of `node:sqlite` or `better-sqlite3`. */
export interface SqliteDatabase {
  exec(text: string): unknown;
  prepare(text: string): { all(): Answered<any[]>; run(): Answered<{ changes: number | bigint }> };
}

/** What an operation holds back at first, and what it does once it took effect, where it didn't, and where it is undone. */
export interface Held {
  hold?: string | string[];
  commit?: string | string[];
  release?: string | string[];
  undo?: string | string[];
  refusal?: string;
}

export class Sqlite implements Participant {
  constructor(database: SqliteDatabase, operations: Record<string, Held>, options?: { setUp?: string[] });
  readonly operations: string[];
  begin(mark: string): Promise<void>;
  found(mark: string): Promise<Map<string, State>>;
  prepare(work: Work): Promise<void>;
  commit(work: Work): Promise<void>;
  takeBack(work: Work): Promise<void>;
  close(): Promise<void>;
  /** Does it in one transaction. */
  transaction<T>(task: () => Answered<T>): Promise<T>;
}

/** A database of a worker of the service. It keeps the greatest lease that it saw of each step, and drops what comes under an earlier one by
 * `Overtaken`. Its calls of a step are under a lease. */
export class Fenced extends Sqlite {
  /** What the task asks for is under this lease. */
  under<T>(lease: number, task: () => Answered<T>): Answered<T>;
}

/** Sends the work of these operations until it goes through. `work.name` is the idempotency key. */
export class Outbox extends Sqlite {
  constructor(
    database: SqliteDatabase,
    operations: string[],
    send: (work: Work) => Answered<void>,
    options?: { firstPause?: number; longestPause?: number },
  );
  /** What is committed and not sent yet, in order. */
  unsent(): Promise<Work[]>;
}

/** How a process ended: its steps that stand, or none, and why it went another way or back. */
export interface Outcome {
  readonly name: string;
  readonly number: number;
  readonly path: string[];
  readonly reasons: string[];
  readonly isWhole: boolean;
}

type Log = Record<"info" | "warn" | "error", (...words: unknown[]) => void>;

/** Pauses and `patience` are in milliseconds. */
export interface Options {
  program?: string;
  /** What stands before each name of work in the systems; the folder's name if it isn't said. */
  mark?: string;
  /** The names of processes that `tps run` ran on these files: no system has work of theirs. */
  alone?: string[];
  mostActive?: number;
  workers?: number;
  patience?: number;
  firstPause?: number;
  longestPause?: number;
  /** `console`, or what has its calls. If it isn't said, warnings go to the console, and the rest where NODE_DEBUG=sihtolem asks for it. */
  log?: Log;
}

/** Runs processes over the files of a folder. */
export class Scheduler {
  private constructor();
  /** Gives the scheduler once what a stop left is settled. */
  static open(folder: string, scenario: string, participants: Iterable<Participant>, options?: Options): Promise<Scheduler>;
  /** Starts the process of this text, once. A name that is known already is not started again. */
  submit(process: string): Promise<Outcome>;
  /** Has the process go back, or on to its end where it can't. */
  abort(name: string): Promise<void>;
  /** Copies the files, at a moment when no line is unanswered, into a fresh folder. */
  backup(folder: string): Promise<void>;
  /** The report of the history so far. */
  report(): Promise<string>;
  /** Waits until all that was submitted has ended; without `untilEnded`, only until what is out is reported and settled. */
  close(options?: { untilEnded?: boolean }): Promise<void>;
}

/** Calls of `sihtolemd` at `HOST:PORT`, or at a Unix socket by `unix:PATH`. The timeout is in milliseconds. */
export class Service {
  constructor(address: string, token?: string, timeout?: number);
  /** The status and the JSON of the answer. It is rejected where there is none. */
  call(method: string, path: string, body?: Record<string, unknown>): Promise<[status: number, told: any]>;
  close(): void;
}

export interface WorkerOptions {
  /** What the service calls it. */
  name: string;
  /** One that may work, where the service wants one. */
  token?: string;
  /** How many pieces of work it does at once; 4 if it isn't said. */
  threads?: number;
  /** Before another try, in milliseconds; 200 if it isn't said. */
  pause?: number;
  log?: Log;
}

/** Does work of `sihtolemd` until it is closed, and keeps its leases alive meanwhile. Work that throws `Unreachable` is tried again; an error of no
 * class ends the try, and the lease lapses: so another worker has it. */
export class Worker {
  constructor(address: string, participants: Iterable<Participant>, options: WorkerOptions);
  /** Ends once what is under way is done. The participants stay open. */
  close(): Promise<void>;
}
