/** Runs processes over several transactional systems by `tps serve`. See clients/README.md. */
export * from "./errors.mjs";
export { Outbox } from "./outbox.mjs";
export { ProgramAlone, Work } from "./participants.mjs";
export { Postgres } from "./postgres.mjs";
export { Scheduler } from "./scheduler.mjs";
export { Action, Answer, State, settle } from "./settling.mjs";
export { Sqlite } from "./sqlite.mjs";
export { Fenced, Service, Worker } from "./worker.mjs";
