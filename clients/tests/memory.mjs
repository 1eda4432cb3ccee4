/** A system in memory, that plays what a table says. */
import { Refused, State, Unreachable } from "../node/src/index.mjs";

const NEXT = { [State.PREPARED]: State.COMMITTED, [State.UNDO_PREPARED]: State.UNDONE };
const BEFORE = { [State.PREPARED]: State.ABSENT, [State.UNDO_PREPARED]: State.COMMITTED };

/** Outcomes stand in the tables by `PROCESS.STEP`, one a call; where there is none the call goes well. */
export class Memory {
  states = new Map();
  calls = 0;
  onCall = () => {};

  constructor(operations, prepares = {}, commits = {}) {
    Object.assign(this, { operations, prepares, commits });
  }

  begin() {}

  found() {
    return new Map([...this.states].filter(([, state]) => state !== State.ABSENT));
  }

  async prepare(work) {
    await new Promise(setImmediate);
    await this.onCall(++this.calls);
    play(this.prepares, work);
    const state = this.states.get(work.place) ?? State.ABSENT;
    const wanted = work.undo ? [State.COMMITTED, State.UNDO_PREPARED] : [State.ABSENT, State.PREPARED];
    if (!wanted.includes(state)) throw new Error(`${work.name} at ${state}`);
    this.states.set(work.place, work.undo ? State.UNDO_PREPARED : State.PREPARED);
  }

  async commit(work) {
    await new Promise(setImmediate);
    play(this.commits, work);
    const state = this.states.get(work.place);
    if (!NEXT[state]) throw new Error(`${work.name} at ${state}`);
    this.states.set(work.place, NEXT[state]);
  }

  takeBack(work) {
    const state = this.states.get(work.place) ?? State.ABSENT;
    this.states.set(work.place, BEFORE[state] ?? state);
  }

  close() {}
}

function play(table, work) {
  const step = `${work.process}.${work.place.split(".")[1]}${work.undo ? " undo" : ""}`;
  const outcome = table[step]?.shift();
  if (outcome === "refused") throw new Refused("played");
  if (outcome === "unreachable") throw new Unreachable("played");
  if (outcome === "error") throw new TypeError("played");
}
