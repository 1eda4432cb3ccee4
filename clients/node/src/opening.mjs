/** What is done between the start of `tps serve` and the first piece: the library learns the files, and settles what a stop left. */
import { WorkAhead, WorkLost } from "./errors.mjs";
import { Work } from "./participants.mjs";
import { Action, Answer, State, settle } from "./settling.mjs";

/** What a line says that answers `done I.STEP`. */
export function answerOf(line) {
  for (const answer of Object.values(Answer)) if (line.startsWith(`${answer} `)) return answer;
  throw new Error(`\`done\` is answered ${line}`);
}

const OPEN = [State.PREPARED, State.UNDO_PREPARED];
const UNDOS = [Action.COMMIT_UNDO, Action.TAKE_BACK_UNDO, Action.UNDO];

/** What has to be done, in order, or an error where only a person can tell. First everything is looked at; nothing is changed here. */
export async function planSettling(mark, participants, report, dialogue, alone = []) {
  const found = [];
  for (const participant of participants) found.push([participant, await participant.found(mark)]);
  const open = found.flatMap(([, states]) => [...states.keys()].filter((place) => OPEN.includes(states.get(place))));
  const told = await dialogue.askAll(open.map((place) => `done ${place}`));
  const answers = new Map(open.map((place, at) => [place, answerOf(told[at][0])]));
  const plan = [];
  for (const [participant, states] of found) {
    for (const [place, state] of states) plan.push([participant, place, settle(state, answers.get(place) ?? toldOf(report, place))]);
    if (participant.keepsNoWork) continue;
    for (const place of doneBy(participant, report, alone)) if (!states.has(place)) plan.push([participant, place, settle(State.ABSENT, Answer.DONE)]);
  }
  stopForAPerson(mark, plan);
  const wanted = plan.filter(([, , action]) => action !== Action.NOTHING);
  return wanted.map(([participant, place, action]) => [participant, action, workOf(mark, report, place, action)]);
}

function doneBy(participant, report, alone) {
  const operations = new Set(participant.operations);
  const acts = [...report.acts].filter(([, [answer, operation]]) => answer === Answer.DONE && operations.has(operation));
  return acts.map(([place]) => place).filter((place) => !alone.includes(report.names.get(parseInt(place))));
}

function toldOf(report, place) {
  return report.acts.get(place)?.[0] ?? (report.names.has(parseInt(place)) ? Answer.NOT_DONE : Answer.UNKNOWN);
}

/** Of settled work the name alone counts: its system kept the rest with it. */
function workOf(mark, report, place, action) {
  return new Work(mark, place, UNDOS.includes(action), report.names.get(parseInt(place)) ?? "", report.acts.get(place)?.[1] ?? "", 0, 0);
}

function stopForAPerson(mark, plan) {
  for (const [action, Kind, what] of [
    [Action.STOP_LOST, WorkLost, "the files tell this work as done, and its system has nothing of it"],
    [Action.STOP_AHEAD, WorkAhead, "a system has this work, and the files don't tell it"],
  ]) {
    const names = plan.filter(([, , wanted]) => wanted === action).map(([, place]) => `${mark}/${place}`);
    if (names.length) throw new Kind(what, names);
  }
}

/** One action of a settling. It may be made again. */
export async function carryOut(participant, action, work) {
  if (action === Action.UNDO) await participant.prepare(work);
  if (action === Action.TAKE_BACK || action === Action.TAKE_BACK_UNDO) await participant.takeBack(work);
  else await participant.commit(work);
}
