/** What becomes of the work that a stop left in a system. One pure function decides, by what the files tell. */

/** How far the work of a step has come in its system. Each state follows on the one before. */
export const State = Object.freeze({
  ABSENT: "absent",
  PREPARED: "prepared",
  COMMITTED: "committed",
  UNDO_PREPARED: "undo prepared",
  UNDONE: "undone",
});

/** What the files tell of the step, as the program answers `done I.STEP`. */
export const Answer = Object.freeze({ DONE: "done", UNDONE: "undone", NOT_DONE: "not done", UNKNOWN: "unknown", NO_STEP: "no step" });

/** What to do about it. */
export const Action = Object.freeze({
  NOTHING: "nothing",
  COMMIT: "commit",
  TAKE_BACK: "take back",
  COMMIT_UNDO: "commit undo",
  TAKE_BACK_UNDO: "take back undo",
  UNDO: "undo",
  STOP_LOST: "stop: lost",
  STOP_AHEAD: "stop: ahead",
});

/** The action for work in that state of which the files tell that. */
export function settle(state, answer) {
  if (state === State.ABSENT) return answer === Answer.DONE ? Action.STOP_LOST : Action.NOTHING;
  if (answer === Answer.UNKNOWN || answer === Answer.NO_STEP) return Action.STOP_AHEAD;
  if (state === State.PREPARED) return answer === Answer.DONE ? Action.COMMIT : Action.TAKE_BACK;
  if (answer === Answer.NOT_DONE) return Action.STOP_AHEAD;
  if (state === State.COMMITTED) return answer === Answer.DONE ? Action.NOTHING : Action.UNDO;
  if (state === State.UNDO_PREPARED) return answer === Answer.DONE ? Action.TAKE_BACK_UNDO : Action.COMMIT_UNDO;
  return answer === Answer.DONE ? Action.STOP_AHEAD : Action.NOTHING;
}
