"""What becomes of the work that a stop left in a system. One pure function decides, by what the files tell."""
from enum import Enum


class State(Enum):
    """How far the work of a step has come in its system. Each state follows on the one before."""

    ABSENT = "absent"
    PREPARED = "prepared"
    COMMITTED = "committed"
    UNDO_PREPARED = "undo prepared"
    UNDONE = "undone"


class Answer(Enum):
    """What the files tell of the step, as the program answers `done I.STEP`."""

    DONE = "done"
    UNDONE = "undone"
    NOT_DONE = "not done"
    UNKNOWN = "unknown"
    NO_STEP = "no step"


class Action(Enum):
    """What to do about it."""

    NOTHING = "nothing"
    COMMIT = "commit"
    TAKE_BACK = "take back"
    COMMIT_UNDO = "commit undo"
    TAKE_BACK_UNDO = "take back undo"
    UNDO = "undo"
    STOP_LOST = "stop: lost"
    STOP_AHEAD = "stop: ahead"


def settle(state: State, answer: Answer) -> Action:
    """The action for work in that state of which the files tell that."""
    if state is State.ABSENT:
        return Action.STOP_LOST if answer is Answer.DONE else Action.NOTHING
    if answer in (Answer.UNKNOWN, Answer.NO_STEP):
        return Action.STOP_AHEAD
    if state is State.PREPARED:
        return Action.COMMIT if answer is Answer.DONE else Action.TAKE_BACK
    if answer is Answer.NOT_DONE:
        return Action.STOP_AHEAD
    if state is State.COMMITTED:
        return Action.NOTHING if answer is Answer.DONE else Action.UNDO
    if state is State.UNDO_PREPARED:
        return Action.TAKE_BACK_UNDO if answer is Answer.DONE else Action.COMMIT_UNDO
    return Action.STOP_AHEAD if answer is Answer.DONE else Action.NOTHING
