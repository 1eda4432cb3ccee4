"""What is done between the start of `tps serve` and the first piece: the library learns the files, and settles what a stop left."""
import logging
from collections.abc import Collection, Iterator, Sequence

from .dialogue import Dialogue
from .errors import Unsettled, WorkAhead, WorkLost
from .participants import Participant, Work
from .report import Report
from .settling import Action, Answer, State, settle

log = logging.getLogger("sihtolem")


def answer_of(line: str) -> Answer:
    """What a line says that answers `done I.STEP`."""
    for answer in (Answer.DONE, Answer.UNDONE, Answer.NOT_DONE, Answer.UNKNOWN, Answer.NO_STEP):
        if line.startswith(answer.value + " "):
            return answer
    raise ValueError(f"`done` is answered {line}")


class Settling:
    """The settling of one start. First everything is looked at, and only then is anything changed."""

    def __init__(self, mark: str, participants: Sequence[Participant], report: Report, alone: Collection[str]):
        self._mark, self._participants, self._report, self._alone = mark, participants, report, alone

    def settle(self, dialogue: Dialogue) -> Iterator[tuple[Participant, Action, Work]]:
        """What has to be done, in order, or an error where only a person can tell."""
        found = [(participant, participant.found(self._mark)) for participant in self._participants]
        open_places = [place for _, states in found for place, state in states.items() if state in (State.PREPARED, State.UNDO_PREPARED)]
        answers = {place: answer_of(told[0]) for place, told in zip(open_places, dialogue.ask_all([f"done {place}" for place in open_places]))}
        plan = []
        for participant, states in found:
            plan += [(participant, place, settle(state, answers.get(place) or self._told(place))) for place, state in states.items()]
            if not getattr(participant, "keeps_no_work", False):
                absent = [place for place in self._done_by(participant) if place not in states]
                plan += [(participant, place, settle(State.ABSENT, Answer.DONE)) for place in absent]
        self._stop_for_a_person([(place, action) for _, place, action in plan])
        for participant, place, action in plan:
            if action is not Action.NOTHING:
                work = self._work(place, action in (Action.COMMIT_UNDO, Action.TAKE_BACK_UNDO, Action.UNDO))
                log.info("%s: %s", work.name, action.value)
                yield participant, action, work

    def _told(self, place: str) -> Answer:
        if place in self._report.acts:
            return self._report.acts[place][0]
        return Answer.NOT_DONE if int(place.partition(".")[0]) in self._report.names else Answer.UNKNOWN

    def _done_by(self, participant: Participant) -> list[str]:
        acts = [(place, operation) for place, (answer, operation) in self._report.acts.items() if answer is Answer.DONE]
        return [place for place, operation in acts if operation in participant.operations and self._name(place) not in self._alone]

    def _name(self, place: str) -> str:
        return self._report.names.get(int(place.partition(".")[0]), "")

    def _work(self, place: str, undo: bool) -> Work:
        """Of settled work the name alone counts: its system kept the rest with it."""
        operation = self._report.acts.get(place, (Answer.NOT_DONE, ""))[1]
        return Work(self._mark, place, undo, self._name(place), operation, 0, 0)

    def _stop_for_a_person(self, plan: list[tuple[str, Action]]) -> None:
        kinds: list[tuple[Action, type[Unsettled], str]] = [
            (Action.STOP_LOST, WorkLost, "the files tell this work as done, and its system has nothing of it"),
            (Action.STOP_AHEAD, WorkAhead, "a system has this work, and the files don't tell it"),
        ]
        for action, kind, what in kinds:
            names = [f"{self._mark}/{place}" for place, wanted in plan if wanted is action]
            if names:
                raise kind(what, names)


def carry_out(participant: Participant, action: Action, work: Work) -> None:
    """One action of a settling. It may be made again."""
    if action is Action.UNDO:
        participant.prepare(work)
    if action in (Action.TAKE_BACK, Action.TAKE_BACK_UNDO):
        participant.take_back(work)
    else:
        participant.commit(work)
