"""What the library asks of a system that takes part."""
from collections.abc import Collection, Mapping
from dataclasses import dataclass
from typing import Protocol

from .settling import State


@dataclass(frozen=True)
class Work:
    """One step, or the undo of one. `process` is its process's name, and `place` is `I.STEP`."""

    mark: str
    place: str
    undo: bool
    process: str
    operation: str
    key: int
    amount: int

    @property
    def step_name(self) -> str:
        """The name of the step in its system: `MARK/I.STEP`."""
        return f"{self.mark}/{self.place}"

    @property
    def name(self) -> str:
        """The name of this work in its system: that of the step, with ` undo` behind it for its undo. Receivers drop what comes twice by it."""
        return self.step_name + (" undo" if self.undo else "")


class Participant(Protocol):
    """A system that does the work of some operations. Calls come from several threads; each may raise `Unreachable`, and is then made again."""

    operations: Collection[str]

    def begin(self, mark: str) -> None:
        """Before each settling: ends what former sessions left under way. Whatever they began is prepared now, or never will be."""

    def found(self, mark: str) -> Mapping[str, State]:
        """The places `I.STEP` of which the system has work under this mark, prepared or more."""

    def prepare(self, work: Work) -> None:
        """Prepares the work, so that it can still be committed and taken back, also after a crash. A second call changes nothing more.
        Raises `Refused` where the system refuses; an undo should not be refused."""

    def commit(self, work: Work) -> None:
        """Commits what is prepared. A second call changes nothing more."""

    def take_back(self, work: Work) -> None:
        """Takes back what is prepared, if anything is. What is committed stays."""

    def close(self) -> None:
        """Gives up its connections."""


class ProgramAlone:
    """Operations that the program's own stores count, such as places in a van. There is nothing to do outside."""

    def __init__(self, *operations: str):
        self.operations: Collection[str] = operations
        self.keeps_no_work = True

    def begin(self, mark: str) -> None:
        pass

    def found(self, mark: str) -> Mapping[str, State]:
        return {}

    def prepare(self, work: Work) -> None:
        pass

    def commit(self, work: Work) -> None:
        pass

    def take_back(self, work: Work) -> None:
        pass

    def close(self) -> None:
        pass
