"""What can go wrong, each with what to do about it."""
from collections.abc import Iterable


class Refused(Exception):
    """Raised by a handler: its system refuses this work for good. Nothing of it is prepared."""


class Unreachable(Exception):
    """Raised by a handler: its system can't be reached, or can't say yet. The work is tried again, after a pause that grows."""


class SihtolemError(Exception):
    """What the library can't mend by itself. `advice` says what a person does."""

    advice = ""

    def __str__(self) -> str:
        return f"{super().__str__()}: {self.advice}"


class ProgramMissing(SihtolemError):
    advice = "install tps, or name the program by `program`"


class ScenarioRefused(SihtolemError):
    """The program refuses the scenario, or it isn't the one with which the files were made."""

    advice = "mend the scenario; operations and conflicts stay those with which the files were made"


class FilesRefused(SihtolemError):
    """The nine files of the folder aren't whole, aren't of one moment, or can't be used."""

    advice = "bring back nine files of one moment, such as those that `backup` made, or mend their permissions where the line says so"


class FolderInUse(SihtolemError):
    """Another program has the folder for longer than `patience`."""

    advice = "stop the program that has the folder, and start again"


class ServeFailed(SihtolemError):
    """`tps serve` ends again and again without an answer, as where the disk fails."""

    advice = "look at its last line and status in docs/COMMANDS.md, and at disk, memory and limits of the machine"


class ProcessRefused(SihtolemError):
    """The text is no process, or one that can get stuck. Nothing was started."""

    advice = "mend the text; `tps check` tells how it gets stuck"


class FilesFull(SihtolemError):
    """The files have no room for another process. Nothing was started."""

    advice = "let all end, go on in a fresh folder, and submit it there"


class NoParticipant(SihtolemError):
    """No participant does this operation."""

    advice = "add it to a participant, or name it in `ProgramAlone`"


class NotReady(SihtolemError):
    """A system isn't set up so that it can take part."""

    advice = "set it up as clients/README.md says, and start again"


class Superseded(SihtolemError):
    """Another driver has begun with the same mark in this system."""

    advice = "stop one of the two, or give each files and a mark of its own"


class Closed(SihtolemError):
    """The scheduler was closed before the process ended."""

    advice = "submit the same text after the next start: the process goes on, and is not started twice"


class Unsettled(SihtolemError):
    """Files and systems aren't of one moment. Nothing was changed. `names` has the work that tells it."""

    def __init__(self, what: str, names: Iterable[str]):
        self.names = tuple(names)
        super().__init__(f"{what}: {', '.join(self.names)}")


class WorkLost(Unsettled):
    """The files tell steps as done of which a system has nothing: it was restored to an earlier day, or `tps restart` did them."""

    advice = "bring the system to the moment of the files, or do this work by hand and write its names into the system's table of work"


class WorkAhead(Unsettled):
    """A system has work that the files don't know: they were restored to an earlier day, or others have their mark."""

    advice = "bring back the files of that moment, or take this work back by hand; fresh files want a mark of their own"
