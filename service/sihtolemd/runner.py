"""The thread that has a scheduler of the library, over one set of files after another."""
import threading
import time
from collections.abc import Sequence
from concurrent.futures import Future
from functools import partial
from typing import Any

from sihtolem import Closed, FilesFull, NoParticipant, Outcome, Participant, ProcessRefused, Scheduler, SihtolemError

from .configuration import Configuration
from .events import Events
from .ledger import Ledger, Submission
from .sets import OPENING, Sets
from .tracker import Tracker

# The waits are asked for so often at most, and take up this share of the scheduler's time at most.
SECONDS_BETWEEN_WAITS, SHARE_OF_WAITS = 0.25, 0.05
PAUSE_AFTER_FAILURE = 2.0
SECONDS_FOR_AN_OPENING = 3.0


class EndsNotKept(Exception):
    """The ledger lacks ends of processes, so fresh files can't be begun: the old ones have to tell them once more."""


class Runner:
    """Runs what is open in the ledger. `add`, `drop` and `abort` come from the event loop's thread."""

    def __init__(self, configuration: Configuration, scenario: str, ledger: Ledger, tracker: Tracker, events: Events):
        self._configuration, self._scenario, self._ledger, self._tracker, self._events = configuration, scenario, ledger, tracker, events
        self._sets = Sets(configuration.program, f"{configuration.folder}/files", scenario, configuration.carry_over)
        self._scheduler: Scheduler | None = None
        self._lock, self._stopping = threading.Lock(), threading.Event()
        # Of the files in use: how many processes they have, those that were handed over and haven't ended, whether the ledger has the ends of the others.
        self._is_full, self._handed_over, self._under_way, self._are_kept = False, 0, set[str](), True
        self._open: set[str] = set()
        self.waits_for = "the start"

    def start(self, participants: Sequence[Participant]) -> None:
        self._participants = participants
        for submission in self._ledger.open():
            self._open.add(submission.name)
            self._tracker.submitted(submission.name, submission.text, submission.submitted, is_new=False)
        self._thread = threading.Thread(target=self._run, name="runner", daemon=True)
        self._thread.start()

    def stop(self) -> None:
        """Waits for what is out; the rest goes on at the next start. An opening that waits for workers is given up."""
        self._stopping.set()
        self._thread.join(None if self.is_open else SECONDS_FOR_AN_OPENING)

    @property
    def is_open(self) -> bool:
        return self._scheduler is not None

    @property
    def is_stopping(self) -> bool:
        return self._stopping.is_set()

    @property
    def open_count(self) -> int:
        """How many were submitted and haven't ended."""
        return len(self._open)

    def add(self, submission: Submission) -> None:
        """A new submission, which the ledger has."""
        self._open.add(submission.name)
        self._tracker.submitted(submission.name, submission.text, submission.submitted)
        self._hand_over([submission])

    def drop(self, name: str) -> bool:
        """Whether the process waits for fresh files, and so has ended now, before its start."""
        with self._lock:
            if self._scheduler is None or name in self._under_way or self._tracker.is_in_files(name) or name not in self._open:
                return False
            self._keep_end(Outcome(name, 0, (), ("aborted before its start",)))
            return True

    def abort(self, name: str) -> "Future[None] | None":
        """Tells when the process has begun to go back; None where no scheduler runs."""
        scheduler = self._scheduler
        return scheduler.abort(name) if scheduler else None

    # The thread.

    def _run(self) -> None:
        """One set of files after another. Where a scheduler ends by a fault, it is tried again: what a person mends takes effect without a restart."""
        while not self._stopping.is_set():
            try:
                self._tracker.files = self._sets.last or self._begin_files()
                self._serve(self._tracker.files)
                if not self._stopping.is_set():
                    self._begin_files()
            except Closed:
                pass
            except Exception as error:
                self.waits_for = f"{type(error).__name__}: {error}"
                self._events.publish("failed", what=self.waits_for)
                self._stopping.wait(PAUSE_AFTER_FAILURE)

    def _begin_files(self) -> int:
        number = self._sets.begin()
        self._events.publish("files_begun", files=number)
        return number

    def _serve(self, number: int) -> None:
        """Serves until these files are full, or the service stops. What was active in full files has ended then, and its end is kept. Files of another
        scenario count as full: what is active in them ends by that one."""
        settings, scenario = self._configuration, self._sets.scenario(number)
        self.waits_for = "the settling: work of an earlier run that workers have to commit or take back"
        participants = [Reopened(it) for it in self._participants]
        options: dict[str, Any] = {"program": settings.program, "mark": f"{settings.mark}-{number}".lstrip("-"), "alone": [OPENING], "observer": self._tracker}
        options |= {"most_active": settings.most_active, "workers": settings.most_active, "patience": settings.patience_seconds, "longest_pause": 1.0}
        scheduler = Scheduler(self._sets.folder(number), scenario, participants, **options)
        try:
            self._open.update(it.name for it in self._ledger.open())
            with self._lock:
                self._is_full, self._handed_over, self._under_way, self._are_kept = False, self._tracker.count_in_files(), set(), True
                self._scheduler = scheduler
                if scenario != self._scenario:
                    self._files_are_full()
            self._hand_over(self._ledger.open())
            self._watch(scheduler)
        finally:
            with self._lock:
                self._scheduler = None
            self.waits_for = "fresh files" if self._is_full else "the end of what is out"
            scheduler.close(until_ended=not self._stopping.is_set())
            self._ledger.flush()
        if not self._are_kept:
            raise EndsNotKept("the ledger lacks ends of processes")

    def _watch(self, scheduler: Scheduler) -> None:
        """Asks for the waits again and again, until the files are full and all in them has ended. An error of the scheduler comes out here."""
        pause = SECONDS_BETWEEN_WAITS
        while not self._stopping.wait(pause) and not (self._is_full and not self._under_way):
            began = time.monotonic()
            self._tracker.waits(scheduler.waits().result())
            pause = max(SECONDS_BETWEEN_WAITS, (time.monotonic() - began) / SHARE_OF_WAITS)

    def _hand_over(self, submissions: Sequence[Submission]) -> None:
        """Gives them to the scheduler, as far as the files have room. The rest comes when there is a scheduler over fresh files."""
        futures = []
        with self._lock:
            for submission in submissions:
                if self._scheduler is None:
                    break
                if submission.name not in self._open:
                    continue
                is_new = not self._tracker.is_in_files(submission.name)
                if is_new and self._handed_over >= self._configuration.processes_in_files:
                    self._files_are_full()
                if is_new and self._is_full or submission.name in self._under_way:
                    continue
                try:
                    futures.append((submission.name, self._scheduler.submit(submission.text)))
                except (NoParticipant, ProcessRefused) as error:
                    self._keep_rejection(submission.name, error)
                except SihtolemError:
                    break
                else:
                    self._handed_over += is_new
                    self._under_way.add(submission.name)
        for name, future in futures:
            future.add_done_callback(partial(self._ended, name))

    def _files_are_full(self) -> None:
        if not self._is_full:
            self._is_full = True
            self._events.publish("files_full", files=self._tracker.files)

    def _ended(self, name: str, done: "Future[Outcome]") -> None:
        error = done.exception()
        if error is None:
            self._keep_end(done.result())
        elif isinstance(error, FilesFull):
            self._files_are_full()
        elif isinstance(error, ProcessRefused):
            self._keep_rejection(name, error)
        self._under_way.discard(name)

    def _keep_end(self, outcome: Outcome) -> None:
        self._tracker.ended(outcome)
        self._keep(outcome.name, "ended", outcome.path, outcome.reasons)

    def _keep_rejection(self, name: str, error: SihtolemError) -> None:
        self._tracker.rejected(name, str(error))
        self._keep(name, "rejected", (), (str(error),))

    def _keep(self, name: str, state: str, path: tuple[str, ...], reasons: tuple[str, ...]) -> None:
        told = self._tracker.view(name) or {"name": name, "state": state, "text": "", "way": [], "path": list(path), "reasons": list(reasons)}
        self._open.discard(name)
        self._ledger.end(name, state, time.time(), told).add_done_callback(self._look_at_kept)

    def _look_at_kept(self, done: "Future[None]") -> None:
        error = done.exception()
        if error:
            self._are_kept = False
            self._events.publish("failed", what=f"the end of a process was not kept: {error}")


class Reopened:
    """A participant that outlasts a scheduler: the next one goes on with it."""

    def __init__(self, participant: Participant):
        self._participant = participant

    def __getattr__(self, name: str) -> Any:
        return getattr(self._participant, name)

    def close(self) -> None:
        pass
