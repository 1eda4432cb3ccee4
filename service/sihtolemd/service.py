"""The service beneath its paths: what clients ask for, and what it consists of."""
import asyncio
import fcntl
import importlib
import os
import re
import sqlite3
import subprocess
import time
from collections.abc import Sequence
from concurrent.futures import ThreadPoolExecutor
from typing import Any, TextIO

from sihtolem import Participant, SihtolemError
from sihtolem.report import operations_of

from .configuration import Configuration
from .desk import Desk, Lease, told
from .errors import BadProcess, CheckFailed, ConfigurationError, NameTaken, NoProcess, NotOpen, QueueFull, StorageFailed, UnknownOperation
from .events import Events
from .ledger import Ledger
from .metrics import Metrics
from .remote import RemoteWorkers
from .runner import Runner
from .sets import NO_PROCESSES, OPENING
from .tracker import Tracker

CHECKS_AT_ONCE, CHECK_TRIES = 4, 3
PROCESS = re.compile(r"process ([a-z0-9_]{1,64})(?: |$)")


class Service:
    """It opens in the background. All its calls are made in the event loop's thread."""

    def __init__(self, configuration: Configuration, events: Events, metrics: Metrics):
        self.configuration, self.events, self.metrics = configuration, events, metrics
        self.tracker = Tracker(events, metrics)
        os.makedirs(configuration.folder, exist_ok=True)
        self._has_folder = locked(f"{configuration.folder}/lock")
        with open(configuration.scenario, encoding="ascii") as file:
            scenario = file.read()
        if configuration.carry_over and NO_PROCESSES not in scenario:
            raise ConfigurationError(f"the scenario has no line `{NO_PROCESSES}`, in whose place the process of `carry_over` would stand")
        self._ledger = Ledger(f"{configuration.folder}/ledger.db")
        self.runner = Runner(configuration, scenario, self._ledger, self.tracker, events)
        self._checks = ThreadPoolExecutor(CHECKS_AT_ONCE, thread_name_prefix="check")

    def start(self, loop: asyncio.AbstractEventLoop) -> None:
        settings = self.configuration
        self.desk = Desk(loop, self._ledger.first_lease(), settings.lease_seconds, settings.unclaimed_seconds, self._heard_of)
        participants: list[Participant] = [*self._own_participants(), self._remote()]
        self._operations = {operation for participant in participants for operation in participant.operations}
        self.runner.start(participants)

    async def stop(self) -> None:
        """Workers may still say what they have done, until what is out is settled."""
        await asyncio.to_thread(self.runner.stop)
        self.desk.close()
        await asyncio.to_thread(self._ledger.close)
        self._checks.shutdown()

    # What clients ask for.

    async def submit(self, text: str) -> tuple[dict[str, Any], bool]:
        """The process of this text, and whether it is new. It is kept once this returns."""
        text = " ".join(text.split())
        found = PROCESS.match(text)
        if not found or found[1] == OPENING:
            raise BadProcess(f"`{text[:60]}` is not `process NAME .. end` with a name of a-z, 0-9 and _")
        try:
            if self._ledger.find(found[1]) is None:
                await self._refuse(text)
            submission, is_new = await asyncio.wrap_future(self._ledger.submit(found[1], text, time.time()))
        except sqlite3.Error as error:
            raise StorageFailed(f"the submission was not kept: {error}") from None
        if submission.text != text:
            raise NameTaken(f"{found[1]} is another process")
        if is_new:
            self.runner.add(submission)
        return self.process(submission.name), is_new

    def process(self, name: str) -> dict[str, Any]:
        """How a process stands, with its way."""
        view = self.tracker.view(name)
        if view:
            return view
        submission = self._ledger.find(name)
        if submission is None:
            raise NoProcess(f"there is no process {name}")
        return submission.outcome or {"name": name, "state": "queued", "text": submission.text}

    def last_ended(self, count: int) -> list[dict[str, Any]]:
        """The newest first: those of this start, and then what the ledger has of earlier ones."""
        told = self.tracker.ended_lately(count)
        names = {it["name"] for it in told}
        older = [it.outcome for it in self._ledger.last_ended(count) if it.outcome and it.name not in names]
        return [*told, *older][:count]

    async def abort(self, name: str) -> dict[str, Any]:
        if self.process(name)["state"] in ("queued", "active") and not self.runner.drop(name):
            try:
                begun = self.runner.abort(name)
                if begun is None:
                    raise NotOpen(f"the service waits for {self.runner.waits_for}")
                await asyncio.shield(asyncio.wrap_future(begun))
            except SihtolemError as error:
                raise NotOpen(str(error)) from None
        return self.process(name)

    async def check(self, text: str) -> tuple[list[str], list[str]]:
        """What `tps check` says of a process text, and its hints."""
        return await asyncio.get_running_loop().run_in_executor(self._checks, self._checked, text)

    def gauges(self) -> tuple[dict[str, tuple[str, float]], dict[str, int]]:
        """The states of the moment for /metrics."""
        told, waiting = self.tracker.numbers()
        words = {
            "active": "processes that are active",
            "queued": "processes that were submitted and haven't started",
            "handed_out": "pieces that are handed out",
            "oldest_active_seconds": "age of the oldest active process",
        }
        gauges = {name: (words[name], value) for name, value in told.items()}
        gauges["open"] = ("1 where the scheduler runs", float(self.runner.is_open))
        gauges["files"] = ("number of the set of files in use", float(self.tracker.files))
        gauges["leases"] = ("work that workers have", float(len(self.desk.leases)))
        gauges["tasks_waiting"] = ("work that no worker has taken yet", float(self.desk.waiting))
        gauges["workers_polling"] = ("workers that wait for work", float(self.desk.polls))
        return gauges, waiting

    async def _refuse(self, text: str) -> None:
        """Raises where a text that is new can't be accepted."""
        if self.runner.open_count >= self.configuration.limits.queued:
            raise QueueFull(f"{self.runner.open_count} processes wait or are active")
        unknown = [operation for operation in operations_of(text) if operation not in self._operations]
        if unknown:
            raise UnknownOperation(f"nobody does {', '.join(dict.fromkeys(unknown))}")
        said, hints = await self.check(text)
        if len(said) != 1:
            raise BadProcess(f"these are {len(said)} processes: submit one at a time")
        if not said[0].endswith(": well-formed"):
            raise BadProcess("; ".join([*said, *hints]))

    def _checked(self, text: str) -> tuple[list[str], list[str]]:
        for _ in range(CHECK_TRIES):
            done = subprocess.run([self.configuration.program, "check"], input=text, capture_output=True, encoding="utf-8", cwd="/")
            if done.returncode >= 0:
                return done.stdout.splitlines(), done.stderr.splitlines()
        raise CheckFailed(f"signal {-done.returncode} ended `check`")

    # What becomes of leases.

    def _heard_of(self, how: str, lease: Lease) -> None:
        self.metrics.count(self.metrics.leases, how)
        if how == "lapsed":
            self.events.publish("lease_lapsed", worker=lease.worker, **told(lease))

    def _remote(self) -> RemoteWorkers:
        return RemoteWorkers(f"{self.configuration.folder}/workers.db", self.configuration.worker_operations, self.desk)

    def _own_participants(self) -> Sequence[Participant]:
        """What the function `module:function` of the configuration gives, called with the words behind it."""
        if not self.configuration.participants:
            return ()
        place, *words = self.configuration.participants
        module, _, function = place.partition(":")
        made: Sequence[Participant] = getattr(importlib.import_module(module), function)(*words)
        return made


def locked(path: str) -> TextIO:
    """The file, with a lock that other services on this machine find; it goes with the process."""
    file = open(path, "w")
    try:
        fcntl.flock(file, fcntl.LOCK_EX | fcntl.LOCK_NB)
    except BlockingIOError:
        raise ConfigurationError(f"another service has the folder {os.path.dirname(path)}") from None
    return file
