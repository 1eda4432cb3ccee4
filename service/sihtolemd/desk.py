"""The desk where workers fetch what is to be done. Whoever takes a task has a lease of it, and loses it where no sign of life comes in time.

Each lease has a number above all earlier ones. A system that keeps the greatest number that it saw of a name can drop what a worker does late.
"""
import asyncio
from collections.abc import Callable, Collection
from concurrent.futures import Future
from dataclasses import dataclass, field
from typing import Any

from sihtolem import Refused, Unreachable, Work

from .errors import LeaseEnded, NotRefusable

PREPARE, COMMIT, TAKE_BACK = "prepare", "commit", "take back"


@dataclass
class Task:
    action: str
    work: Work
    done: "Future[None]" = field(default_factory=Future)
    timer: asyncio.TimerHandle | None = None


@dataclass
class Lease:
    number: int
    task: Task
    worker: str
    until: float
    timer: asyncio.TimerHandle


@dataclass
class Poll:
    """A worker that waits for a task."""

    worker: str
    operations: Collection[str]
    found: "asyncio.Future[Lease]"
    is_there: Callable[[], bool]


class Desk:
    """All but `carry_out` is called in the event loop's thread. `heard(what, lease)` is told what becomes of leases."""

    def __init__(self, loop: asyncio.AbstractEventLoop, first: int, seconds: float, unclaimed: float, heard: Callable[[str, Lease], None]):
        self._loop, self._next, self.seconds, self._unclaimed, self._heard = loop, first, seconds, unclaimed, heard
        self._tasks: list[Task] = []
        self._polls: list[Poll] = []
        self.leases: dict[int, Lease] = {}

    @property
    def waiting(self) -> int:
        return len(self._tasks)

    @property
    def polls(self) -> int:
        return len(self._polls)

    def carry_out(self, action: str, work: Work) -> None:
        """Waits, in a thread of the library, until a worker has done it. Raises `Refused` where the worker's system refuses, and `Unreachable`
        where nobody takes the task or its lease ends: then the library tries again, and another worker has it."""
        task = Task(action, work)
        self._loop.call_soon_threadsafe(self._put, task)
        task.done.result()

    async def take(self, worker: str, operations: Collection[str], wait: float, is_there: Callable[[], bool]) -> Lease | None:
        """A lease of the first task that this worker can do, or None if none comes in that time. One that isn't there any more gets none."""
        for task in self._tasks:
            if task.work.operation in operations:
                self._tasks.remove(task)
                return self._lend(task, worker)
        poll = Poll(worker, operations, self._loop.create_future(), is_there)
        self._polls.append(poll)
        try:
            return await asyncio.wait_for(poll.found, wait)
        except asyncio.TimeoutError:
            return None
        finally:
            if poll in self._polls:
                self._polls.remove(poll)

    def done(self, number: int) -> None:
        self._end(number, "done").done.set_result(None)

    def refused(self, number: int, reason: str) -> None:
        if self._lease(number).task.action != PREPARE:
            raise NotRefusable(f"lease {number} is to {self._lease(number).task.action}")
        self._end(number, "refused").done.set_exception(Refused(reason))

    def beat(self, number: int) -> Lease:
        """A sign of life: the lease is as new."""
        lease = self._lease(number)
        lease.timer.cancel()
        lease.until, lease.timer = self._loop.time() + self.seconds, self._loop.call_later(self.seconds, self._lapse, number)
        return lease

    def _lease(self, number: int) -> Lease:
        if number not in self.leases:
            raise LeaseEnded(f"there is no lease {number}")
        return self.leases[number]

    def _end(self, number: int, how: str) -> Task:
        lease = self._lease(number)
        del self.leases[number]
        lease.timer.cancel()
        self._heard(how, lease)
        return lease.task

    def _lapse(self, number: int) -> None:
        lease = self.leases[number]
        self._end(number, "lapsed").done.set_exception(Unreachable(f"the lease of {lease.worker} has ended without a word"))

    def _put(self, task: Task) -> None:
        for poll in self._polls:
            if task.work.operation in poll.operations and not poll.found.done() and poll.is_there():
                self._polls.remove(poll)
                poll.found.set_result(self._lend(task, poll.worker))
                return
        self._tasks.append(task)
        task.timer = self._loop.call_later(self._unclaimed, self._withdraw, task)

    def _withdraw(self, task: Task) -> None:
        self._tasks.remove(task)
        task.done.set_exception(Unreachable(f"no worker takes {task.work.operation}"))

    def _lend(self, task: Task, worker: str) -> Lease:
        if task.timer:
            task.timer.cancel()
        number, self._next = self._next, self._next + 1
        lease = Lease(number, task, worker, self._loop.time() + self.seconds, self._loop.call_later(self.seconds, self._lapse, number))
        self.leases[number] = lease
        return lease

    def close(self) -> None:
        """Nobody comes any more: what waits is out of reach."""
        for task in self._tasks:
            if task.timer:
                task.timer.cancel()
            task.done.set_exception(Unreachable("the service closes"))
        self._tasks.clear()
        for number in list(self.leases):
            self._end(number, "lapsed").done.set_exception(Unreachable("the service closes"))


def told(lease: Lease) -> dict[str, Any]:
    """What a worker is told of its lease."""
    work = lease.task.work
    return {
        "lease": lease.number,
        "action": lease.task.action,
        "mark": work.mark,
        "place": work.place,
        "name": work.name,
        "undo": work.undo,
        "process": work.process,
        "operation": work.operation,
        "key": work.key,
        "amount": work.amount,
    }
