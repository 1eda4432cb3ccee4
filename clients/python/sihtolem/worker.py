"""A worker of `sihtolemd`: it fetches work over HTTP, and participants of this library do it. docs/OPERATING.md has the paths."""
import http.client
import json
import logging
import socket
import sqlite3
import threading
import time
from collections.abc import Callable, Iterable, Iterator
from contextlib import contextmanager, nullcontext
from typing import Any

from .errors import Refused, Unreachable
from .participants import Participant, Work
from .settling import State
from .sqlite import Sqlite

log = logging.getLogger("sihtolem")


class Overtaken(Exception):
    """Somebody has a later lease of this work: what this one asks for comes too late, and changes nothing."""


class Fenced(Sqlite):
    """A database of a worker. It keeps the greatest lease that it saw of each step, and drops what comes under an earlier one: so a worker that is late
    can't prepare anew what another has taken back."""

    def __init__(self, *words: Any, **options: Any):
        super().__init__(*words, **options)
        with self._transaction() as execute:
            execute("CREATE TABLE IF NOT EXISTS sihtolem_lease (name TEXT PRIMARY KEY, lease INTEGER NOT NULL)")

    @contextmanager
    def under(self, lease: int) -> Iterator[None]:
        """What this thread asks for within is under this lease."""
        self._local.lease = lease
        try:
            yield
        finally:
            del self._local.lease

    def _kept(self, execute: Callable[..., sqlite3.Cursor], work: Work) -> tuple[State, Work]:  # type: ignore[override]
        row = execute("SELECT lease FROM sihtolem_lease WHERE name = ?", (work.step_name,)).fetchone()
        if row and row[0] > self._local.lease:
            raise Overtaken(f"{work.name}: lease {self._local.lease} is overtaken by {row[0]}")
        execute("INSERT OR REPLACE INTO sihtolem_lease VALUES (?, ?)", (work.step_name, self._local.lease))
        return super()._kept(execute, work)


class Connection(http.client.HTTPConnection):
    """One to `HOST:PORT`, or to a Unix socket by `unix:PATH`."""

    def __init__(self, address: str, timeout: float):
        super().__init__("localhost" if address.startswith("unix:") else address, timeout=timeout)
        self._address = address

    def connect(self) -> None:
        if self._address.startswith("unix:"):
            self.sock = socket.socket(socket.AF_UNIX)
            self.sock.settimeout(self.timeout)
            self.sock.connect(self._address.removeprefix("unix:"))
        else:
            super().connect()


class Service:
    """Calls of the service, over a connection that is made anew where it is lost. A thread has one of its own."""

    def __init__(self, address: str, token: str = "", timeout: float = 90.0):
        self._address, self._timeout = address, timeout
        self._headers = {"Content-Type": "application/json", **({"Authorization": f"Bearer {token}"} if token else {})}
        self._connection: Connection | None = None

    def call(self, method: str, path: str, body: dict[str, Any] | None = None) -> tuple[int, dict[str, Any]]:
        """The status and the JSON of the answer. Raises OSError or HTTPException where there is none."""
        if self._connection is None:
            self._connection = Connection(self._address, self._timeout)
        try:
            self._connection.request(method, path, None if body is None else json.dumps(body), self._headers)
            answer = self._connection.getresponse()
            told = answer.read()
        except BaseException:
            self.close()
            raise
        return answer.status, json.loads(told) if told else {}

    def close(self) -> None:
        if self._connection is not None:
            self._connection.close()
            self._connection = None


class Worker:
    """Works with so many threads until it is closed, and keeps their leases alive meanwhile. Work that raises `Unreachable` is tried again; an error of no
    class ends the try, and the lease lapses: so another worker has it."""

    def __init__(self, address: str, participants: Iterable[Participant], *, name: str, token: str = "", threads: int = 4, pause: float = 0.2):
        self._of = {operation: participant for participant in participants for operation in participant.operations}
        self._address, self._token, self._name, self._pause = address, token, name, pause
        self._closing, self._lock = threading.Event(), threading.Lock()
        # The leases under way, each with the seconds between its signs of life, and when the next one is due.
        self._leases: dict[int, tuple[float, float]] = {}
        self._threads = [threading.Thread(target=self._work, name=f"{name}-{at}", daemon=True) for at in range(threads)]
        self._beating = threading.Thread(target=self._beat, name=f"{name}-beat", daemon=True)
        for thread in [*self._threads, self._beating]:
            thread.start()

    def close(self) -> None:
        """Ends once what is under way is done; a wait for work ends by itself."""
        self._closing.set()
        for thread in [*self._threads, self._beating]:
            thread.join()

    def _work(self) -> None:
        service = Service(self._address, self._token)
        while not self._closing.is_set():
            try:
                status, told = service.call("POST", "/v1/work", {"worker": self._name, "operations": sorted(self._of), "wait": 5})
                if status == 200:
                    self._do(service, told)
                elif status != 204:
                    log.warning("no work: %s", told)
                    self._closing.wait(self._pause)
            except (OSError, http.client.HTTPException, ValueError) as error:
                log.warning("the service is out of reach: %s", error)
                self._closing.wait(self._pause)
        service.close()

    def _do(self, service: Service, told: dict[str, Any]) -> None:
        lease, seconds = told["lease"], told["seconds"] / 3
        work = Work(*(told[name] for name in ("mark", "place", "undo", "process", "operation", "key", "amount")))
        with self._lock:
            self._leases[lease] = (seconds, time.monotonic() + seconds)
        try:
            refusal = self._refusal(lease, told["action"], work)
        except Overtaken as error:
            log.warning("%s", error)
            return
        except Exception:
            log.exception("%s of %s fails", told["action"], work.name)
            return
        finally:
            with self._lock:
                self._leases.pop(lease, None)
        if refusal is None:
            service.call("POST", f"/v1/work/{lease}/done")
        else:
            service.call("POST", f"/v1/work/{lease}/refused", {"reason": refusal})

    def _refusal(self, lease: int, action: str, work: Work) -> str | None:
        """Does it, as often as it takes. Gives why the system refuses, or None where it is done."""
        participant = self._of[work.operation]
        do = {"prepare": participant.prepare, "commit": participant.commit, "take back": participant.take_back}[action]
        while True:
            try:
                with participant.under(lease) if isinstance(participant, Fenced) else nullcontext():
                    do(work)
                return None
            except Refused as error:
                return str(error)
            except Unreachable as error:
                log.warning("%s: %s", work.name, error)
                time.sleep(self._pause)
                if lease not in self._leases:
                    raise Overtaken(f"{work.name}: lease {lease} has ended") from error

    def _beat(self) -> None:
        """A sign of life for each lease that is due. One that has ended is given up."""
        service = Service(self._address, self._token, timeout=10)
        while not self._closing.wait(self._pause) or self._leases:
            now = time.monotonic()
            with self._lock:
                due = [(lease, seconds) for lease, (seconds, at) in self._leases.items() if at <= now]
            for lease, seconds in due:
                try:
                    is_alive = service.call("POST", f"/v1/work/{lease}/heartbeat")[0] == 200
                except (OSError, http.client.HTTPException, ValueError):
                    continue
                with self._lock:
                    if lease in self._leases and is_alive:
                        self._leases[lease] = (seconds, now + seconds)
                    elif not is_alive:
                        self._leases.pop(lease, None)
        service.close()
