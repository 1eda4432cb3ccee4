"""What the service keeps beside the files of the program: who was submitted, in which order, and how each has ended.

The files tell what has happened. The ledger keeps a submission from the answer to it until its process has started in the files, and its end for
whoever asks later. One thread writes: what comes at about the same time is one transaction.
"""
import json
import queue
import sqlite3
import threading
from collections.abc import Callable
from concurrent.futures import Future
from dataclasses import dataclass
from typing import Any

TABLES = """
    CREATE TABLE IF NOT EXISTS submissions (
        number INTEGER PRIMARY KEY, name TEXT NOT NULL UNIQUE, text TEXT NOT NULL, submitted REAL NOT NULL,
        state TEXT NOT NULL DEFAULT 'open', ended REAL, outcome TEXT
    );
    CREATE INDEX IF NOT EXISTS open_submissions ON submissions (number) WHERE state = 'open';
    CREATE TABLE IF NOT EXISTS leases (next INTEGER NOT NULL);
"""
LEASES_OF_A_RUN = 1 << 32


@dataclass(frozen=True)
class Submission:
    """`state` is `open`, `ended`, or `rejected` where the program took no such process. The outcome is what GET /v1/processes/NAME tells."""

    name: str
    text: str
    submitted: float
    state: str = "open"
    ended: float | None = None
    outcome: dict[str, Any] | None = None


class Ledger:
    def __init__(self, path: str):
        self._path, self._lock = path, threading.Lock()
        self._reader = self._connect()
        self._reader.executescript(TABLES)
        self._todo: "queue.SimpleQueue[tuple[Callable[[sqlite3.Connection], Any], Future[Any]] | None]" = queue.SimpleQueue()
        self._writer = threading.Thread(target=self._write_all, name="ledger", daemon=True)
        self._writer.start()

    def submit(self, name: str, text: str, now: float) -> "Future[tuple[Submission, bool]]":
        """The submission of that name, and whether it is new. It is on the disk once the future is done."""

        def do(connection: sqlite3.Connection) -> tuple[Submission, bool]:
            known = self._find(connection, name)
            if known:
                return known, False
            connection.execute("INSERT INTO submissions (name, text, submitted) VALUES (?, ?, ?)", (name, text, now))
            return Submission(name, text, now), True

        return self._put(do)

    def end(self, name: str, state: str, now: float, outcome: dict[str, Any]) -> "Future[None]":
        """Keeps how a process has ended, or that it was rejected. The first end counts."""
        statement = "UPDATE submissions SET state = ?, ended = ?, outcome = ? WHERE name = ? AND state = 'open'"
        return self._put(lambda connection: connection.execute(statement, (state, now, json.dumps(outcome), name)) and None)

    def flush(self) -> None:
        """Waits until all that was asked for before is on the disk."""
        self._put(lambda connection: None).result()

    def find(self, name: str) -> Submission | None:
        with self._lock:
            return self._find(self._reader, name)

    def open(self) -> list[Submission]:
        """Those that have not ended, in the order of their submission."""
        with self._lock:
            rows = self._reader.execute("SELECT name, text, submitted FROM submissions WHERE state = 'open' ORDER BY number")
            return [Submission(*row) for row in rows]

    def last_ended(self, count: int) -> list[Submission]:
        """The last ones, the newest first."""
        query = "SELECT name, text, submitted, state, ended, outcome FROM submissions WHERE state <> 'open' ORDER BY ended DESC, number DESC LIMIT ?"
        with self._lock:
            return [self._made(row) for row in self._reader.execute(query, (count,))]

    def first_lease(self) -> int:
        """The first number of leases for this run: above each of an earlier run."""

        def do(connection: sqlite3.Connection) -> int:
            row = connection.execute("SELECT next FROM leases").fetchone()
            first = row[0] if row else 1
            connection.execute("DELETE FROM leases")
            connection.execute("INSERT INTO leases VALUES (?)", (first + LEASES_OF_A_RUN,))
            return int(first)

        return int(self._put(do).result())

    def close(self) -> None:
        self._todo.put(None)
        self._writer.join()
        self._reader.close()

    def _connect(self) -> sqlite3.Connection:
        connection = sqlite3.connect(self._path, timeout=10, isolation_level=None, check_same_thread=False)
        connection.execute("PRAGMA journal_mode = WAL")
        connection.execute("PRAGMA synchronous = FULL")
        return connection

    def _find(self, connection: sqlite3.Connection, name: str) -> Submission | None:
        query = "SELECT name, text, submitted, state, ended, outcome FROM submissions WHERE name = ?"
        row = connection.execute(query, (name,)).fetchone()
        return self._made(row) if row else None

    @staticmethod
    def _made(row: tuple[Any, ...]) -> Submission:
        name, text, submitted, state, ended, outcome = row
        return Submission(name, text, submitted, state, ended, json.loads(outcome) if outcome else None)

    def _put(self, do: Callable[[sqlite3.Connection], Any]) -> "Future[Any]":
        future: "Future[Any]" = Future()
        self._todo.put((do, future))
        return future

    def _write_all(self) -> None:
        connection, is_open = self._connect(), True
        while is_open:
            some = [self._todo.get()]
            while len(some) < 256 and not self._todo.empty():
                some.append(self._todo.get())
            is_open = None not in some
            self._write(connection, [it for it in some if it])
        connection.close()

    @staticmethod
    def _write(connection: sqlite3.Connection, some: "list[tuple[Callable[[sqlite3.Connection], Any], Future[Any]]]") -> None:
        """All of it in one transaction, or none of it."""
        try:
            connection.execute("BEGIN IMMEDIATE")
            told = [do(connection) for do, _ in some]
            connection.execute("COMMIT")
        except Exception as error:
            if connection.in_transaction:
                connection.execute("ROLLBACK")
            for _, future in some:
                future.set_exception(error)
        else:
            for (_, future), answer in zip(some, told):
                future.set_result(answer)
