"""A SQLite database that takes part. It can't prepare a transaction, so what is prepared is a row, and what it holds back."""
import sqlite3
import threading
from collections.abc import Callable, Collection, Iterator, Mapping
from contextlib import contextmanager
from dataclasses import dataclass, replace
from typing import Any

from .errors import Refused, Unreachable, WorkAhead
from .participants import Work
from .settling import State
from .statements import filled, in_order

TABLE = """
    CREATE TABLE IF NOT EXISTS sihtolem_work (
        mark TEXT NOT NULL, place TEXT NOT NULL, process TEXT NOT NULL, operation TEXT NOT NULL, key INTEGER NOT NULL, amount INTEGER NOT NULL,
        state TEXT NOT NULL, PRIMARY KEY (mark, place)
    )
"""
# The errors of what may go well later.
LATER = (sqlite3.SQLITE_BUSY, sqlite3.SQLITE_LOCKED, sqlite3.SQLITE_IOERR, sqlite3.SQLITE_FULL, sqlite3.SQLITE_CANTOPEN)


@dataclass(frozen=True)
class Held:
    """An operation of a database that can't prepare. `hold` holds back what the step needs, and refuses it where a statement of it changes
    or finds no row; `commit` is carried out once the step took effect, `release` where it didn't, and `undo` where it is undone later."""

    hold: str | tuple[str, ...] = ()
    commit: str | tuple[str, ...] = ()
    release: str | tuple[str, ...] = ()
    undo: str | tuple[str, ...] = ()
    refusal: str = "no row was changed"


class Sqlite:
    """A database of the file `path`, with what its operations do. Each of its calls is one transaction, which no other program is in."""

    def __init__(self, path: str, operations: Mapping[str, Held], *, set_up: str = ""):
        self.operations: Collection[str] = operations.keys()
        self._held, self._path, self._local = operations, path, threading.local()
        self._connections: list[sqlite3.Connection] = []
        with self._transaction() as execute:
            execute(TABLE)
        if set_up:
            self._connection().executescript(set_up)

    def begin(self, mark: str) -> None:
        """A transaction of a driver that was killed is gone with it."""

    def found(self, mark: str) -> Mapping[str, State]:
        with self._transaction() as execute:
            rows = execute("SELECT place, state FROM sihtolem_work WHERE mark = ? ORDER BY rowid", (mark,))
            return {place: State(state) for place, state in rows}

    def prepare(self, work: Work) -> None:
        with self._transaction() as execute:
            state, work = self._kept(execute, work)
            if work.undo and state is State.COMMITTED:
                self._set(execute, work, State.UNDO_PREPARED)
            elif not work.undo and state is State.ABSENT:
                held = self._held[work.operation]
                for statement in in_order(held.hold):
                    cursor = execute(filled(statement, work))
                    if cursor.rowcount == 0 or cursor.description and cursor.fetchone() is None:
                        raise Refused(held.refusal)
                values = (work.mark, work.place, work.process, work.operation, work.key, work.amount, State.PREPARED.value)
                execute("INSERT INTO sihtolem_work VALUES (?, ?, ?, ?, ?, ?, ?)", values)

    def commit(self, work: Work) -> None:
        with self._transaction() as execute:
            state, work = self._kept(execute, work)
            if work.undo and state is State.UNDO_PREPARED:
                self._run(execute, self._held[work.operation].undo, work)
                self._set(execute, work, State.UNDONE)
            elif not work.undo and state is State.PREPARED:
                self._run(execute, self._held[work.operation].commit, work)
                self._set(execute, work, State.COMMITTED)

    def take_back(self, work: Work) -> None:
        with self._transaction() as execute:
            state, work = self._kept(execute, work)
            if work.undo and state is State.UNDO_PREPARED:
                self._set(execute, work, State.COMMITTED)
            elif not work.undo and state is State.PREPARED:
                self._run(execute, self._held[work.operation].release, work)
                execute("DELETE FROM sihtolem_work WHERE mark = ? AND place = ?", (work.mark, work.place))

    def read(self, statement: str, values: tuple[int | str, ...] = ()) -> list[tuple[Any, ...]]:
        """The rows of a statement of the owner's own, in a transaction."""
        with self._transaction() as execute:
            return execute(statement, values).fetchall()

    def close(self) -> None:
        for connection in self._connections:
            connection.close()
        self._connections.clear()

    @staticmethod
    def _kept(execute: Callable[..., sqlite3.Cursor], work: Work) -> tuple[State, Work]:
        """The state of the step, and its work with what was kept of it. Work of another process under this name is none of this one."""
        query = "SELECT process, operation, key, amount, state FROM sihtolem_work WHERE mark = ? AND place = ?"
        row = execute(query, (work.mark, work.place)).fetchone()
        if row is None:
            return State.ABSENT, work
        if work.process not in ("", row[0]):
            raise WorkAhead(f"the system has work of {row[0]} under the name of work of {work.process}", [work.name])
        return State(row[4]), replace(work, process=row[0], operation=row[1], key=row[2], amount=row[3])

    @staticmethod
    def _set(execute: Callable[..., sqlite3.Cursor], work: Work, state: State) -> None:
        execute("UPDATE sihtolem_work SET state = ? WHERE mark = ? AND place = ?", (state.value, work.mark, work.place))

    @staticmethod
    def _run(execute: Callable[..., sqlite3.Cursor], statements: str | tuple[str, ...], work: Work) -> None:
        for statement in in_order(statements):
            execute(filled(statement, work))

    def _connection(self) -> sqlite3.Connection:
        """Each thread has a connection of its own."""
        if getattr(self._local, "connection", None) is None or self._local.connection not in self._connections:
            connection = sqlite3.connect(self._path, timeout=10, isolation_level=None, check_same_thread=False)
            connection.execute("PRAGMA journal_mode = WAL")
            connection.execute("PRAGMA synchronous = FULL")
            self._connections.append(connection)
            self._local.connection = connection
        return self._local.connection  # type: ignore[no-any-return]

    @contextmanager
    def _transaction(self) -> Iterator[Callable[..., sqlite3.Cursor]]:
        try:
            connection = self._connection()
            connection.execute("BEGIN IMMEDIATE")
            try:
                yield connection.execute
                connection.execute("COMMIT")
            except BaseException:
                if connection.in_transaction:
                    connection.execute("ROLLBACK")
                raise
        except sqlite3.OperationalError as error:
            if error.sqlite_errorcode & 0xFF in LATER:
                raise Unreachable(f"{self._path}: {error}") from error
            raise
        except sqlite3.IntegrityError as error:
            raise Refused(str(error)) from error
