"""A PostgreSQL database that takes part, by prepared transactions. It stands on psycopg 2 or 3, which the caller brings."""
import logging
import threading
import time
import uuid
from collections.abc import Callable, Collection, Iterator, Mapping
from contextlib import contextmanager
from dataclasses import dataclass, replace
from typing import Any

from .errors import NoParticipant, NotReady, Refused, Superseded, Unreachable, WorkLost
from .participants import Work
from .settling import State
from .statements import Sql, Statements, filled, in_order, literal

log = logging.getLogger("sihtolem")

TABLES = (
    "CREATE TABLE IF NOT EXISTS sihtolem_session (mark text PRIMARY KEY, token text NOT NULL)",
    "CREATE TABLE IF NOT EXISTS sihtolem_work (mark text, place text, process text NOT NULL, operation text NOT NULL, key bigint NOT NULL,"
    " amount bigint NOT NULL, undone boolean NOT NULL DEFAULT false, PRIMARY KEY (mark, place))",
)
UNDEFINED_OBJECT = "42704"
# The classes and codes of what may go well later: lost connections, resources, interventions, deadlocks, locks that aren't given.
LATER = ("08", "53", "57", "58", "40001", "40P01", "55P03", "55000", "55006", "XX")
# Constraints, and exceptions that functions raise.
REFUSALS = ("23", "P0001")


@dataclass
class Session:
    """A connection, and its server process: the number alone may be given to another one later."""

    connection: Any
    pid: int
    since: str

    def execute(self, statement: str) -> Any:
        cursor = self.connection.cursor()
        cursor.execute(statement)
        return cursor


def code_of(error: BaseException) -> str | None:
    return getattr(error, "sqlstate", None) or getattr(error, "pgcode", None)


class Postgres:
    """A database, with what its operations do. `connect` gives a new connection of psycopg. The server needs `max_prepared_transactions`."""

    def __init__(self, connect: Callable[[], Any], operations: Mapping[str, Statements]):
        self.operations: Collection[str] = operations.keys()
        self._connect, self._statements = connect, operations
        self._lock = threading.Lock()
        self._idle: list[Session] = []
        self._begun: set[str] = set()
        self._lost: dict[str, Session] = {}
        self._token, self._application = "", ""

    # The calls of a participant.

    def begin(self, mark: str) -> None:
        """Nobody prepares under this mark from now on but with the new token, and whoever began before is ended. So what is prepared once
        this returns is all that former sessions will ever have prepared."""
        self._drop_idle()
        self._begun.clear()
        self._lost.clear()
        self._application = f"sihtolem/{mark}"[:63]
        token = uuid.uuid4().hex
        with self._session() as session:
            self._set_up(session)
            session.execute(
                f"INSERT INTO sihtolem_session VALUES ({literal(mark)}, {literal(token)}) ON CONFLICT (mark) DO UPDATE SET token = {literal(token)}"
            )
            self._end_former_sessions(session)
        self._token = token

    def found(self, mark: str) -> Mapping[str, State]:
        with self._session() as session:
            rows = session.execute(f"SELECT place, undone FROM sihtolem_work WHERE mark = {literal(mark)}").fetchall()
            states = {place: State.UNDONE if undone else State.COMMITTED for place, undone in rows}
            query = f"SELECT gid FROM pg_prepared_xacts WHERE database = current_database() AND starts_with(gid, {literal(mark + '/')})"
            for (gid,) in session.execute(query).fetchall():
                place = gid[len(mark) + 1 :]
                states[place.removesuffix(" undo")] = State.UNDO_PREPARED if place.endswith(" undo") else State.PREPARED
            return states

    def prepare(self, work: Work) -> None:
        with self._session(work.name) as session:
            if work.name in self._begun and self._is_prepared(session, work):
                return
            self._begun.add(work.name)
            session.execute("BEGIN")
            try:
                self._do(session, work) if not work.undo else self._undo(session, work)
            except Refused:
                session.execute("ROLLBACK")
                raise
            if session.execute(f"PREPARE TRANSACTION {literal(work.name)}").statusmessage != "PREPARE TRANSACTION":
                raise RuntimeError(f"the transaction of {work.name} had failed: let errors of a statement pass")

    def commit(self, work: Work) -> None:
        with self._session() as session:
            if not self._finish(session, "COMMIT", work) and not self._is_committed(session, work):
                raise WorkLost("the server has nothing of what it had prepared", [work.name])

    def take_back(self, work: Work) -> None:
        with self._session() as session:
            self._finish(session, "ROLLBACK", work)

    def close(self) -> None:
        self._drop_idle()

    # The work of a step.

    def _do(self, session: Session, work: Work) -> None:
        values = ", ".join(map(literal, (work.mark, work.place, work.process, work.operation, work.key, work.amount)))
        added = session.execute(f"INSERT INTO sihtolem_work SELECT {values} FROM sihtolem_session WHERE {self._is_mine(work)}")
        if added.rowcount != 1:
            raise Superseded(f"{work.name} in {self._application}")
        self._run(session, self._statements[work.operation].do, work, self._statements[work.operation].refusal)

    def _undo(self, session: Session, work: Work) -> None:
        """The row of the step tells what is undone. Its statements may change no row."""
        marked = session.execute(
            "UPDATE sihtolem_work AS work SET undone = true FROM sihtolem_session WHERE"
            f" work.mark = {literal(work.mark)} AND place = {literal(work.place)} AND NOT undone AND {self._is_mine(work)}"
            " RETURNING process, operation, key, amount"
        )
        row = marked.fetchone()
        if row is None:
            raise Superseded(f"{work.name} in {self._application}")
        process, operation, key, amount = row
        undo = self._statements[operation].undo
        if undo is None:
            raise NoParticipant(f"the undo of operation {operation}")
        self._run(session, undo, replace(work, process=process, operation=operation, key=key, amount=amount), None)

    @staticmethod
    def _run(session: Session, sql: Sql, work: Work, refusal: str | None) -> None:
        if callable(sql):
            sql(session.execute, work)
        for statement in in_order(sql):
            if session.execute(filled(statement, work)).rowcount == 0 and refusal is not None:
                raise Refused(refusal)

    def _is_mine(self, work: Work) -> str:
        return f"sihtolem_session.mark = {literal(work.mark)} AND token = {literal(self._token)}"

    @staticmethod
    def _finish(session: Session, how: str, work: Work) -> bool:
        """Whether there was something prepared."""
        try:
            session.execute(f"{how} PREPARED {literal(work.name)}")
            return True
        except Exception as error:
            if code_of(error) == UNDEFINED_OBJECT:
                return False
            raise

    @staticmethod
    def _is_committed(session: Session, work: Work) -> bool:
        where = f"mark = {literal(work.mark)} AND place = {literal(work.place)}" + (" AND undone" if work.undo else "")
        return session.execute(f"SELECT 1 FROM sihtolem_work WHERE {where}").fetchone() is not None

    @staticmethod
    def _is_prepared(session: Session, work: Work) -> bool:
        return session.execute(f"SELECT 1 FROM pg_prepared_xacts WHERE gid = {literal(work.name)}").fetchone() is not None

    # Sessions.

    @contextmanager
    def _session(self, name: str = "") -> Iterator[Session]:
        """Lends a session. After a fault its connection is given up: the server may still be at its last statement, so before a second try
        under the same name that session is ended first."""
        session = None
        try:
            session = self._lend()
            if name in self._lost:
                self._end(session, self._lost[name])
                del self._lost[name]
            yield session
        except Refused:
            self._take(session)
            raise
        except Exception as error:
            self._give_up(session, name)
            named = self._named(error)
            if named is error:
                raise
            raise named from error
        else:
            self._take(session)

    def _lend(self) -> Session:
        with self._lock:
            if self._idle:
                return self._idle.pop()
        connection = self._connect()
        connection.autocommit = True
        session = Session(connection, 0, "")
        session.execute(f"SET application_name = {literal(self._application)}")
        query = "SELECT pid, backend_start::text FROM pg_stat_activity WHERE pid = pg_backend_pid()"
        session.pid, session.since = session.execute(query).fetchone()
        return session

    def _take(self, session: Session | None) -> None:
        if session:
            with self._lock:
                self._idle.append(session)

    def _give_up(self, session: Session | None, name: str) -> None:
        if session is None:
            return
        if name:
            self._lost[name] = session
        self._drop_idle()
        self._close(session)

    def _drop_idle(self) -> None:
        """A server that went away once took all connections with it."""
        with self._lock:
            dropped, self._idle = self._idle, []
        for session in dropped:
            self._close(session)

    @staticmethod
    def _close(session: Session) -> None:
        try:
            session.connection.close()
        except Exception as error:
            log.debug("a connection isn't closed: %s", error)

    @staticmethod
    def _named(error: Exception) -> Exception:
        code = code_of(error)
        is_of_database = type(error).__module__.startswith("psycopg")
        if is_of_database and (code or "08").startswith(LATER):
            return Unreachable(str(error).strip())
        if is_of_database and (code or "").startswith(REFUSALS):
            return Refused(str(error).strip())
        return error

    def _set_up(self, session: Session) -> None:
        if session.execute("SHOW max_prepared_transactions").fetchone()[0] == "0":
            raise NotReady("max_prepared_transactions of the server is 0")
        for table in TABLES:
            session.execute(table)

    def _end_former_sessions(self, session: Session) -> None:
        """Ends them, and waits until the server has none of them any more."""
        who = f"application_name = {literal(self._application)} AND datname = current_database() AND pid <> {session.pid}"
        self._end_where(session, who)

    def _end(self, session: Session, lost: Session) -> None:
        self._end_where(session, f"pid = {lost.pid} AND backend_start = {literal(lost.since)}")

    @staticmethod
    def _end_where(session: Session, who: str) -> None:
        told, pause = time.monotonic(), 0.005
        while session.execute(f"SELECT pg_terminate_backend(pid) FROM pg_stat_activity WHERE {who}").rowcount:
            time.sleep(pause)
            pause = min(2 * pause, 0.2)
            if time.monotonic() - told > 10:
                log.warning("waiting for the server to end sessions where %s", who)
                told = time.monotonic()
