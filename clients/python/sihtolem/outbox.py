"""An outbox in front of a system that can't prepare: mail, or HTTP with an idempotency key. What is prepared is a row, and what is committed is
sent until it goes through."""
import logging
import threading
from collections.abc import Callable, Iterable

from .errors import Unreachable
from .participants import Work
from .sqlite import Held, Sqlite

log = logging.getLogger("sihtolem")

QUEUE = """
    CREATE TABLE IF NOT EXISTS sihtolem_outbox (
        number INTEGER PRIMARY KEY, name TEXT NOT NULL UNIQUE, mark TEXT NOT NULL, place TEXT NOT NULL, undo INTEGER NOT NULL,
        process TEXT NOT NULL, operation TEXT NOT NULL, key INTEGER NOT NULL, amount INTEGER NOT NULL, sent INTEGER NOT NULL DEFAULT 0
    )
"""
PUT = (
    "INSERT OR IGNORE INTO sihtolem_outbox (name, mark, place, undo, process, operation, key, amount) SELECT mark || '/' || place || '%s', mark,"
    " place, %d, process, operation, key, amount FROM sihtolem_work WHERE mark || '/' || place = :name"
)


class Outbox(Sqlite):
    """Sends the work of these operations by `send(work)`, in the order of their commits, again and again until it raises nothing. `work.name` is
    the idempotency key: the receiver drops what comes twice. The undo of a step is work too, with `work.undo`, and goes out behind the step."""

    def __init__(self, path: str, operations: Iterable[str], send: Callable[[Work], None], *, first_pause: float = 0.05, longest_pause: float = 60.0):
        held = Held(commit=PUT % ("", 0), undo=PUT % (" undo", 1))
        super().__init__(path, {operation: held for operation in operations}, set_up=QUEUE)
        self._send, self._first_pause, self._longest_pause = send, first_pause, longest_pause
        self._wake, self._closing = threading.Event(), False
        self._sender: threading.Thread | None = None

    def begin(self, mark: str) -> None:
        """The sender begins here: what an earlier run committed and didn't send goes out first."""
        if self._sender is None:
            self._sender = threading.Thread(target=self._send_all, name="sihtolem-outbox", daemon=True)
            self._sender.start()

    def commit(self, work: Work) -> None:
        super().commit(work)
        self._wake.set()

    def unsent(self) -> list[Work]:
        """What is committed and not sent yet, in order."""
        query = "SELECT mark, place, undo, process, operation, key, amount FROM sihtolem_outbox WHERE sent = 0 ORDER BY number"
        with self._transaction() as execute:
            return [Work(mark, place, bool(undo), *rest) for mark, place, undo, *rest in execute(query).fetchall()]

    def close(self) -> None:
        """Sends what can be sent at once. The rest goes out at the next start."""
        self._closing = True
        self._wake.set()
        if self._sender is not None:
            self._sender.join()
        super().close()

    def _send_all(self) -> None:
        pause = self._first_pause
        while True:
            self._wake.clear()
            try:
                sent = self._send_some()
            except Unreachable as error:
                log.warning("%s", error)
                sent = False
            pause = self._first_pause if sent else min(2 * pause, self._longest_pause)
            if self._closing:
                return
            self._wake.wait(None if sent else pause)

    def _send_some(self) -> bool:
        """Whether all went out. What isn't taken holds up nothing but what is of its own process."""
        late: set[str] = set()
        for work in self.unsent():
            if work.process in late:
                continue
            try:
                self._send(work)
            except Exception as error:
                log.warning("%s isn't sent yet: %s", work.name, error)
                late.add(work.process)
                continue
            with self._transaction() as execute:
                execute("UPDATE sihtolem_outbox SET sent = 1 WHERE name = ?", (work.name,))
        return not late
