"""The operations that workers do, as one participant of the library.

How far the work of each step has come is a row of a table. A row says `prepared` from before a worker hears of the work until one has committed it or
taken it back. So whatever a worker may have prepared is found at the next start, and a worker is asked to commit it or to take it back, under the same
name.
"""
from collections.abc import Collection
from dataclasses import replace

from sihtolem import Held, Refused, Sqlite, State, Work

from .desk import COMMIT, PREPARE, TAKE_BACK, Desk


class RemoteWorkers(Sqlite):
    def __init__(self, path: str, operations: Collection[str], desk: Desk):
        super().__init__(path, {operation: Held() for operation in operations})
        self._desk = desk

    def prepare(self, work: Work) -> None:
        super().prepare(work)
        try:
            self._desk.carry_out(PREPARE, self._whole(work))
        except Refused:
            super().take_back(work)
            raise

    def commit(self, work: Work) -> None:
        self._desk.carry_out(COMMIT, self._whole(work))
        super().commit(work)

    def take_back(self, work: Work) -> None:
        if self.found(work.mark).get(work.place, State.ABSENT) in (State.PREPARED, State.UNDO_PREPARED):
            self._desk.carry_out(TAKE_BACK, self._whole(work))
            super().take_back(work)

    def _whole(self, work: Work) -> Work:
        """At a settling the name alone counts: the row has the rest."""
        query = "SELECT process, operation, key, amount FROM sihtolem_work WHERE mark = ? AND place = ?"
        rows = self.read(query, (work.mark, work.place))
        return replace(work, process=rows[0][0], operation=rows[0][1], key=rows[0][2], amount=rows[0][3]) if rows else work
