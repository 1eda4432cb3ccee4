"""A participant of PostgreSQL whose connection is lost before or after a statement has reached the server, by the rows of lost.json; and one that another
one takes over. Called with the host and the database."""
import json
import os
import sys
from functools import partial

HERE = os.path.dirname(os.path.realpath(__file__))
sys.path.insert(0, f"{HERE}/../python")

import psycopg2

from sihtolem import Postgres, Refused, State, Statements, Superseded, Unreachable, Work

RESERVE = {
    "reserve": Statements(
        "UPDATE shelves SET free = free - :amount WHERE item = :key AND free >= :amount",
        undo="UPDATE shelves SET free = free + :amount WHERE item = :key",
        refusal="empty",
    )
}


class Connection:
    """One that is lost at the first statement of those that begin so."""

    def __init__(self, inner, fault):
        self.__dict__.update(inner=inner, fault=fault)

    def __setattr__(self, name, value):
        setattr(self.inner, name, value)

    def close(self):
        self.inner.close()

    def cursor(self):
        return Cursor(self.inner.cursor(), self)


class Cursor:
    def __init__(self, inner, connection):
        self.inner, self.connection = inner, connection

    def __getattr__(self, name):
        return getattr(self.inner, name)

    def execute(self, statement):
        fault = self.connection.fault
        is_hit = fault and statement.startswith(fault[0])
        if is_hit and fault[1] == "before":
            self.lose(fault)
        self.inner.execute(statement)
        if is_hit:
            self.lose(fault)

    def lose(self, fault):
        fault.clear()
        self.connection.close()
        raise psycopg2.OperationalError("played")


def tried(do, *words):
    """Does it until its system is reached. Gives how often it wasn't."""
    for at in range(5):
        try:
            do(*words)
            return at
        except Unreachable:
            pass
    raise AssertionError("it is never reached")


def work(mark, place, undo=False, amount=2):
    return Work(mark, place, undo, "order", "reserve", 1, amount)


def play(connect, mark, row):
    fault = list(row)
    participant = Postgres(lambda: Connection(connect(), fault), RESERVE)
    participant.begin(mark)
    lost = 0
    for do, what in [
        (participant.prepare, work(mark, "1.a")),
        (participant.prepare, work(mark, "1.a")),
        (participant.commit, work(mark, "1.a")),
        (participant.prepare, work(mark, "1.b")),
        (participant.take_back, work(mark, "1.b")),
        (participant.prepare, work(mark, "1.b")),
        (participant.commit, work(mark, "1.b")),
        (participant.prepare, work(mark, "1.b", undo=True)),
        (participant.take_back, work(mark, "1.b", undo=True)),
        (participant.prepare, work(mark, "1.b", undo=True)),
        (participant.commit, work(mark, "1.b", undo=True)),
    ]:
        lost += tried(do, what)
    assert lost == 1, (row, lost)
    try:
        participant.prepare(work(mark, "1.c", amount=1000))
        raise AssertionError("not refused")
    except Refused as refused:
        assert str(refused) == "empty"
    assert participant.found(mark) == {"1.a": State.COMMITTED, "1.b": State.UNDONE}, (row, participant.found(mark))
    participant.close()


def play_superseded(connect):
    one, other = Postgres(connect, RESERVE), Postgres(connect, RESERVE)
    one.begin("s")
    one.prepare(work("s", "1.a"))
    other.begin("s")
    try:
        tried(one.prepare, work("s", "1.b"))
        raise AssertionError("not superseded")
    except Superseded:
        pass
    assert other.found("s") == {"1.a": State.PREPARED}
    other.take_back(work("s", "1.a"))


def main():
    connect = partial(psycopg2.connect, host=sys.argv[1], user="postgres", dbname=sys.argv[2])
    with open(f"{HERE}/lost.json") as file:
        rows = json.load(file)
    for at, row in enumerate(rows):
        play(connect, f"m{at}", row)
    play_superseded(connect)


main()
