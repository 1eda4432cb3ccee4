"""SQL of an operation, in which `:key`, `:amount`, `:process` and `:name` stand for those of the work."""
import re
from collections.abc import Callable
from dataclasses import dataclass
from typing import Any, Union

from .participants import Work

# One statement, several in order, or a function of a call that executes a statement and of the work.
Sql = Union[str, tuple[str, ...], Callable[[Callable[[str], Any], Work], None]]


@dataclass(frozen=True)
class Statements:
    """What an operation does in a database that prepares, and what undoes it once it is committed. A statement of `do` that changes or
    finds no row refuses the work, with the words of `refusal`."""

    do: Sql
    undo: Sql | None = None
    refusal: str = "no row was changed"


def literal(value: int | str) -> str:
    return str(int(value)) if isinstance(value, int) else "'" + value.replace("'", "''") + "'"


def filled(statement: str, work: Work) -> str:
    """The statement of this work. Its values are numbers and names of `a-z0-9_`, so they stand in it as they are."""
    values = {"key": work.key, "amount": work.amount, "process": work.process, "name": work.step_name}
    return re.sub(r"(?<![:\w]):(key|amount|process|name)\b", lambda found: literal(values[found[1]]), statement)


def in_order(sql: Sql) -> tuple[str, ...]:
    return (sql,) if isinstance(sql, str) else sql if isinstance(sql, tuple) else ()
