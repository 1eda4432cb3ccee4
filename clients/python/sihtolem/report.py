"""Reads what the report of `show` tells of the history so far."""
from dataclasses import dataclass, field

from .settling import Answer

TITLES = ("history", "completion", "ends", "causes", "trace", "serial")


@dataclass
class Report:
    """The pairs that conflict with their mode, the names of processes, those that have ended, the steps that stand, and each act's outcome."""

    conflicts: dict[frozenset[str], str] = field(default_factory=dict)
    names: dict[int, str] = field(default_factory=dict)
    ended: set[int] = field(default_factory=set)
    paths: dict[int, list[str]] = field(default_factory=dict)
    acts: dict[str, tuple[Answer, str]] = field(default_factory=dict)

    def read_conflict(self, words: list[str]) -> None:
        pair, mode = frozenset(words[:2]), words[2] if len(words) > 2 else "always"
        if self.conflicts.get(pair) != "always":
            self.conflicts[pair] = mode

    def read_event(self, words: list[str]) -> None:
        kind, place = words[0], words[1]
        process, _, step = place.partition(".")
        number = int(process)
        if kind == "start":
            self.names[number], self.paths[number] = words[2], []
        elif kind == "end":
            self.ended.add(number)
        elif kind == "do":
            self.acts[place] = (Answer.DONE, words[2])
            self.paths[number].append(step)
        else:
            self.acts[place] = (Answer.UNDONE, words[2])
            self.paths[number].remove(step)


def read_report(lines: list[str]) -> Report:
    report, titles, title = Report(), list(TITLES), "conflicts"
    for line in lines[1:]:
        if titles and line == titles[0]:
            title = titles.pop(0)
        elif title == "conflicts":
            report.read_conflict(line.split(" "))
        elif title == "history":
            report.read_event(line.split(" "))
    return report


def conflict(conflicts: dict[frozenset[str], str], one: tuple[str, int], other: tuple[str, int]) -> bool:
    """Whether two calls, each an operation and a key, conflict."""
    mode = conflicts.get(frozenset((one[0], other[0])))
    return mode == "always" or mode == "key" and one[1] == other[1]


def operations_of(text: str) -> list[str]:
    """The operations that a process text names, as far as it has the form of one."""
    words, found, at = text.split(), [], 2
    while at < len(words):
        if words[at] in ("c", "p", "r", "cr"):
            found += words[at + 2 : at + 3]
            at += 5
        elif words[at] in ("tries", "undo", "refuse", "undorefuse"):
            at += 2
        else:
            at += 1
    return found
