"""How each process stands, read off the lines between the library and the program. docs/DRIVERS.md has the lines and their answers.

The thread that speaks calls `opened`, `answered` and `ended`; whoever asks gets copies.
"""
import threading
import time
from collections.abc import Iterable
from dataclasses import dataclass, field
from typing import Any

from sihtolem import Block, Outcome
from sihtolem.dialogue import Piece, read_piece
from sihtolem.report import Report
from sihtolem.settling import Answer

from .events import Events, spelled_time
from .metrics import Metrics

ENDED_KEPT = 200
# The first words of answers to `finish` and `queue` behind which the piece is no longer out.
OVER = ("failed", "retry", "exhausted", "dropped")


@dataclass
class Mark:
    """Something on the way of a process: a step was `done`, `undone`, `refused` or `dropped`, at that time. A time from before this start isn't known."""

    what: str
    step: str
    at: float | None

    def as_json(self) -> dict[str, Any]:
        return {"what": self.what, "step": self.step, "at": spelled_time(self.at) if self.at else None}


@dataclass
class View:
    """A process that was submitted and hasn't ended, or ended lately."""

    name: str
    text: str
    submitted: float
    state: str = "queued"
    number: int = 0
    files: int = 0
    started: float | None = None
    ended: float | None = None
    way: list[Mark] = field(default_factory=list)
    piece: Piece | None = None
    since: float | None = None
    block: Block | None = None
    path: tuple[str, ...] = ()
    reasons: tuple[str, ...] = ()

    def as_json(self, names: dict[int, str]) -> dict[str, Any]:
        told: dict[str, Any] = {
            "name": self.name,
            "state": self.state,
            "text": self.text,
            "submitted": spelled_time(self.submitted),
            "way": [mark.as_json() for mark in self.way],
        }
        if self.number:
            told |= {"files": self.files, "number": self.number}
        for name, at in (("started", self.started), ("ended", self.ended)):
            told |= {name: spelled_time(at)} if at else {}
        if self.piece:
            told["at_work"] = {"work": self.piece.work, "step": self.piece.step, "since": spelled_time(self.since or 0)}
        if self.block:
            told["waits"] = {**block_as_json(self.block, names), "since": spelled_time(self.since or 0)}
        if self.state in ("ended", "rejected"):
            told |= {"path": list(self.path), "reasons": list(self.reasons)}
        return told


def block_as_json(block: Block, names: dict[int, str]) -> dict[str, Any]:
    return {"for": names.get(block.holder, str(block.holder)), "their_step": block.held, "own_step": block.step, "rule": block.rule}


class Tracker:
    def __init__(self, events: Events, metrics: Metrics):
        self._events, self._metrics, self._lock = events, metrics, threading.Lock()
        self._views: dict[str, View] = {}
        self._ended: dict[str, View] = {}
        self._names: dict[int, str] = {}
        self._in_files: set[str] = set()
        self._pieces: dict[int, Piece] = {}
        self._queued: list[int] = []
        self.files = 0

    # What the service tells.

    def submitted(self, name: str, text: str, at: float, *, is_new: bool = True) -> None:
        with self._lock:
            self._views[name] = View(name, text, at)
        if is_new:
            self._events.publish("submitted", process=name, text=text)

    def ended(self, outcome: Outcome) -> None:
        """The library tells the end of a process, with its reasons."""
        if self._finish(outcome.name, "ended", outcome.path, outcome.reasons):
            self._metrics.count(self._metrics.ended, "whole" if outcome.path else "nothing")

    def rejected(self, name: str, why: str) -> None:
        self._finish(name, "rejected", (), (why,))

    def _finish(self, name: str, state: str, path: tuple[str, ...], reasons: tuple[str, ...]) -> bool:
        """Whether it had not ended before."""
        with self._lock:
            view = self._views.pop(name, None)
            if view is None:
                return False
            view.state, view.path, view.reasons, view.ended = state, path, reasons, time.time()
            view.piece = view.block = None
            self._ended[name] = view
            if len(self._ended) > ENDED_KEPT:
                del self._ended[next(iter(self._ended))]
        self._events.publish(state, process=name, path=list(path), reasons=list(reasons))
        return True

    def waits(self, blocks: Iterable[Block]) -> None:
        """What stands against whom now. It is told where it isn't what it was."""
        by_name = {self._names[block.process]: block for block in blocks if block.process in self._names}
        changed, began = [], []
        with self._lock:
            for name, view in self._views.items():
                block = by_name.get(name)
                if view.block != block:
                    view.block, view.since = block, time.time() if block else view.since
                    changed.append({"process": name, "waits": self._wait_of(view)})
                    began += [block.rule] if block else []
        for rule in began:
            self._metrics.count(self._metrics.waits, rule)
        if changed:
            self._events.publish("waits", changed=changed)

    def _wait_of(self, view: View) -> dict[str, Any] | None:
        return {**block_as_json(view.block, self._names), "since": spelled_time(view.since or 0)} if view.block else None

    # What others ask.

    def view(self, name: str) -> dict[str, Any] | None:
        with self._lock:
            found = self._views.get(name) or self._ended.get(name)
            return found.as_json(self._names) if found else None

    def is_in_files(self, name: str) -> bool:
        """Whether the files in use know the process, active or ended."""
        with self._lock:
            return name in self._in_files

    def count_in_files(self) -> int:
        with self._lock:
            return len(self._in_files)

    def active(self) -> list[dict[str, Any]]:
        with self._lock:
            return [view.as_json(self._names) for view in self._views.values() if view.state == "active"]

    def ended_lately(self, count: int) -> list[dict[str, Any]]:
        """The newest first."""
        with self._lock:
            return [view.as_json(self._names) for view in list(self._ended.values())[: -count - 1 : -1]]

    def queued(self) -> list[str]:
        with self._lock:
            return [view.name for view in self._views.values() if view.state == "queued"]

    def numbers(self) -> tuple[dict[str, float], dict[str, int]]:
        """The gauges, and how many wait by which rule."""
        now = time.time()
        with self._lock:
            active = [view for view in self._views.values() if view.state == "active"]
            rules = [view.block.rule for view in active if view.block]
            oldest = max((now - view.started for view in active if view.started), default=0.0)
            gauges = {"active": len(active), "queued": len(self._views) - len(active), "handed_out": len(self._pieces), "oldest_active_seconds": oldest}
        return gauges, {rule: rules.count(rule) for rule in ("A0", "A1", "A2", "A3", "A4", "A5")}

    # What the thread that speaks tells.

    def opened(self, report: Report, active: dict[int, str]) -> None:
        with self._lock:
            self._names, self._in_files, self._pieces, self._queued = dict(report.names), set(report.names.values()), {}, []
            for number, name in active.items():
                view = self._views.setdefault(name, View(name, "", time.time()))
                view.state, view.number, view.files, view.piece, view.block = "active", number, self.files, None, None
                view.started = view.started or time.time()
                view.way = view.way or ways(report, number)
        self._metrics.count(self._metrics.starts)
        self._events.publish("opened", files=self.files, active=sorted(active.values()))

    def answered(self, line: str, answer: list[str], seconds: float) -> None:
        self._metrics.count(self._metrics.turns)
        word, _, rest = line.partition(" ")
        if word == "start":
            self._started(answer[0])
        elif word in ("next", "admit"):
            self._handed_out(answer[-1])
            self._went_back([told.split(" ")[1] for told in answer[:-1]], "victim")
        elif word in ("finish", "queue"):
            self._finished(int(rest.split(" ")[0]), answer[0], seconds)
        elif word == "flush":
            self._flushed(answer, seconds)
        elif word == "abort" and answer[0].startswith("aborting "):
            numbers = answer[0].split(" ")[1:]
            self._went_back([rest], "abort")
            self._went_back([number for number in numbers if number != rest], "cascade")

    def _started(self, answer: str) -> None:
        words = answer.split(" ")
        if words[0] != "started":
            return
        number, name = int(words[1]), words[2]
        with self._lock:
            self._names[number] = name
            self._in_files.add(name)
            view = self._views.setdefault(name, View(name, "", time.time()))
            view.state, view.number, view.files, view.started = "active", number, self.files, time.time()
        self._events.publish("started", process=name, files=self.files, number=number)

    def _handed_out(self, line: str) -> None:
        piece = read_piece(line)
        if piece is None:
            return
        name = self._names.get(piece.process, "")
        with self._lock:
            self._pieces[piece.number] = piece
            view = self._views.get(name)
            if view:
                view.piece, view.since, view.block = piece, time.time(), None
        self._events.publish("handed_out", process=name, **piece_as_json(piece))

    def _went_back(self, numbers: list[str], why: str) -> None:
        for number in map(int, numbers):
            self._events.publish("goes_back", process=self._names.get(number, ""), why=why)

    def _finished(self, number: int, answer: str, seconds: float) -> None:
        word = answer.split(" ")[0]
        if word == "queued":
            self._queued.append(number)
        elif word == "effected":
            self._metrics.observe(self._metrics.flush_seconds, seconds)
            self._metrics.observe(self._metrics.group_size, 1)
            self._became(number, answer)
        elif word in OVER:
            self._became(number, answer)

    def _flushed(self, answer: list[str], seconds: float) -> None:
        queued, self._queued = self._queued, []
        if queued:
            self._metrics.observe(self._metrics.flush_seconds, seconds)
            self._metrics.observe(self._metrics.group_size, sum(told.startswith("effected ") for told in answer))
        for number, told in zip(queued, answer):
            self._became(number, told)

    def _became(self, number: int, answer: str) -> None:
        """What became of a piece: it took effect, was refused, or is void since its process went back."""
        word, _, place = answer.partition(" ")
        piece, now = self._pieces[number], time.time()
        what = {"effected": "undone" if piece.work == "undo" else "done", "dropped": "dropped"}.get(word, "refused")
        name = self._names.get(piece.process, "")
        with self._lock:
            del self._pieces[number]
            view = self._views.get(name)
            if view:
                view.piece, view.since = (None, now) if view.piece is None or view.piece.number == number else (view.piece, view.since)
                if piece.work != "end":
                    view.way.append(Mark(what, piece.step, now))
        if word == "effected":
            self._metrics.count(self._metrics.effects, piece.work)
        elif what == "refused":
            self._metrics.count(self._metrics.refusals, piece.step)
        told: dict[str, Any] = {"place": int(place)} if word == "effected" else {"answer": answer} if what == "refused" else {}
        told = {"process": name, **piece_as_json(piece), **told}
        self._events.publish("effected" if word == "effected" else what, **told)


def piece_as_json(piece: Piece) -> dict[str, Any]:
    told: dict[str, Any] = {"piece": piece.number, "work": piece.work}
    return told | {"step": piece.step, "operation": piece.operation, "key": piece.key, "amount": piece.amount} if piece.step else told


def ways(report: Report, number: int) -> list[Mark]:
    """The way of a process as far as the files tell it."""
    told = {Answer.DONE: "done", Answer.UNDONE: "undone"}
    acts = [(place.partition("."), answer) for place, (answer, _) in report.acts.items()]
    return [Mark(told[answer], step, None) for (process, _, step), answer in acts if int(process) == number]
