#!/usr/bin/env python3
"""Plays the tables of clients/tests against the library in Python: the settling over all its states, lines, reports, and stories over real files.

PROGRAM names the program.
"""
import copy
import json
import logging
import os
import re
import sys
import tempfile
import threading
import time
from concurrent.futures import ThreadPoolExecutor
from dataclasses import replace

HERE = os.path.dirname(os.path.realpath(__file__))
sys.path[:0] = [f"{HERE}/../python", HERE]
sys.dont_write_bytecode = True

import sihtolem
from memory import Memory
from sihtolem import Action, Answer, Block, Fenced, Held, Outbox, Overtaken, Scheduler, Sqlite, State, Work, WorkAhead, settle
from sihtolem.dialogue import read_piece
from sihtolem.opening import answer_of
from sihtolem.report import conflict, operations_of, read_report
from sihtolem.statements import filled

PROGRAM = os.path.abspath(os.environ["PROGRAM"])
OPERATIONS = ("deliver", "reserve", "charge", "place", "ship", "mail")


def table(name):
    with open(f"{HERE}/{name}.json") as file:
        return json.load(file)


def check(what, told, wanted):
    if told != wanted:
        sys.exit(f"{what}:\n  {told}\nand not\n  {wanted}")


def play_settling():
    rows = table("settling")
    check("the states of the table", sorted(row[:2] for row in rows), sorted([state.value, answer.value] for state in State for answer in Answer))
    for state, answer, action in rows:
        check(f"{state}, {answer}", settle(State(state), Answer(answer)), Action(action))


def play_lines():
    lines = table("lines")
    for line, piece in lines["pieces"]:
        told = read_piece(line)
        check(line, None if told is None else vars(told), piece)
    for line, answer in lines["answers"]:
        check(line, answer_of(line).value, answer)
    for text, operations in lines["operations"]:
        check(text, operations_of(text), operations)
    for statement, wanted in lines["fills"]:
        check(statement, filled(statement, Work("m", "2.x", True, "order_1", "take", 3, -7)), wanted)
    for report in lines["reports"]:
        told = read_report(report["lines"])
        check("names", {str(number): name for number, name in told.names.items()}, report["names"])
        check("ended", sorted(told.ended), report["ended"])
        check("paths", {str(number): path for number, path in told.paths.items()}, report["paths"])
        check("acts", {place: [answer.value, operation] for place, (answer, operation) in told.acts.items()}, report["acts"])
        for one, key, other, other_key, wanted in report["conflicts"]:
            check(f"{one} {key} {other} {other_key}", conflict(told.conflicts, (one, key), (other, other_key)), wanted)


def spread(story, text):
    """The text for each number, where the story has a count."""
    return [text.replace("#", str(number)) for number in range(1, story.get("count", 0) + 1)] if "#" in text else [text]


def play_story(scenario, story):
    story = copy.deepcopy(story)
    with tempfile.TemporaryDirectory() as folder:
        memory = Memory(OPERATIONS, story.get("handlers"), story.get("commits"))
        texts = [one for text in story["processes"] for one in spread(story, text)]
        options = {"program": PROGRAM, "mark": "m", "first_pause": 0.01, "longest_pause": 0.05, "most_active": story.get("most_active", 64)}
        with Scheduler(f"{folder}/files", scenario, [memory], **options) as scheduler:
            kills = set(story.get("kill_at", ()))
            memory.on_call = lambda count: os.kill(scheduler._dialogue.pid, 9) if count in kills else None
            outcomes = submit_all(scheduler, story, texts)
        wanted = {name: tuple(end) for text, end in story["ends"].items() for name in spread(story, text) for end in [end]}
        if not story.get("any_end"):
            told = {name: (list(outcome.path), list(outcome.reasons)) for name, outcome in outcomes.items()}
            check(story["name"], told, {name: (path, reasons) for name, (path, reasons) in wanted.items()})
        check_whole(story["name"], memory, outcomes)
        for step, state in story.get("states", {}).items():
            check(step, [told.value for place, told in memory.states.items() if place.endswith(f".{step}")], [state])
        calls = memory.calls
        with Scheduler(f"{folder}/files", scenario, [memory], **options) as scheduler:
            again = submit_all(scheduler, story, texts)
        check(f"{story['name']}, once more", {name: it.path for name, it in again.items()}, {name: it.path for name, it in outcomes.items()})
        check(f"{story['name']}, calls once more", memory.calls, calls)


def submit_all(scheduler, story, texts):
    """The outcome of each process by name, one after another or all at once. Those that are refused have the class of their error."""
    futures, outcomes, refused = {}, {}, {}
    for text in texts:
        name = text.split()[1] if text.startswith("process ") else text.split()[0]
        try:
            futures[name] = scheduler.submit(text)
            if story.get("one_by_one"):
                futures[name].result(30)
        except sihtolem.SihtolemError as error:
            refused[name] = type(error).__name__
    for name, future in futures.items():
        try:
            outcomes[name] = future.result(30)
        except sihtolem.SihtolemError as error:
            refused[name] = type(error).__name__
    check(f"{story['name']}: what is refused", refused, story.get("refused", {}))
    return outcomes


def check_whole(name, memory, outcomes):
    """The system has committed exactly the steps that the outcomes tell, and nothing is left over."""
    stand = sorted(place for place, state in memory.states.items() if state is State.COMMITTED)
    check(f"{name}: what stands", stand, sorted(f"{it.number}.{step}" for it in outcomes.values() for step in it.path))
    check(f"{name}: what is open", [place for place, state in memory.states.items() if state in (State.PREPARED, State.UNDO_PREPARED)], [])


def play_outbox():
    """A shop in SQLite, and mail behind an outbox, whose receiver fails at first. The last run sends what the run before marked as unsent again:
    so it would be after a kill between the two. The receiver drops it by its name."""
    story, received, calls = table("outbox"), {}, []
    fails = dict(story["fails"])

    def send(work):
        step = f"{work.process}.{work.place.partition('.')[2]}" + (" undo" if work.undo else "")
        calls.append(step)
        if fails.get(step, 0):
            fails[step] -= 1
            raise ConnectionError("played")
        received.setdefault(work.name, step)

    with tempfile.TemporaryDirectory() as folder:
        options = {"program": PROGRAM, "mark": "m", "first_pause": 0.01, "longest_pause": 0.05}

        def participants():
            lists = {operation: {word: tuple(it) if isinstance(it, list) else it for word, it in words.items()} for operation, words in story["shop"].items()}
            held = {operation: Held(**words) for operation, words in lists.items()}
            shop = Sqlite(f"{folder}/shop.db", held, set_up=";".join(story["tables"]))
            return shop, Outbox(f"{folder}/mail.db", story["sent"], send, first_pause=0.01, longest_pause=0.05)

        shop, outbox = participants()
        with Scheduler(f"{folder}/files", story["scenario"], [shop, outbox], **options) as scheduler:
            for text in story["processes"]:
                outcome = scheduler.submit(text).result(30)
                check(text, [list(outcome.path), list(outcome.reasons)], story["ends"][outcome.name])
            until(lambda: not outbox.unsent())
            scheduler.backup(f"{folder}/copy")
            check("the backup", sorted(os.listdir(f"{folder}/copy")), sorted(f"tps.{number}" for number in range(9)))
        check("what was received", sorted(received.values()), sorted(story["received"]))
        outbox.read("UPDATE sihtolem_outbox SET sent = 0")
        sent = len(calls)
        shop, outbox = participants()
        with Scheduler(f"{folder}/copy", story["scenario"], [shop, outbox], **options):
            until(lambda: not outbox.unsent())
            check("what is free", shop.read("SELECT free FROM shelves"), [(story["free"],)])
        check("what was sent again", len(calls) - sent, len(story["received"]))
        check("what was received once more", sorted(received.values()), sorted(story["received"]))


def play_closing(scenario):
    """A folder in use is waited for, but not for longer than `patience`. A scheduler that is closed at once leaves what its systems don't take,
    and tells so; the next one goes on with it."""
    order = "process a r tell mail 1 1 end"
    with tempfile.TemporaryDirectory() as folder:
        options = {"program": PROGRAM, "mark": "m", "first_pause": 0.01, "longest_pause": 0.05}
        memory = Memory(OPERATIONS, {"a.tell": ["unreachable"] * 100000})
        first = Scheduler(f"{folder}/files", scenario, [memory], **options)
        future = first.submit(order)
        check("the same future", first.submit(order), future)
        refused("FolderInUse", lambda: Scheduler(f"{folder}/files", scenario, [Memory(OPERATIONS)], patience=0.3, **options))
        with ThreadPoolExecutor(1) as pool:
            second = pool.submit(Scheduler, f"{folder}/files", scenario, [memory], **options)
            time.sleep(0.3)
            check("waits for the folder", second.done(), False)
            first.close(until_ended=False)
            refused("Closed", future.result)
            refused("Closed", lambda: first.submit(order))
            memory.prepares = {}
            with second.result(30) as scheduler:
                check("the end", scheduler.submit(order).result(30).name, "a")
        refused("ProgramMissing", lambda: Scheduler(f"{folder}/files", scenario, [memory], **{**options, "program": "no_such_program"}))
        refused("ScenarioRefused", lambda: Scheduler(f"{folder}/other", "version", [memory], **options))
        refused("ScenarioRefused", lambda: Scheduler(f"{folder}/files", "version = 1\n", [memory], **options))


def play_abort(scenario):
    """One is aborted while its second step is prepared, and goes back; another one waits for its start, and isn't started."""
    with tempfile.TemporaryDirectory() as folder:
        memory = Memory(OPERATIONS)
        with Scheduler(f"{folder}/files", scenario, [memory], program=PROGRAM, mark="m", most_active=1) as scheduler:
            memory.on_call = lambda count: [scheduler.abort(name) for name in "ba"] if count == 2 else None
            futures = [scheduler.submit(f"process {name} c reserve reserve 3 2 p pay charge 1 40 r tell mail 1 1 end") for name in "ab"]
            told = [(it.number, it.path, it.reasons) for it in (future.result(30) for future in futures)]
        check("aborted", told, [(1, (), ("aborted",)), (0, (), ("aborted before its start",))])
        check("what is left", memory.states, {"1.reserve": State.UNDONE, "1.pay": State.ABSENT})


def play_void(scenario):
    """An undo is with its system when its process is called off, so the same undo is handed out again. It begins once the first one is taken
    back: else that would take back the second one, whose name is the same."""
    with tempfile.TemporaryDirectory() as folder:
        memory = Memory(OPERATIONS, {"a.ship": ["refused"]})
        with Scheduler(f"{folder}/files", scenario, [memory], program=PROGRAM, mark="m", first_pause=0.01, longest_pause=0.05) as scheduler:
            memory.on_call = lambda count: (scheduler.abort("a"), time.sleep(0.3)) if count == 4 else None
            future = scheduler.submit("process a p pay charge 1 40 choose c place place 5 1 p ship ship 1 1 or r post mail 1 1 done end")
            check("called off within an undo", future.result(30).path, ("pay", "post"))
        check("calls", memory.calls, 6)
        check("what is left", memory.states, {"1.pay": State.COMMITTED, "1.place": State.UNDONE, "1.post": State.COMMITTED})


class Heard:
    """An observer that keeps what it hears."""

    def __init__(self):
        self.opened_with, self.lines = [], []

    def opened(self, report, active):
        self.opened_with.append((dict(report.names), active))

    def answered(self, line, answer, seconds):
        self.lines.append((line.partition(" ")[0], answer[-1]))


def play_waits(scenario):
    """While a delivery is at work an order waits for it, and nobody waits later. An observer hears the lines."""
    with tempfile.TemporaryDirectory() as folder:
        memory, heard, at_work, go_on = Memory(OPERATIONS), Heard(), threading.Event(), threading.Event()
        memory.on_call = lambda count: at_work.set() or go_on.wait(30) if count == 1 else None
        with Scheduler(f"{folder}/files", scenario, [memory], program=PROGRAM, mark="m", observer=heard) as scheduler:
            futures = [scheduler.submit("process a r unload deliver 3 10 end")]
            at_work.wait(30)
            futures.append(scheduler.submit("process b c reserve reserve 3 2 r tell mail 1 1 end"))
            until(lambda: ("start", "started 2 b") in heard.lines)
            check("who waits", scheduler.waits().result(30), [Block(2, "reserve", 1, "unload", "A0")])
            go_on.set()
            check("the ends", [future.result(30).path for future in futures], [("unload",), ("reserve", "tell")])
            check("who waits later", scheduler.waits().result(30), [])
        check("the opening", heard.opened_with, [({}, {})])
        check("what was handed out", sum(answer.startswith("piece ") for word, answer in heard.lines if word in ("next", "admit")), 5)


def play_fence():
    """What comes under a lease that another has overtaken changes nothing, also behind a take back. Nor does what asks for work of another process."""
    work = Work("m", "2.x", False, "order_1", "take", 3, 1)
    with tempfile.TemporaryDirectory() as folder:
        shop = Fenced(f"{folder}/shop.db", {"take": Held()})
        for lease, do in ((7, shop.prepare), (8, shop.prepare), (9, shop.take_back)):
            with shop.under(lease):
                do(work)
        for do in (shop.prepare, shop.commit):
            try:
                with shop.under(8):
                    do(work)
                sys.exit("a lease that is overtaken does work")
            except Overtaken:
                check("what is prepared", shop.found("m"), {})
        with shop.under(11):
            shop.prepare(work)
        for do in (shop.prepare, shop.commit, shop.take_back):
            try:
                with shop.under(12):
                    do(replace(work, process="order_9"))
                sys.exit("work of another process is taken for its own")
            except WorkAhead:
                pass
        with shop.under(12):
            shop.commit(replace(work, process="", key=0, amount=0))
        check("what is of another process", shop.found("m"), {"2.x": State.COMMITTED})
        shop.close()


def play_resuming(scenario):
    """Whoever goes on and whoever goes back are both known, and not started again."""
    with tempfile.TemporaryDirectory() as folder:
        memory = Memory(OPERATIONS)
        with Scheduler(f"{folder}/files", scenario, [memory], program=f"{HERE}/resuming", mark="m") as scheduler:
            futures = [scheduler.submit(f"process {name} r tell mail 1 1 end") for name in "ab"]
            check("who goes on", [future.result(30).path for future in futures], [("tell",), ()])
        check("what stands", memory.states, {"1.tell": State.COMMITTED})


def refused(kind, do):
    try:
        do()
    except sihtolem.SihtolemError as error:
        return check("the error", type(error).__name__, kind)
    sys.exit(f"{kind} isn't told")


def until(what):
    for _ in range(1000):
        if what():
            return
        time.sleep(0.01)
    sys.exit("it takes too long")


def main():
    logging.basicConfig(level=logging.CRITICAL if "-v" not in sys.argv else logging.INFO, format="%(relativeCreated)d %(message)s")
    play_settling()
    play_lines()
    stories = table("stories")
    for story in stories["stories"]:
        logging.info("%s", story["name"])
        play_story(stories["scenario"], story)
    play_closing(stories["scenario"])
    play_abort(stories["scenario"])
    play_void(stories["scenario"])
    play_waits(stories["scenario"])
    play_fence()
    play_resuming(stories["scenario"])
    play_outbox()
    print(f"clients, Python: the settling over {len(table('settling'))} states, lines, {len(stories['stories'])} stories, and an outbox")


main()
