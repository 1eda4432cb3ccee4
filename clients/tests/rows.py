#!/usr/bin/env python3
"""The table of the settling stands in two places: `settling.json`, which both client libraries are tested against, and the examples of the crate
`exactly_once`, which the prover computes. This says whether the two are one; with --write it writes the examples from the table.
"""
import json
import os
import sys

TOP = os.path.realpath(f"{os.path.dirname(os.path.realpath(__file__))}/../..")
EXAMPLES = f"{TOP}/crates/exactly_once/specs/SettlingExamples.antt"
STATES = {
    "absent": "NoWork",
    "prepared": "StepPrepared",
    "committed": "StepCommitted",
    "undo prepared": "UndoPrepared",
    "undone": "UndoCommitted",
}
ANSWERS = {"done": "Done", "undone": "Undone", "not done": "NotDone", "unknown": "Unknown", "no step": "NoStep"}
ACTIONS = {
    "nothing": "Nothing",
    "commit": "Commit",
    "take back": "TakeBack",
    "commit undo": "CommitUndo",
    "take back undo": "TakeBackUndo",
    "undo": "CarryOutUndo",
    "stop: lost": "StopLost",
    "stop: ahead": "StopAhead",
}
HEAD = """-- The whole table of the settling, computed. The client libraries are tested against the same rows: `clients/tests/rows.py` writes this
-- file from their table.
use Rattle.std.specs.Prelude.{◌≡◌, refl}
use Rattle.exactly_once.specs.Settling.{%s}
"""


def row(state, answer, action):
    name = f"{state}_{answer}".replace(" ", "_")
    return f"pub {name} : settle {STATES[state]} {ANSWERS[answer]} ≡ {ACTIONS[action]}\n{name} = refl\n"


def examples():
    with open(f"{TOP}/clients/tests/settling.json") as file:
        rows = json.load(file)
    names = [*ANSWERS.values(), *ACTIONS.values(), *STATES.values()]
    return "\n".join([HEAD % ", ".join([*sorted(names), "settle"]), *[row(*one) for one in rows]])


def main():
    text = examples()
    if sys.argv[1:] == ["--write"]:
        with open(EXAMPLES, "w") as file:
            file.write(text)
        return
    with open(EXAMPLES) as file:
        if file.read() != text:
            sys.exit("clients: clients/tests/settling.json and the examples of exactly_once differ: clients/tests/rows.py --write")
    print("clients: the table of the settling is the one that the prover computes")


main()
