#!/usr/bin/env python3
"""The verdicts of src/table.rt, worked out by trying all outcomes of play.

`verdicts.py` prints the table's lines, each process with the verdict that is found here, and fails where the table says another.
`verdicts.py TREE ..` prints the lines of these processes, written as in the table. Nothing here follows the check's own way: a
process is the list of its whole paths, and play goes along them by its definition.
"""
import os
import sys


def parse(text):
    """The block of a line: its steps as numbers, and the blocks of its choice, if it has one; and the kinds of all steps."""
    kinds, at = [], 0

    def block():
        nonlocal at
        steps, choice = [], []
        while at < len(text) and text[at] in "cprb":
            steps.append(len(kinds))
            kinds.append(text[at])
            at += 1
        if at < len(text) and text[at] == "(":
            while text[at] in "(|":
                at += 1
                choice.append(block())
            at += 1
        return steps, choice

    return block(), kinds


def whole_paths(block):
    """The lists of steps from the block's beginning to an end, through one alternative of each choice."""
    steps, choice = block
    if not choice:
        return [steps]
    return [steps + path for alternative in choice for path in whole_paths(alternative)]


def steps_of(block):
    steps, choice = block
    return steps + [step for alternative in choice for step in steps_of(alternative)]


def alternatives(block):
    """Each alternative but a first one, behind the one just before it, as their steps."""
    found = []
    for before, alternative in zip(block[1], block[1][1:]):
        found.append((steps_of(before), steps_of(alternative)))
    for alternative in block[1]:
        found += alternatives(alternative)
    return found


def verdict(text):
    root, kinds = parse(text)
    paths = whole_paths(root)

    def goes_on(done):
        return [path[len(done)] for path in paths if path[: len(done)] == done and len(path) > len(done)]

    def owed(done):
        """The steps behind these through last alternatives."""
        steps = []
        while goes_on(done + steps):
            steps.append(max(goes_on(done + steps)))
        return steps

    def fixed_len(done):
        """How many of these stand up to the last commit point. A step of both kinds is one where it is owed behind another."""
        fixed = 0
        for place, step in enumerate(done):
            if kinds[step] in "pr" or (kinds[step] == "b" and fixed and step in owed(done[:fixed])):
                fixed = place + 1
        return fixed

    def fallback(done, refused):
        fixed = fixed_len(done)
        ways = [(step, kept) for kept in range(fixed, len(done) + 1) for step in goes_on(done[:kept]) if step > refused]
        return (fixed, *min(ways)) if ways else (fixed, None, None)

    # Every state of play, with the fewest outcomes that lead to it; what fell back to what; and where play was stuck.
    states, seen, fell, stuck = [([], min(goes_on([])), [])], set(), set(), {}
    for done, step, outcomes in states:
        if (tuple(done), step) in seen:
            continue
        seen.add((tuple(done), step))
        asks = kinds[step] in "cp"
        now = done + [step]
        if now not in paths:
            states.append((now, min(goes_on(now)), outcomes + ["done"] * asks))
        if asks:
            fixed, to, kept = fallback(done, step)
            if to is not None:
                fell.add((step, to))
                states.append((done[:kept], to, outcomes + ["refused"]))
            elif fixed:
                stuck.setdefault(step, outcomes + ["refused"])
    for step in range(len(kinds)):
        for before, alternative in alternatives(root):
            if step == min(alternative) and not any((refused, step) in fell for refused in before):
                return f"unreachable {step}"
        if step in stuck:
            return " ".join(["stuck", str(step), *stuck[step]])
    return "good"


def main():
    if len(sys.argv) > 1:
        for text in sys.argv[1:]:
            print(text, verdict(text))
        return
    table = os.path.join(os.path.dirname(os.path.abspath(__file__)), "src", "table.rt")
    with open(table) as lines:
        rows = [line.rstrip('";\n').split(" ", 1) for line in lines if set(line.split(" ")[0]) <= set("cprb(|)")]
    wrong = 0
    for text, told in rows:
        found = verdict(text)
        wrong += found != told
        print(text, found if found == told else f"{found} -- the table says {told}")
    sys.exit(1 if wrong else 0)


main()
