#!/usr/bin/env python3
"""The program PROGRAM, with files that are full sooner: of each run of `serve` the starts behind the first STARTS find no room, as
docs/DRIVERS.md has it. All else is the program's own."""
import os
import subprocess
import sys

PROGRAM, STARTS = os.environ["PROGRAM"], int(os.environ["STARTS"])


def main():
    program = subprocess.Popen([PROGRAM, "serve"], stdin=subprocess.PIPE, stdout=subprocess.PIPE, text=True)
    answer = lambda: print(first := program.stdout.readline(), end="", flush=True) or first
    for line in sys.stdin:
        program.stdin.write(line)
        if line == "%%\n":
            break
    program.stdin.flush()
    more, started = int(answer().split()[1]), 0
    for _ in range(more):
        answer()
    for line in sys.stdin:
        if line.startswith("start ") and started >= STARTS:
            print("too many 4096", flush=True)
            continue
        started += line.startswith("start ")
        program.stdin.write(line)
        program.stdin.flush()
        first = answer().split() or [""]
        for _ in range(int(first[1]) if first[0] == "lines" else 0):
            answer()
    program.stdin.close()
    sys.exit(program.wait())


if sys.argv[1:] == ["serve"]:
    main()
os.execv(PROGRAM, [PROGRAM, *sys.argv[1:]])
