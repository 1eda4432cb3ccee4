"""Runs a driver whose participants don't end what former sessions left at work. tests/postgres has to find that out."""
import os
import sys

sys.path.insert(0, f"{os.path.dirname(os.path.realpath(__file__))}/../python")
import sihtolem

sihtolem.Postgres._end_former_sessions = lambda *_: None
del sys.argv[0]
with open(sys.argv[0]) as file:
    exec(compile(file.read(), sys.argv[0], "exec"), {"__name__": "__main__", "__file__": sys.argv[0]})
