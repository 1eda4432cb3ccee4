#!/usr/bin/env python3
"""A shop beside `tps serve`: its stock, its payments and its parcels are three databases, and the program says what may be done in them.

    examples/shop/shop.py FOLDER [--orders N] [--orders-in-files N]

PROGRAM names the program, else it is `tps` of the repository. Call it again over the same folder after any crash: it goes on there.
"""
import argparse
import os
import sys

import audit
from databases import TOP, Databases
from files import Files
from orders import AT_FIRST, ITEMS, opening, order, order_of, scenario

from sihtolem import FilesFull, Scheduler

ACTIVE = 10
WORKERS = 4


class Shop:
    def __init__(self, program, folder, orders, orders_in_files):
        self._program, self._orders, self._orders_in_files = program, orders, orders_in_files
        self.files, self.databases = Files(program, folder), Databases(folder)
        self.notes = {}
        for item, key in ITEMS.items():
            self.databases.stock.open_shelf(key, AT_FIRST)

    def open(self):
        """Takes all orders, over as many sets of files as it needs."""
        if self.files.last == 0:
            self._begin_files()
        while not self._take_orders(self.files.last):
            self._begin_files()

    def _take_orders(self, number):
        """Takes the orders that these files have room for, and waits until all have ended. Gives whether no other waits still."""
        options = {"mark": str(number), "most_active": ACTIVE, "workers": WORKERS, "alone": ["opening"], "program": self._program}
        with Scheduler(self.files.folder(number), scenario(), self.databases.all, **options) as scheduler:
            self.databases.payments.on_charge = lambda name: self._call_off(scheduler, name)
            waiting, room = self._waiting(scheduler.report())
            futures = [scheduler.submit(each.process) for each in waiting[:room]]
            was_full = len(waiting) > room
            for future in futures:
                try:
                    self._note(future.result())
                except FilesFull:
                    was_full = True
            self._note_causes(scheduler.report())
        return not was_full

    def _begin_files(self):
        """Fresh files, whose first process brings over what the subsystems have to know: what is on the shelves, and the places that are taken."""
        shelves = {item: self.databases.stock.total(key) for item, key in ITEMS.items()}
        places = [row[1:] for row in self.databases.parcels.standing() if row[1].startswith("place_")]
        self.files.begin(scenario(opening(shelves, places)))

    def _waiting(self, report):
        """The orders that were not started yet, and for how many of them these files have room. The names of the processes tell it."""
        here = audit.started(report.splitlines())
        before = [name for number in range(1, self.files.last) for name in audit.started(self.files.show(number).splitlines())]
        known = {*here, *before}
        waiting = [each for each in map(order, range(1, self._orders + 1)) if each.name not in known]
        return waiting, max(self._orders_in_files - len(here), 0)

    def _call_off(self, scheduler, name):
        """Some customers call off their order while it is paid."""
        if order_of(name).called_off:
            self.notes.setdefault(name, []).append("the customer calls it off")
            scheduler.abort(name)

    def _note(self, outcome):
        told = [why for why in outcome.reasons if why != "aborted"]
        if told:
            self.notes.setdefault(outcome.name, []).extend(told)

    def _note_causes(self, report):
        """Whom a crash cut off, and whom others took back: the program tells it."""
        names = {line.split(" ")[1]: line.split(" ")[2] for line in audit.sections(report.splitlines())["history"] if line.startswith("start ")}
        for line in audit.sections(report.splitlines())["causes"]:
            process, cause, *other = line.split(" ")
            if cause == "cascade":
                self.notes.setdefault(names[process], []).append(f"goes back with {names[other[0]]}")
            elif cause == "restart":
                self.notes.setdefault(names[process], []).append("cut off by a crash")


def main():
    parser = argparse.ArgumentParser()
    parser.add_argument("folder")
    parser.add_argument("--orders", type=int, default=60)
    parser.add_argument("--orders-in-files", type=int, default=4000)
    words = parser.parse_args()
    program = os.path.abspath(os.environ.get("PROGRAM", f"{TOP}/tps"))
    shop = Shop(program, os.path.abspath(words.folder), words.orders, words.orders_in_files)
    shop.open()
    print("\n".join(audit.told(shop.files, shop.databases, shop.notes)))
    sys.exit("\n".join(audit.faults(shop.files, shop.databases)) or None)


if __name__ == "__main__":
    main()
