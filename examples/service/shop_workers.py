"""The databases of examples/shop as participants of a worker."""
import os
import random
import sys
import time

sys.path.insert(0, os.path.join(os.path.dirname(os.path.realpath(__file__)), "..", "shop"))
sys.dont_write_bytecode = True

import databases  # which makes the library known
from orders import AT_FIRST, ITEMS

from sihtolem import Fenced


class Slow(Fenced):
    """Takes up to `seconds` to prepare, as systems do that are far away."""

    seconds = 0.0

    def prepare(self, work):
        time.sleep(random.uniform(0, self.seconds))
        super().prepare(work)


class Stock(Slow, databases.Stock):
    pass


class Payments(Slow, databases.Payments):
    pass


class Parcels(Slow, databases.Parcels):
    pass


def opened(folder, seconds=0.0):
    """The three of a folder, with what is on the shelves at first."""
    Slow.seconds = seconds
    os.makedirs(folder, exist_ok=True)
    stock = Stock(folder)
    for key in ITEMS.values():
        stock.open_shelf(key, AT_FIRST)
    return [stock, Payments(folder), Parcels(folder)]
