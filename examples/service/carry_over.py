#!/usr/bin/env python3
"""Prints the first process of fresh files: what is on the shelves, and which places in the vans are taken.

    examples/service/carry_over.py FOLDER
"""
import sys

from shop_workers import ITEMS, opened

from orders import opening


def main():
    stock, _, parcels = opened(sys.argv[1])
    places = [row[1:] for row in parcels.standing() if row[1].startswith("place_")]
    print(opening({item: stock.total(key) for item, key in ITEMS.items()}, places))


main()
