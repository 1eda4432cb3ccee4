#!/usr/bin/python3
"""Books trips: a flight, a hotel, a payment and a ticket, on four databases of PostgreSQL.

    examples/travel/travel.py FOLDER HOST TRIPS

HOST is the server's, or the folder of its socket. Call it again after any crash, with as many trips or more: it goes on there.
"""
import os
import sys
from concurrent.futures import ThreadPoolExecutor
from functools import partial

HERE = os.path.dirname(os.path.realpath(__file__))
sys.path.insert(0, f"{HERE}/../../clients/python")

import psycopg2

from sihtolem import Postgres, Scheduler, Statements

BOOKINGS = {
    "flights": {
        "book_flight": Statements(
            "UPDATE flights SET free = free - :amount WHERE number = :key AND free >= :amount",
            undo="UPDATE flights SET free = free + :amount WHERE number = :key",
            refusal="the flight is full",
        )
    },
    "hotels": {
        "book_hotel": Statements(
            "UPDATE hotels SET free = free - :amount WHERE number = :key AND free >= :amount",
            undo="UPDATE hotels SET free = free + :amount WHERE number = :key",
            refusal="the hotel is full",
        )
    },
    "payments": {
        "charge": Statements(
            "UPDATE cards SET spent = spent + :amount WHERE number = :key AND spent + :amount <= most", refusal="the card is refused"
        )
    },
    "tickets": {"issue": Statements("INSERT INTO tickets VALUES (:key, :process)")},
}


def read(name):
    with open(f"{HERE}/{name}") as file:
        return file.read()


def trip(number):
    return read("trip.process").replace("NUMBER", str(number)).replace("FLIGHT", str(number % 8 + 1)).replace("HOTEL", str(number % 6 + 1))


def opened(host):
    """The four databases as participants."""
    return [Postgres(partial(psycopg2.connect, host=host, user="postgres", dbname=name), work) for name, work in BOOKINGS.items()]


def main():
    folder, host, trips = sys.argv[1], sys.argv[2], int(sys.argv[3])
    program = os.environ.get("PROGRAM", f"{HERE}/../../tps")
    with Scheduler(folder, read("travel.toml"), opened(host), program=program) as scheduler, ThreadPoolExecutor(20) as clients:
        # Each client places an order and waits how it ends.
        for outcome in clients.map(lambda number: scheduler.submit(trip(number)).result(), range(1, trips + 1)):
            print(outcome.name, *(outcome.path or ("nothing:", *outcome.reasons)))


if __name__ == "__main__":
    main()
