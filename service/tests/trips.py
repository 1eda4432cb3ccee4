"""The trips of examples/travel by participants within the service, over a PostgreSQL server of its own, which is killed too."""
import os
import random
import sys
import time
from collections import Counter
from concurrent.futures import ThreadPoolExecutor

from running import PROGRAM, PYTHON, TOP, Daemon, Failure, check, end, is_done, wait_for

from files import Files
from sihtolem import Service
from sihtolem.report import read_report

sys.path.insert(0, f"{TOP}/clients/tests")
from server import Server, why_skipped

TRIPS, KILLS = 45, 5
SEATS, ROOMS, PRICE = 12 * 8, 14 * 6, 250


def look_at_trips(folder, seed):
    """Gives what was done, or why it was left out."""
    why = why_skipped(PYTHON)
    if why:
        return f"PostgreSQL is left out: {why}"
    os.environ["PYTHONPATH"] = f"{TOP}/examples/travel"
    with Server() as server:
        server.psql_file(f"{TOP}/examples/travel/set_up.sql")
        travel = {"scenario": f"{TOP}/examples/travel/travel.toml", "participants": ["travel:opened", server.folder]}
        daemon = Daemon(folder, worker_operations=[], carry_over=[], most_active=16, **travel).start()
        try:
            with ThreadPoolExecutor(1) as killer:
                killed = killer.submit(kill_all, daemon, server, random.Random(seed))
                submit_all(daemon)
                killed.result()
            wait_for(lambda: is_done(daemon), "all trips end", 90)
            daemon.stop()
            whole = look_at_sums(folder, server)
        finally:
            end(daemon.process)
    return f"{TRIPS} trips on PostgreSQL, {whole} of them whole"


def kill_all(daemon, server, chance):
    for _ in range(KILLS):
        time.sleep(chance.uniform(0, 1.0))
        daemon.kill()
        daemon.start(until_open=chance.random() < 0.5)
        time.sleep(chance.uniform(0, 1.0))
        server.kill()
        server.start()


def submit_all(daemon):
    """Each trip is submitted until it is acknowledged."""
    with open(f"{TOP}/examples/travel/trip.process") as file:
        text = file.read()
    service = Service(daemon.address, timeout=30)
    for number in range(1, TRIPS + 1):
        trip = text.replace("NUMBER", str(number)).replace("FLIGHT", str(number % 8 + 1)).replace("HOTEL", str(number % 6 + 1))
        wait_for(lambda: was_taken(service, trip), f"trip {number} is taken")


def was_taken(service, text):
    try:
        return service.call("POST", "/v1/processes", {"process": text})[0] in (200, 201)
    except OSError:
        return False


def look_at_sums(folder, server):
    """Gives the number of whole trips."""
    text = Files(PROGRAM, folder).show(1)
    report = read_report(text.splitlines())
    check("trips that were started", Counter(report.names.values()), Counter({f"trip_{number}": 1 for number in range(1, TRIPS + 1)}))
    check("trips that are active", set(report.names) - report.ended, set())
    whole = sum(bool(path) for path in report.paths.values())
    sums = {
        "flights": ("SELECT sum(free) FROM flights", SEATS - whole),
        "hotels": ("SELECT sum(free) FROM hotels", ROOMS - whole),
        "payments": ("SELECT sum(spent) FROM cards", PRICE * whole),
        "tickets": ("SELECT count(*) FROM tickets", whole),
        "postgres": ("SELECT count(*) FROM pg_prepared_xacts", 0),
    }
    for database, (query, wanted) in sums.items():
        check(query, int(server.psql(database, query)[0]), wanted)
    if not whole:
        raise Failure("no trip is whole")
    return whole
