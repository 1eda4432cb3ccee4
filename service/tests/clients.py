"""Clients that submit twice, and many at once."""
import re
import time
from concurrent.futures import ThreadPoolExecutor

from running import PROGRAM, Daemon, Failure, check, end, wait_for, worker

import audit
from databases import Databases
from files import Files
from orders import order
from sihtolem import Service

CLIENTS = 64


def look_at_clients(folder):
    """A process is submitted twice, and by 64 clients at once; a slow worker holds up none but its own."""
    daemon = Daemon(folder, most_active=64, lease_seconds=5.0).start()
    workers = [worker(daemon, f"worker_{at}", threads=8) for at in range(2)]
    try:
        text = order(2).process
        check("the first time", daemon.call("POST", "/v1/processes", {"process": text})[0], 201)
        check("the second time", daemon.call("POST", "/v1/processes", {"process": text})[0], 200)
        other = daemon.call("POST", "/v1/processes", {"process": order(3).process.replace("order_3", "order_2")})
        check("the name for another process", (other[0], other[1]["error"]), (409, "name_taken"))
        with ThreadPoolExecutor(CLIENTS) as clients:
            began = time.monotonic()
            states = list(clients.map(lambda at: submit_and_wait(daemon, order(100 + at)), range(CLIENTS)))
            took = time.monotonic() - began
        check("64 clients", states, ["ended"] * CLIENTS)
        check("who was started twice", audit.faults(Files(PROGRAM, folder), Databases(daemon.databases)), [])
        text = daemon.call_text("/metrics")
        for name in ("active", "handed_out", "effects_total", "group_size_count", "refusals_total", "waits_total", "turns_total", "flush_seconds_count"):
            if not re.search(rf"^sihtolem_{name}\b", text, re.M):
                raise Failure(f"/metrics has no sihtolem_{name}")
        daemon.stop()
    finally:
        for each in [*workers, daemon.process]:
            end(each)
    return f"{CLIENTS} clients at once took {took:.1f} s"


def submit_and_wait(daemon, each):
    service = Service(daemon.address)
    twice = [service.call("POST", "/v1/processes", {"process": each.process})[0] for _ in range(2)]
    check(each.name, sorted(twice), [200, 201])
    wait_for(lambda: service.call("GET", f"/v1/processes/{each.name}")[1]["state"] == "ended", f"{each.name} ends")
    return "ended"
