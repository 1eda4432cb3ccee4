"""Workers that go away with a lease, or come back late, or are slow."""
import threading
import time
from concurrent.futures import ThreadPoolExecutor
from contextlib import contextmanager

from running import OPERATIONS, TOP, Daemon, Failure, audited, check, end, is_done, other_worker, reached, script, wait_for, worker

from orders import order
from shop_workers import opened
from sihtolem import Overtaken, Work

LEASE = 3.0


def take(daemon, name="tester", operations=OPERATIONS, wait=10.0):
    status, told = daemon.call("POST", "/v1/work", {"worker": name, "operations": operations, "wait": wait})
    if status != 200:
        raise Failure(f"there is no work for {name}: {status} {told}")
    return told


def do(databases, told):
    """What a worker does with its lease, in the databases."""
    work = Work(*(told[name] for name in ("mark", "place", "undo", "process", "operation", "key", "amount")))
    participant = next(it for it in databases if work.operation in it.operations)
    with participant.under(told["lease"]):
        {"prepare": participant.prepare, "commit": participant.commit, "take back": participant.take_back}[told["action"]](work)


def finish(daemon, databases, told):
    do(databases, told)
    check("done", daemon.call("POST", f"/v1/work/{told['lease']}/done")[0], 200)


def look_at_leases(folder):
    """A worker prepares and is heard of no more. Its work is handed out again; what it does late changes nothing."""
    daemon = Daemon(folder, lease_seconds=LEASE, most_active=4).start()
    try:
        databases = opened(daemon.databases)
        daemon.call("POST", "/v1/processes", {"process": order(1).process})
        gone = take(daemon, "gone")
        check("the first work", (gone["action"], gone["operation"], gone["process"]), ("prepare", "reserve", "order_1"))
        do(databases, gone)
        again = take(daemon, "next")
        check("the work of a lease that lapsed", {**again, "lease": 0}, {**gone, "lease": 0})
        if again["lease"] <= gone["lease"]:
            raise Failure("a later lease has no greater number")
        check("a late word", daemon.call("POST", f"/v1/work/{gone['lease']}/done")[1]["error"], "lease_ended")
        check("a late sign of life", daemon.call("POST", f"/v1/work/{gone['lease']}/heartbeat")[1]["error"], "lease_ended")
        with alive(daemon, again):
            time.sleep(1.3 * LEASE)
        finish(daemon, databases, again)
        commit = take(daemon)
        check("what comes behind", (commit["action"], commit["name"]), ("commit", gone["name"]))
        check("a commit that is refused", daemon.call("POST", f"/v1/work/{commit['lease']}/refused", {"reason": "no"})[1]["error"], "not_refusable")
        finish(daemon, databases, commit)
        look_at_a_stop_behind_a_lease(daemon, databases, order(1))
    finally:
        end(daemon.process)
    return "leases that lapse, and what was prepared under them"


def look_at_a_stop_behind_a_lease(daemon, databases, each):
    """The daemon is killed while a worker has prepared the payment. At the next start a worker takes it back, and what comes late is dropped."""
    pay = take(daemon)
    check("the next step", (pay["action"], pay["operation"]), ("prepare", "charge"))
    do(databases, pay)
    daemon.kill()
    daemon.start(until_open=False)
    wait_for(lambda: reached(daemon), "the service is there")
    check("a service that settles", daemon.call("GET", "/ready")[1]["error"], "not_open")
    # It can be stopped while it waits for workers.
    daemon.stop()
    daemon.start(until_open=False)
    wait_for(lambda: reached(daemon), "the service is there again")
    back = take(daemon)
    check("what is prepared is taken back", (back["action"], back["name"], back["key"]), ("take back", pay["name"], pay["key"]))
    finish(daemon, databases, back)
    try:
        do(databases, pay)
        raise Failure("work of a lease that was overtaken is prepared anew")
    except Overtaken:
        pass
    while (told := daemon.call("POST", "/v1/work", {"worker": "tester", "operations": OPERATIONS, "wait": 2})) and told[0] == 200:
        finish(daemon, databases, told[1])
    wait_for(lambda: is_done(daemon), "the order ends")
    check("an order that a stop cut off", daemon.call("GET", f"/v1/processes/{each.name}")[1]["path"], [])
    daemon.stop()
    audited(daemon)


def look_at_slow_worker(folder):
    """A worker takes longer to charge than its lease lasts, with signs of life. A delivery passes it by."""
    daemon = Daemon(folder, lease_seconds=LEASE, most_active=8).start()
    deliverer = script(daemon, f"{TOP}/service/tests/deliverer.py", daemon.address, daemon.databases)
    try:
        daemon.call("POST", "/v1/processes", {"process": "process paying p pay charge 1 20 r keep deliver 2 1 end"})
        slow, began = take_charge(daemon), time.monotonic()
        with alive(daemon, slow):
            daemon.call("POST", "/v1/processes", {"process": "process coming r unload deliver 1 5 end"})
            wait_for(lambda: state_of(daemon, "coming") == "ended", "a delivery passes a slow payment")
            wait_for(lambda: time.monotonic() > began + 1.3 * LEASE, "the lease would have ended")
        check("the slow one", state_of(daemon, "paying"), "active")
        databases = opened(daemon.databases)
        finish(daemon, databases, slow)
        finish(daemon, databases, take_charge(daemon))
        wait_for(lambda: state_of(daemon, "paying") == "ended", "the slow one ends")
        look_at_signs_of_life(daemon)
        daemon.stop()
    finally:
        end(deliverer)
        end(daemon.process)
    return "a slow worker"


def look_at_signs_of_life(daemon):
    """The libraries' workers keep the leases of what takes long alive. They end when they are asked to."""
    workers = [worker(daemon, "long", threads=4, seconds=2 * LEASE), other_worker(daemon, "as_long", seconds=2 * LEASE)]
    try:
        for number in range(8):
            daemon.call("POST", "/v1/processes", {"process": f"process long_{number} p pay charge 1 1 r keep keep {number} 1 tries 20 end"})
        wait_for(lambda: is_done(daemon), "what takes long ends")
        for each in workers:
            each.terminate()
        check("how the workers end", [each.wait(30) for each in workers], [0, 0])
    finally:
        for each in workers:
            end(each)
    check("leases that lapsed", daemon.events("lease_lapsed"), [])


@contextmanager
def alive(daemon, told):
    """A sign of life now and then, from a thread of its own."""
    enough = threading.Event()

    def beat():
        while not enough.wait(LEASE / 10):
            check("a sign of life", daemon.call("POST", f"/v1/work/{told['lease']}/heartbeat")[0], 200)

    with ThreadPoolExecutor(1) as thread:
        beating = thread.submit(beat)
        try:
            yield
        finally:
            enough.set()
        beating.result()


def state_of(daemon, name):
    return daemon.call("GET", f"/v1/processes/{name}")[1]["state"]


def take_charge(daemon):
    return take(daemon, "slow", ["charge"], 20.0)
