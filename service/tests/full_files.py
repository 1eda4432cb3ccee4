"""Files that are full: by the configuration, and by the program. The service goes on in fresh ones."""
import os
import shutil
import sys

from running import OPERATIONS, PROGRAM, TOP, Daemon, audited, check, end, is_done, reached, wait_for, worker

from leases import finish, state_of
from orders import order
from shop_workers import opened

STARTS = 3


def look_at_full_files(folder):
    look_at_sets(f"{folder}/sets")
    look_at_full_program(f"{folder}/program")
    look_at_carry_over(f"{folder}/carry_over")
    return "files that are full, by the configuration and by the program"


def look_at_sets(folder):
    """Files that are full: what is active in them ends, one that waits for fresh files can be called off, and another one is started there."""
    daemon = Daemon(folder, processes_in_files=2, lease_seconds=60.0).start()
    try:
        databases = opened(daemon.databases)
        for name in "abc":
            daemon.call("POST", "/v1/processes", {"process": f"process {name} c reserve reserve 1 1 p pay charge 1 1 end"})
        wait_for(lambda: state_of(daemon, "a") == "active", "the first one starts")
        check("the files", [event["files"] for event in daemon.events("files_full")], [1])
        told = daemon.call("POST", "/v1/processes/b/abort")[1]
        check("who is called off", (told["state"], told["path"], told["reasons"]), ("ended", [], ["aborted before its start"]))
        check("the service", daemon.call("GET", "/ready")[0], 200)
        while state_of(daemon, "c") != "ended":
            status, told = daemon.call("POST", "/v1/work", {"worker": "tester", "operations": OPERATIONS, "wait": 1})
            if status == 200:
                finish(daemon, databases, told)
        told = daemon.call("GET", "/v1/processes/c")[1]
        check("who is started in fresh files", (told["files"], told["path"]), (2, ["reserve", "pay"]))
        daemon.stop()
    finally:
        end(daemon.process)


def look_at_full_program(folder):
    """The program finds no room long before the service expects it. All that were submitted come to their end, each once, over as many sets as it
    takes; sets that are over can be taken away."""
    os.environ |= {"STARTS": str(STARTS), "PROGRAM": PROGRAM}
    daemon = Daemon(folder, program=f"{TOP}/service/tests/full_program.py", most_active=8)
    daemon.start()
    workers = [worker(daemon, "worker")]
    orders = [order(number) for number in range(1, 4 * STARTS + 1)]
    try:
        for each in orders:
            check(each.name, daemon.call("POST", "/v1/processes", {"process": each.process})[0], 201)
        wait_for(lambda: is_done(daemon), "all end")
        told = [daemon.call("GET", f"/v1/processes/{each.name}")[1] for each in orders]
        check("their ends", {it["state"] for it in told}, {"ended"})
        check("the files of each", [it["files"] for it in told], [1 + at // STARTS for at in range(len(orders))])
        check("the sets that were full", [event["files"] for event in daemon.events("files_full")], [1, 2, 3])
        daemon.stop()
        check("the processes of all sets", audited(daemon)[0], len(orders))
        look_at_sets_that_are_over(daemon, orders[0])
    finally:
        for each in [*workers, daemon.process]:
            end(each)


def look_at_sets_that_are_over(daemon, first):
    """Nothing reads them any more: who was in them is known all the same, and isn't run again."""
    for number in (1, 2):
        shutil.rmtree(f"{daemon.folder}/files/{number}")
    daemon.start()
    told = daemon.call("POST", "/v1/processes", {"process": first.process})
    check("one of a set that is gone", (told[0], told[1]["state"], told[1]["files"]), (200, "ended", 1))
    wait_for(lambda: is_done(daemon), "the service goes on")
    daemon.stop()


def look_at_carry_over(folder):
    """While the command fails that brings over the values, the service isn't open and says why. Once it is mended the service goes on by itself."""
    mended, script = f"{folder}/mended", f"{TOP}/examples/service/carry_over.py"
    command = ["/bin/sh", "-c", f"test -e {mended} && exec {sys.executable} -B {script} {folder}/databases"]
    daemon = Daemon(folder, carry_over=command).start(until_open=False)
    try:
        wait_for(lambda: reached(daemon) and daemon.events("failed"), "the service says that it failed")
        status, told = daemon.call("GET", "/ready")
        check("a service that isn't ready", (status, told["error"], "CalledProcessError" in told["what"]), (503, "not_open", True))
        check("who comes meanwhile", daemon.call("POST", "/v1/processes", {"process": "process early r keep keep 1 1 end"})[0], 201)
        open(mended, "w").close()
        wait_for(daemon.is_open, "the service opens")
        wait_for(lambda: state_of(daemon, "early") == "active", "who came meanwhile is started")
    finally:
        end(daemon.process)
