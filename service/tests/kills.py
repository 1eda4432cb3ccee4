"""The daemon, the program, a worker and a customer are killed with signal 9, again and again, each at moments of its own."""
import random
import time
from concurrent.futures import ThreadPoolExecutor

from running import PROGRAM, TOP, Daemon, Failure, audited, check, end, is_done, other_worker, script, wait_for, worker

import audit
from files import Files

# All kills of a kind come within so many seconds or a little more.
SECONDS = 60
ORDERS_IN_FILES = 60
MOST_OPEN = 30


def run_killed(folder, seed, kills):
    daemon = Daemon(folder, processes_in_files=ORDERS_IN_FILES, lease_seconds=2.0, most_active=16, limits={"queued": MOST_OPEN}).start()
    daemon.stop()
    began = time.monotonic()
    daemon.start()
    took = time.monotonic() - began
    kinds = [worker, other_worker]
    workers = [kind(daemon, f"worker_{at}") for at, kind in enumerate(kinds)]
    customers = [customer(daemon, at) for at in (1, 2, 3)]
    killers = [
        lambda chance: (daemon.kill(), daemon.start(until_open=False)),
        lambda chance: daemon.kill_program(),
        lambda chance: restart(workers, chance, lambda at: kinds[at](daemon, f"worker_{at}")),
        lambda chance: restart(customers, chance, lambda at: customer(daemon, at + 1)),
    ]
    try:
        with ThreadPoolExecutor(len(killers)) as threads:
            longest = min(4 * took, 2 * SECONDS / kills)
            for done in [threads.submit(kill_again_and_again, kill, random.Random(seed + at), kills, longest) for at, kill in enumerate(killers)]:
                done.result()
        open(f"{folder}/enough", "w").close()
        if [it.wait(60) for it in customers] != [0, 0, 0]:
            raise Failure("a customer was answered something else")
        wait_for(lambda: is_done(daemon), "all end", 120)
        look_at_acknowledged(daemon)
        daemon.stop()
    finally:
        for each in [*workers, *customers, daemon.process]:
            end(each)
    count, whole, sets = audited(daemon)
    return f"daemon, program, workers and customers were killed {kills} times each; {count} orders over {sets} sets of files, {whole} of them whole"


def kill_again_and_again(kill, chance, kills, longest):
    """Waits up to `longest` seconds before each kill: up to four times what a start takes, so that some work is done between. On a machine that is busy
    with other things a start takes so long that many kills come while it is under way."""
    for _ in range(kills):
        time.sleep(chance.uniform(0, longest))
        kill(chance)


def restart(processes, chance, anew):
    at = chance.randrange(len(processes))
    end(processes[at])
    processes[at] = anew(at)


def customer(daemon, first):
    return script(daemon, f"{TOP}/service/tests/customer.py", daemon.address, daemon.folder, str(first))


def acknowledged(daemon):
    names = set()
    for first in (1, 2, 3):
        with open(f"{daemon.folder}/acknowledged.{first}") as file:
            names |= set(file.read().split())
    return names


def look_at_acknowledged(daemon):
    """The service tells of each how it has ended, as the files do."""
    files = Files(PROGRAM, daemon.folder)
    fates = {fate.name: fate.path for fate in audit.fates(files)}
    for name in acknowledged(daemon):
        told = daemon.call("GET", f"/v1/processes/{name}")[1]
        if "aborted before its start" in told.get("reasons", ()):
            check(name, name in fates, False)
        else:
            check(name, (told["state"], tuple(told["path"])), ("ended", fates[name]))
