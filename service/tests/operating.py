"""What docs/OPERATING.md has an operator do: a backup, a restore, and another catalog."""
import os
import shutil

from running import OPERATIONS, PROGRAM, TOP, Daemon, Failure, audited, check, end, is_done, reached, wait_for, worker

from files import Files
from leases import do, state_of, take
from orders import order
from shop_workers import opened
from sihtolem import WorkAhead


def look_at_operating(folder):
    look_at_a_second_service(f"{folder}/second")
    look_at_shards(f"{folder}/shards")
    look_at_backup(f"{folder}/backup")
    look_at_catalog(f"{folder}/catalog")
    return "a second service, two shards, a backup, a restore and another catalog"


def look_at_a_second_service(folder):
    """A second service finds the folder in use, or the socket, and leaves the first one alone."""
    first = Daemon(folder).start()
    try:
        for second, words in ((Daemon(folder), "another service has the folder"), (Daemon(f"{folder}/other", listen=[first.address]), "another program listens")):
            second.start(until_open=False)
            check("the end of a second service", (second.process.wait(30) != 0, words in second.log()), (True, True))
            check("the first one", first.call("GET", "/ready")[0], 200)
        first.stop()
    finally:
        end(first.process)


def look_at_shards(folder):
    """Two services with marks of their own work in the same databases, each under its own names."""
    shards = [Daemon(f"{folder}/{mark}", databases=f"{folder}/databases", mark=mark, carry_over=[]) for mark in ("north", "south")]
    helpers = []
    try:
        for shard in shards:
            shard.start()
            helpers.append(worker(shard, "worker"))
        for shard, number in zip(shards, (5, 10)):
            run_orders(shard, [number])
            check("the number of it", shard.call("GET", f"/v1/processes/{order(number).name}")[1]["number"], 1)
        names = {name for database in opened(f"{folder}/databases") for name, *_ in database.standing()}
        check("the names of their work", {f"{mark}-1/1.unload" for mark in ("north", "south")} - names, set())
        for shard in shards:
            shard.stop()
    finally:
        for each in [*helpers, *(shard.process for shard in shards if shard.process)]:
            end(each)


def look_at_backup(folder):
    """What was copied is put back, and goes on from there. Where systems of workers are put back to another moment, no work passes for done that isn't."""
    state, systems, kept = f"{folder}/state", f"{folder}/systems", f"{folder}/kept"
    daemon = Daemon(state, databases=systems, lease_seconds=2.0).start()
    helper = worker(daemon, "worker")
    try:
        run_orders(daemon, range(1, 5))
        daemon.stop()
        shutil.copytree(state, f"{kept}/state", ignore=shutil.ignore_patterns("socket"))
        shutil.copytree(systems, f"{kept}/systems")
        daemon.start()
        run_orders(daemon, range(6, 9))
        daemon.stop()
        check("the orders behind the backup", audited(daemon)[0], 7)
        end(helper)
        put_back(kept, folder, "state")
        daemon.start()
        look_at_work_of_another_day(daemon)
        daemon.kill()
        put_back(kept, folder, "state", "systems")
        daemon.start()
        helper = worker(daemon, "worker")
        check("who ended before the backup", {state_of(daemon, order(number).name) for number in range(1, 5)}, {"ended"})
        check("who came behind it", daemon.call("GET", f"/v1/processes/{order(6).name}")[1]["error"], "no_process")
        run_orders(daemon, range(6, 12))
        daemon.stop()
        check("the orders behind the restore", audited(daemon)[0], 10)
    finally:
        end(helper)
        end(daemon.process)


def run_orders(daemon, numbers):
    for number in numbers:
        check(order(number).name, daemon.call("POST", "/v1/processes", {"process": order(number).process})[0], 201)
    wait_for(lambda: is_done(daemon), "all end")


def put_back(kept, folder, *names):
    for name in names:
        shutil.rmtree(f"{folder}/{name}")
        shutil.copytree(f"{kept}/{name}", f"{folder}/{name}")


def look_at_work_of_another_day(daemon):
    """The folder is that of the backup, and the databases are not: they have work of another order under the name of this one's."""
    daemon.call("POST", "/v1/processes", {"process": order(9).process})
    told, databases = take(daemon), opened(daemon.databases)
    try:
        do(databases, {**told, "lease": told["lease"] + (1 << 33)})
        raise Failure("work of another order is taken for done")
    except WorkAhead as error:
        check("the work of another day", error.names, (told["name"],))


def look_at_catalog(folder):
    """Another scenario: what is active ends by the old one, and then fresh files begin with the new one and what there is."""
    os.makedirs(folder)
    path = f"{folder}/shop.toml"
    with open(f"{TOP}/examples/service/shop.toml") as file:
        old = file.read()
    write(path, old)
    daemon = Daemon(folder, scenario=path, worker_operations=[*OPERATIONS, "wrap"], lease_seconds=60.0).start()
    helper = worker(daemon, "worker")
    try:
        run_orders(daemon, range(1, 4))
        helper.terminate()
        helper.wait()
        daemon.call("POST", "/v1/processes", {"process": order(4).process})
        wait_for(lambda: state_of(daemon, order(4).name) == "active", "one is active")
        daemon.stop()
        write(path, f'{old}[[op]]\nname = "wrap"\nsubsystem = 4\nverb = "put"\n')
        daemon.start(until_open=False)
        wait_for(lambda: reached(daemon), "the service is there")
        check("the new operation", daemon.call("POST", "/v1/processes", {"process": "process gift r wrap wrap 1 1 end"})[0], 201)
        helper = worker(daemon, "worker")
        for action in ("prepare", "commit"):
            told = take(daemon, "wrapper", ["wrap"], 30.0)
            check("the new operation", (told["action"], told["operation"], told["mark"]), (action, "wrap", "2"))
            daemon.call("POST", f"/v1/work/{told['lease']}/done")
        wait_for(lambda: state_of(daemon, "gift") == "ended", "the new operation is done")
        run_orders(daemon, range(5, 8))
        told = [daemon.call("GET", f"/v1/processes/{name}")[1] for name in (order(4).name, "gift", order(7).name)]
        check("the files of each", [it["files"] for it in told], [1, 2, 2])
        daemon.stop()
    finally:
        end(helper)
        end(daemon.process)
    files = Files(PROGRAM, folder)
    check("the sets", files.last, 2)
    check("their reports", {files.verify(files.show(number)) for number in (1, 2)}, {"accepted"})
    if "deliver" not in files.show(2).partition("start 2")[0]:
        raise Failure("the shelves are not carried over to the new catalog")


def write(path, text):
    with open(path, "w") as file:
        file.write(text)
