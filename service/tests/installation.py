"""What `make install` puts in place: the service, its example and the program run from there."""
import os
import subprocess
import sys

from running import PROGRAM, TOP, Daemon, Failure, check, end, script, wait_for

WANTED = (
    "bin/tps",
    "bin/sihtolemd",
    "share/man/man1/tps.1",
    "share/doc/sihtolem/OPERATING.md",
    "share/doc/sihtolem/window.png",
    "share/sihtolem/sihtolemd.toml",
    "share/sihtolem/clients/python/pyproject.toml",
    "share/sihtolem/clients/node/package.json",
    "lib/systemd/system/sihtolemd.service",
)


def look_at_installation(folder):
    subprocess.run(["make", "-s", "-C", TOP, "install", f"DESTDIR={folder}/root", "PREFIX=/usr", f"PROGRAM={PROGRAM}"], check=True)
    there = f"{folder}/root/usr"
    for path in WANTED:
        if not os.path.exists(f"{there}/{path}"):
            raise Failure(f"the installation lacks {path}")
    with open(f"{TOP}/examples/first.process", "rb") as text:
        check("draw", b"</svg>" in subprocess.run([f"{there}/bin/draw", "process"], stdin=text, stdout=subprocess.PIPE, check=True).stdout, True)
    examples = f"{there}/share/sihtolem/examples/service"
    entries = {"program": f"{there}/bin/tps", "scenario": f"{examples}/shop.toml", "carry_over": [sys.executable, f"{examples}/carry_over.py", f"{folder}/state/databases"]}
    daemon = Daemon(f"{folder}/state", **entries)
    daemon.command = f"{there}/bin/sihtolemd"
    daemon.start()
    live = script(daemon, f"{examples}/live", daemon.address, daemon.databases, "20")
    try:
        wait_for(lambda: sum(it["state"] == "ended" for it in daemon.call("GET", "/v1/processes")[1]["ended"]) > 4, "orders move")
        live.send_signal(2)
        check("the end of the customers", live.wait(60), 0)
        daemon.stop()
    finally:
        end(live)
        end(daemon.process)
    return "what `make install` puts in place"
