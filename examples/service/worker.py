#!/usr/bin/env python3
"""A worker of the shop: it fetches work of the service, and does it in the databases of a folder.

    examples/service/worker.py ADDRESS FOLDER NAME [THREADS [SECONDS]]

ADDRESS is HOST:PORT or unix:PATH. Each step takes up to SECONDS, 0 if it isn't said. The variable SIHTOLEM_TOKEN has a token that may work, where the service wants one.
"""
import logging
import os
import signal
import sys

from shop_workers import opened

from sihtolem import Worker


def main():
    logging.basicConfig(level=logging.WARNING, format="%(threadName)s %(message)s")
    address, folder, name, threads, seconds = [*sys.argv[1:], *["4", "0"][len(sys.argv) - 4 :]]
    # Each thread leaves these signals to the wait below, however many come at once.
    stops = {signal.SIGTERM, signal.SIGINT}
    signal.pthread_sigmask(signal.SIG_BLOCK, stops)
    databases = opened(folder, float(seconds))
    worker = Worker(address, databases, name=name, token=os.environ.get("SIHTOLEM_TOKEN", ""), threads=int(threads))
    signal.sigwait(stops)
    worker.close()


main()
