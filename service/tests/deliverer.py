#!/usr/bin/env python3
"""A worker of the shop that does deliveries alone.

    service/tests/deliverer.py ADDRESS FOLDER
"""
import sys
import threading

from running import opened

from sihtolem import Worker

Worker(sys.argv[1], opened(sys.argv[2])[:1], name="deliverer")
threading.Event().wait()
