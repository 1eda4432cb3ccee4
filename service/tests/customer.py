#!/usr/bin/env python3
"""Orders of the shop, one after another: each third one, from the first or second or third on. It goes on until the file FOLDER/enough is there.

    service/tests/customer.py ADDRESS FOLDER FIRST

It writes down what it is at before it asks, and what was acknowledged. Called again, it begins a few orders earlier, so some are submitted twice.
"""
import http.client
import os
import sys
import time

from running import Service, opened  # noqa: F401  which makes the shop known

from orders import order


def last_line(path):
    try:
        with open(path) as file:
            return int(file.read().split()[-1])
    except (FileNotFoundError, IndexError):
        return None


def main():
    address, folder, first = sys.argv[1], sys.argv[2], int(sys.argv[3])
    at = last_line(f"{folder}/at.{first}")
    number = first if at is None else max(first, at - 9)
    service = Service(address, timeout=30)
    with open(f"{folder}/at.{first}", "a") as begun, open(f"{folder}/acknowledged.{first}", "a") as acknowledged:
        while not os.path.exists(f"{folder}/enough"):
            each = order(number)
            print(number, file=begun, flush=True)
            if submit(service, each):
                print(each.name, file=acknowledged, flush=True)
                number += 3
                time.sleep(0.15)


def submit(service, each):
    """Whether it was taken. Who is out of reach or full is asked again."""
    try:
        status, told = service.call("POST", "/v1/processes", {"process": each.process})
        if status in (200, 201) and each.called_off:
            service.call("POST", f"/v1/processes/{each.name}/abort")
    except (OSError, http.client.HTTPException):
        status, told = 503, {}
    if status not in (200, 201, 503, 429):
        sys.exit(f"{each.name}: {status} {told}")
    if status not in (200, 201):
        time.sleep(0.1)
    return status in (200, 201)


main()
