"""How quick the disk is."""
import os
import statistics
import time

SYNCS = 200


def sync_time(folder):
    """The median seconds that a sync behind a write takes."""
    taken = []
    with open(f"{folder}/synced", "wb", buffering=0) as file:
        for _ in range(SYNCS):
            began = time.monotonic()
            file.write(b"x" * 4096)
            os.fdatasync(file.fileno())
            taken.append(time.monotonic() - began)
    return statistics.median(taken)
