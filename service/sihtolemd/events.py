"""What happens, as numbered events: the last ones are kept for whoever follows them, and each is one JSON line of the log."""
import asyncio
import json
import sys
import threading
import time
from collections import deque
from datetime import datetime, timezone
from typing import Any, TextIO

KEPT = 8192
Event = dict[str, Any]


def spelled_time(seconds: float) -> str:
    return datetime.fromtimestamp(seconds, timezone.utc).isoformat(timespec="milliseconds").replace("+00:00", "Z")


class Events:
    """Any thread may publish; tasks of the event loop follow."""

    def __init__(self, log: TextIO = sys.stdout):
        self._log, self._lock = log, threading.Lock()
        self._kept: deque[Event] = deque(maxlen=KEPT)
        self._followers: list[tuple[asyncio.AbstractEventLoop, asyncio.Event]] = []
        self.last = 0

    def publish(self, event: str, **fields: Any) -> None:
        with self._lock:
            self.last += 1
            told = {"id": self.last, "time": spelled_time(time.time()), "event": event, **fields}
            self._kept.append(told)
            self._write(told)
            followers = list(self._followers)
        for loop, wake in followers:
            if not loop.is_closed():
                loop.call_soon_threadsafe(wake.set)

    def _write(self, told: Event) -> None:
        """A log that nobody can take is no reason to stop."""
        try:
            self._log.write(json.dumps(told) + "\n")
            self._log.flush()
        except OSError:
            pass

    def after(self, number: int) -> list[Event] | None:
        """The events behind that number, or None where some of them aren't kept any more."""
        with self._lock:
            first = self._kept[0]["id"] if self._kept else self.last + 1
            if number + 1 < first or number > self.last:
                return None
            return [event for event in self._kept if event["id"] > number] if number < self.last else []

    def follow(self) -> asyncio.Event:
        """An event that is set at each publication, for a task of the running loop."""
        wake = asyncio.Event()
        with self._lock:
            self._followers.append((asyncio.get_running_loop(), wake))
        return wake

    def leave(self, wake: asyncio.Event) -> None:
        with self._lock:
            self._followers = [(loop, it) for loop, it in self._followers if it is not wake]
