"""Numbers in Prometheus' text form."""
import threading
from bisect import bisect_left
from collections.abc import Iterable

SECONDS = (0.0005, 0.001, 0.0025, 0.005, 0.01, 0.025, 0.05, 0.1, 0.25, 0.5, 1.0, 2.5)
SIZES = (1.0, 2.0, 4.0, 8.0, 16.0, 32.0)
# Names of steps are the submitters'. So many have a series of their own; the rest counts as `other`.
MOST_LABELS = 200


class Histogram:
    def __init__(self, bounds: tuple[float, ...]):
        self._bounds, self._counts, self._sum = bounds, [0] * (len(bounds) + 1), 0.0

    def add(self, value: float) -> None:
        self._counts[bisect_left(self._bounds, value)] += 1
        self._sum += value

    def lines(self, name: str) -> Iterable[str]:
        total = 0
        for bound, count in zip([*map(str, self._bounds), "+Inf"], self._counts):
            total += count
            yield f'{name}_bucket{{le="{bound}"}} {total}'
        yield f"{name}_sum {self._sum:.6f}"
        yield f"{name}_count {total}"


class Counter:
    """A count by the value of one label, or one count where there is no label."""

    def __init__(self, label: str = ""):
        self._label, self._counts = label, {} if label else {"": 0}

    def add(self, value: str = "", count: int = 1) -> None:
        if value not in self._counts and len(self._counts) >= MOST_LABELS:
            value = "other"
        self._counts[value] = self._counts.get(value, 0) + count

    def lines(self, name: str) -> Iterable[str]:
        for value, count in sorted(self._counts.items()):
            told = f'{{{self._label}="{value}"}}' if self._label else ""
            yield f"{name}{told} {count}"


class Metrics:
    """The counts since the start of the service. What is a state of the moment is added by whoever is asked for it."""

    def __init__(self) -> None:
        self._lock = threading.Lock()
        self._series: dict[str, tuple[str, str, Counter | Histogram]] = {}
        self.turns = self._counter("turns_total", "lines that the program answered")
        self.starts = self._counter("program_starts_total", "starts of the program")
        self.effects = self._counter("effects_total", "steps, undos and ends that took effect", "work")
        self.refusals = self._counter("refusals_total", "refusals by step", "step")
        self.ended = self._counter("processes_ended_total", "processes that ended", "end")
        self.waits = self._counter("waits_total", "waits that began, by rule of admission", "rule")
        self.leases = self._counter("leases_total", "leases by how they ended", "end")
        self.requests = self._counter("requests_total", "requests by status", "status")
        self.flush_seconds = self._histogram("flush_seconds", "time until the program answered `finish` or `flush`", SECONDS)
        self.group_size = self._histogram("group_size", "pieces that took effect by one write", SIZES)

    def _counter(self, name: str, told: str, label: str = "") -> Counter:
        made = Counter(label)
        self._series[name] = ("counter", told, made)
        return made

    def _histogram(self, name: str, told: str, bounds: tuple[float, ...]) -> Histogram:
        made = Histogram(bounds)
        self._series[name] = ("histogram", told, made)
        return made

    def count(self, counter: Counter, value: str = "", count: int = 1) -> None:
        with self._lock:
            counter.add(value, count)

    def observe(self, histogram: Histogram, value: float) -> None:
        with self._lock:
            histogram.add(value)

    def text(self, gauges: dict[str, tuple[str, float]], waiting: dict[str, int]) -> str:
        """All of it, with these states of the moment, and how many wait by which rule."""
        lines = []
        for name, (told, value) in gauges.items():
            lines += [f"# HELP sihtolem_{name} {told}", f"# TYPE sihtolem_{name} gauge", f"sihtolem_{name} {value:g}"]
        lines += ["# HELP sihtolem_waiting processes that wait now, by rule of admission", "# TYPE sihtolem_waiting gauge"]
        lines += [f'sihtolem_waiting{{rule="{rule}"}} {count}' for rule, count in sorted(waiting.items())]
        with self._lock:
            for name, (kind, told, series) in self._series.items():
                lines += [f"# HELP sihtolem_{name} {told}", f"# TYPE sihtolem_{name} {kind}", *series.lines(f"sihtolem_{name}")]
        return "\n".join(lines) + "\n"
