"""What can be seen of the service: the list of what is active, the stream of events, the log and the numbers."""
import dataclasses
import http.client
import io
import json
import re
import time
from datetime import datetime

from running import TOP, Daemon, Failure, check, end, free_port, wait_for

from leases import do, state_of, take
from shop_workers import opened
from sihtolemd.configuration import Configuration, Limits, Token
from sihtolemd.events import KEPT, Events

STORY = [
    "process coming r unload deliver 1 10 end",
    "process waiting c reserve reserve 1 2 p pay charge 1 40 r keep keep 7 2 end",
    "process refused c reserve reserve 2 1 p pay charge 5 90 end",
]
SAMPLE = re.compile(r'(sihtolem_\w+?)(_bucket|_sum|_count)?(?:\{(\w+)="([^"\\]*)"\})? (\S+)')
KINDS = {"counter": {""}, "gauge": {""}, "histogram": {"_bucket", "_sum", "_count"}}


def look_at_watching(folder):
    """A story of three processes, worked off by hand, as the list, the events, the log and the numbers have it."""
    look_at_kept_events()
    port = free_port()
    daemon = Daemon(folder, listen=[f"unix:{folder}/socket", f"127.0.0.1:{port}"], lease_seconds=60.0, unclaimed_seconds=60.0).start()
    try:
        databases, stream = opened(daemon.databases), Stream(port, "?after=0")
        for text in STORY:
            check(text, daemon.call("POST", "/v1/processes", {"process": text})[0], 201)
        for name, has in (("coming", "at_work"), ("refused", "at_work"), ("waiting", "waits")):
            wait_for(lambda: has in view(daemon, name), f"{name} {has}")
        look_at_list(daemon)
        leases = {told["process"]: told for told in (take(daemon), take(daemon))}
        look_at_numbers(daemon, leases)
        look_at_page({re.sub("_(bucket|sum|count)$", "", name) for name, _ in samples(daemon)})
        work_off(daemon, databases, leases)
        names = [event["event"] for event in stream.until(lambda event: event["event"] == "ended" and event["process"] == "coming")]
        wanted = {"opened", "submitted", "started", "handed_out", "waits", "effected", "refused", "goes_back", "ended"}
        check("the kinds of events", wanted - set(names), set())
        look_at_stream(port, stream)
        daemon.stop()
        look_at_log(daemon, stream.last)
    finally:
        end(daemon.process)
    return f"three processes as the list, {stream.last} events, the log and the numbers tell them"


def view(daemon, name):
    return daemon.call("GET", f"/v1/processes/{name}")[1]


def is_recent(time_told):
    return 0 <= time.time() - datetime.fromisoformat(time_told).timestamp() < 60


def look_at_list(daemon):
    told = daemon.call("GET", "/v1/processes")[1]
    check("what is active", [(it["name"], it["text"]) for it in told["active"]], [(text.split()[1], text) for text in STORY])
    waits = told["active"][1]["waits"]
    check("since when one waits", is_recent(waits.pop("since")), True)
    check("what one waits for", waits, {"for": "coming", "their_step": "unload", "own_step": "reserve", "rule": "A0"})
    for at, step in ((0, "unload"), (2, "reserve")):
        work = told["active"][at]["at_work"]
        check("since when one is at work", is_recent(work.pop("since")), True)
        check("what is at work", work, {"work": "do", "step": step})
    check("what is queued and ended", (told["queued"], told["queued_count"], told["ended"], told["open"]), ([], 0, [], True))


def samples(daemon):
    """The numbers by name and label. The text has the form that Prometheus reads: each series says what it is before its samples."""
    kinds, found = {}, {}
    for line in daemon.call_text("/metrics").splitlines():
        if line.startswith("# TYPE "):
            _, _, name, kind = line.split(" ")
            kinds[name] = kind
        elif not line.startswith("# HELP "):
            sample = SAMPLE.fullmatch(line)
            if not sample or sample[1] not in kinds or (sample[2] or "") not in KINDS[kinds[sample[1]]]:
                raise Failure(f"/metrics has the line {line!r}")
            found[f"{sample[1].removeprefix('sihtolem_')}{sample[2] or ''}", sample[4] or ""] = float(sample[5])
    for name in (name.removeprefix("sihtolem_") for name, kind in kinds.items() if kind == "histogram"):
        buckets = [value for (of, _), value in found.items() if of == f"{name}_bucket"]
        check(f"the buckets of {name}", (buckets, buckets[-1]), (sorted(buckets), found[f"{name}_count", ""]))
    return found


def want_numbers(daemon, **wanted):
    """A value, or by the label's value."""
    found = samples(daemon)
    for name, value in wanted.items():
        for label, number in value.items() if isinstance(value, dict) else [("", value)]:
            check(f"{name} {label}", found.get((name, label)), number)
    return found


def look_at_numbers(daemon, leases):
    """What the numbers are while two pieces are out, and one process waits."""
    check("the work of the two", {name: told["operation"] for name, told in leases.items()}, {"coming": "deliver", "refused": "reserve"})
    found = want_numbers(daemon, open=1, files=1, active=3, queued=0, handed_out=2, leases=2, tasks_waiting=0, program_starts_total=1)
    want_numbers(daemon, waiting={"A0": 1, "A3": 0}, waits_total={"A0": 1}, requests_total={"201": 3}, group_size_count=0, flush_seconds_count=0)
    if not 0 < found["oldest_active_seconds", ""] < 60 or not found["turns_total", ""] > 3:
        raise Failure(f"/metrics has {found}")


def finish(daemon, databases, told, refusal=None):
    """Does the work of a lease, or refuses it."""
    if refusal is None:
        do(databases, told)
    path, body = ("refused", {"reason": refusal}) if refusal else ("done", None)
    check("the end of a lease", daemon.call("POST", f"/v1/work/{told['lease']}/{path}", body)[0], 200)


def work_off(daemon, databases, leases):
    """One is called off while it waits, one is refused and goes back, and one comes to its end."""
    check("who is called off", daemon.call("POST", "/v1/processes/waiting/abort")[0], 200)
    wait_for(lambda: state_of(daemon, "waiting") == "ended", "the one that waits is called off")
    told = leases["refused"]
    finish(daemon, databases, told)
    while samples(daemon)["leases_total", "done"] < 4:
        told = take(daemon)
        finish(daemon, databases, told, "the card is refused" if told["operation"] == "charge" else None)
    wait_for(lambda: state_of(daemon, "refused") == "ended", "the one that is refused goes back")
    want_numbers(daemon, effects_total={"do": 1, "undo": 1, "end": 2}, refusals_total={"pay": 1}, processes_ended_total={"nothing": 2}, waiting={"A0": 0})
    refused = view(daemon, "refused")
    check("the way of one", [(mark["what"], mark["step"]) for mark in refused["way"]], [("done", "reserve"), ("refused", "pay"), ("undone", "reserve")])
    check("why it went back", refused["reasons"], ["pay refused: the card is refused"])
    finish(daemon, databases, leases["coming"])
    finish(daemon, databases, take(daemon))
    wait_for(lambda: state_of(daemon, "coming") == "ended", "the delivery ends")
    found = want_numbers(daemon, active=0, handed_out=0, leases=0, processes_ended_total={"nothing": 2, "whole": 1}, leases_total={"done": 6, "refused": 1})
    check("the effects of all groups", found["group_size_sum", ""], sum(found["effects_total", work] for work in ("do", "undo", "end")))
    check("the writes", found["flush_seconds_count", ""], found["group_size_count", ""])


class Stream:
    """Server-sent events, one by one."""

    def __init__(self, port, query, headers={}):
        self._connection, self.seen = http.client.HTTPConnection("127.0.0.1", port, timeout=30), []
        self._connection.request("GET", f"/v1/events{query}", headers=headers)
        self._answer = self._connection.getresponse()
        check("the kind of the stream", (self._answer.status, self._answer.headers["Content-Type"]), (200, "text/event-stream"))

    def next(self):
        number = None
        while True:
            line = self._answer.readline().decode()
            if line.startswith("id: "):
                number = int(line[4:])
            elif line.startswith("data: "):
                event = json.loads(line[6:])
                check("the number of an event", event["id"], number)
                self.seen.append(event)
                return event
            elif not line:
                raise Failure("the stream has ended")

    def until(self, is_last):
        while not is_last(self.next()):
            pass
        return self.seen

    @property
    def last(self):
        return self.seen[-1]["id"]

    def close(self):
        self._connection.close()


def look_at_stream(port, stream):
    """Each event comes once, in order. Who comes back goes on behind the last one that he had, and is told where that can't be."""
    check("the numbers of the events", [event["id"] for event in stream.seen], list(range(1, stream.last + 1)))
    for query, headers in ((f"?after={stream.last - 2}", {}), ("?after=1", {"Last-Event-ID": str(stream.last - 2)})):
        again = Stream(port, query, headers)
        check("what comes behind", [again.next() for _ in range(2)], stream.seen[-2:])
        again.close()
    ahead = Stream(port, f"?after={10 ** 12}")
    check("behind an event that isn't there", ahead.next()["event"], "lost")
    ahead.close()
    stream.close()


def look_at_kept_events():
    """The last ones are kept, and each is a line of the log."""
    log = io.StringIO()
    events = Events(log)
    for number in range(KEPT + 10):
        events.publish("tried", number=number)
    check("the events behind the last one", events.after(events.last), [])
    check("the events behind one that is kept", [event["number"] for event in events.after(KEPT + 8)], [KEPT + 8, KEPT + 9])
    check("the events behind the last one that isn't kept", len(events.after(10)), KEPT)
    check("the events behind one that isn't kept", events.after(9), None)
    check("the lines of the log", [json.loads(line)["id"] for line in log.getvalue().splitlines()], list(range(1, KEPT + 11)))


def look_at_log(daemon, last):
    """Each line is an event with its time, in order, and none is left out."""
    told = [json.loads(line) for line in daemon.log().splitlines()]
    check("the numbers of the log", [event["id"] for event in told], list(range(1, len(told) + 1)))
    check("the last event of the log", (len(told) >= last, told[-1]["event"]), (True, "stopping"))
    times = [event["time"] for event in told]
    check("the times of the log", (times, all(map(is_recent, times))), (sorted(times), True))


def look_at_page(names):
    """Numbers, events, errors, entries of the configuration and paths stand on the page for operators, by their names."""
    with open(f"{TOP}/docs/OPERATING.md") as file:
        spans = re.findall(r"`([^`\n]+)`", re.sub(r"^```.*?^```", "", file.read(), flags=re.M | re.S))
    sources = {}
    for name in ("__main__", "errors", "paths", "runner", "service", "tracker"):
        with open(f"{TOP}/service/sihtolemd/{name}.py") as file:
            sources[name] = file.read()
    names |= set(re.findall(r'publish\("(\w+)"', "".join(sources.values()))) | {"refused", "dropped", "ended", "rejected", "lost"}
    names |= set(re.findall(r'name, status, advice = "(\w+)"', sources["errors"]))
    names |= {entry.name for kind in (Configuration, Limits, Token) for entry in dataclasses.fields(kind)}
    names |= {path.partition("{")[0].rstrip("/") for path in re.findall(r'"(?:GET|POST)", "([^"]+)"', sources["paths"])}
    lacking = sorted(name for name in names if not any(re.search(rf"(?<!\w){re.escape(name)}(?!\w)", span) for span in spans))
    check("names that docs/OPERATING.md lacks", lacking, [])
