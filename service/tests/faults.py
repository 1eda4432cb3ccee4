"""Bad input, tokens, bodies that are too large, and full disks."""
import gzip
import hashlib
import http.client
import json
import os
import re
import socket
import subprocess
import tempfile
import threading

from running import TOP, Daemon, Failure, audited, check, end, free_port, is_done, wait_for, worker

from orders import order
from shop_workers import opened
from sihtolem.worker import Connection
from sihtolemd.configuration import read_configuration
from sihtolemd.errors import ConfigurationError

TOKENS = {"front": ["submit", "abort"], "van": ["work"]}


def look_at_configurations(folder):
    """Each configuration that has no form, or would be unsafe, is refused in words."""
    least, digest = 'folder = "a"\nscenario = "s"\n', "0" * 64
    rows = [
        ("folder =", "Invalid value"),
        ('folder = 1\nscenario = "s"', "`folder` of the top is text"),
        ('folder = "a"', "lacks the entry `scenario`"),
        (f'{least}listen = "127.0.0.1:1"', "`listen` of the top is a list"),
        (f'{least}listen = ["nowhere"]', "neither HOST:PORT nor unix:PATH"),
        (f'{least}listen = ["0.0.0.0:1"]', "without a token"),
        (f"{least}most_active = 300", "from 1 to 256"),
        (f'{least}mark = "north/1"', "`mark` has up to 32"),
        (f"{least}color = 1", "no entry `color`"),
        (f'{least}[limits]\nqueued = "many"', "`queued` of limits is a number"),
        (f'{least}[[tokens]]\nname = "a"\nsha256 = "secret"\nmay = ["submit"]', "no SHA-256"),
        (f'{least}[[tokens]]\nname = "a"\nsha256 = "{digest}"\nmay = ["fly"]', "may ['fly']"),
    ]
    os.makedirs(folder)
    for text, words in rows:
        with open(f"{folder}/bad.toml", "w") as file:
            file.write(text)
        try:
            read_configuration(f"{folder}/bad.toml")
        except ConfigurationError as error:
            check(f"what is said of {text!r}", words in str(error), True)
        else:
            raise Failure(f"{text!r} is taken")
    return f"{len(rows)} bad configurations"


def look_at_bad_input(folder):
    """Each fault has one named answer, also without a token, and the service goes on."""
    tokens = [{"name": name, "sha256": hashlib.sha256(name.encode()).hexdigest(), "may": may} for name, may in TOKENS.items()]
    port = free_port()
    limits = {"requests_per_second": 2.0, "burst": 60.0}
    daemon = Daemon(folder, tokens=tokens, limits=limits, listen=[f"unix:{folder}/socket", f"127.0.0.1:{port}"]).start()
    try:
        rows = [
            ("no token", "/v1/processes", b"{}", "", 401, "no_token"),
            ("a wrong token", "/v1/processes", b"{}", "wrong", 401, "no_token"),
            ("a token for something else", "/v1/processes", b"{}", "van", 403, "not_allowed"),
            ("abort by a worker", "/v1/processes/x/abort", b"{}", "van", 403, "not_allowed"),
            ("work by a shop", "/v1/work", b"{}", "front", 403, "not_allowed"),
            ("bad JSON", "/v1/processes", b"{", "front", 400, "bad_json"),
            ("deep JSON", "/v1/processes", b"[" * 100000, "front", 400, "bad_json"),
            ("bytes", "/v1/processes", b"\xff\xfe", "front", 400, "bad_json"),
            ("half a sign", "/v1/check", b'{"text": "\\ud800"}', "front", 400, "bad_json"),
            ("a number that is none", "/v1/work", b'{"worker": "x", "operations": [], "wait": NaN}', "van", 400, "bad_json"),
            ("a list", "/v1/processes", b"[]", "front", 400, "bad_json"),
            ("no field", "/v1/processes", b"{}", "front", 400, "bad_field"),
            ("a number for a text", "/v1/processes", b'{"process": 1}', "front", 400, "bad_field"),
            ("operations of another type", "/v1/work", b'{"worker": "x", "operations": [[]]}', "van", 400, "bad_field"),
            ("no process", "/v1/processes", b'{"process": "order"}', "front", 422, "bad_process"),
            ("two processes", "/v1/processes", b'{"process": "process s c a keep 1 1 end process t c a keep 1 1 end"}', "front", 422, "bad_process"),
            ("a name for fresh files alone", "/v1/processes", b'{"process": "process opening c a keep 1 1 end"}', "front", 422, "bad_process"),
            ("a process that gets stuck", "/v1/processes", b'{"process": "process s p a charge 1 1 p b charge 1 1 end"}', "front", 422, "bad_process"),
            ("an operation of nobody", "/v1/processes", b'{"process": "process s c a fly 1 1 end"}', "front", 422, "unknown_operation"),
            ("no such process", "/v1/processes/nobody/abort", b"{}", "front", 404, "no_process"),
            ("no such lease", "/v1/work/7/done", b"{}", "van", 409, "lease_ended"),
            ("no lease at all", f"/v1/work/{'9' * 5000}/done", b"{}", "van", 404, "no_such_path"),
            ("no such path", "/v1/nothing", b"{}", "front", 404, "no_such_path"),
            ("another method", "/v1/events", b"{}", "front", 405, "wrong_method"),
            ("too much", "/v1/processes", b" " * 200_000, "front", 413, "body_too_large"),
        ]
        for what, path, body, token, status, name in rows:
            told, error = raw_call(daemon, path, body, token)
            check(what, (told, error), (status, name))
        told = raw_call(daemon, f"/v1/events?after={'9' * 5000}", None, "front", method="GET")
        check("an event that there can't be", told, (400, "bad_field"))
        check("no JSON", plain_call(port, "POST", "/v1/check", "x", {"Content-Type": "text/plain"}), 415)
        check("a form of another page", plain_call(port, "POST", "/v1/processes/x/abort", None, {"Authorization": "Bearer front"}), 415)
        look_at_great_body(daemon)
        look_at_compressed_body(daemon)
        look_at_hosts(port)
        told = [raw_call(daemon, "/v1/processes", b"{", "front")[1] for _ in range(200)]
        check("a flood", set(told), {"bad_json", "too_many_requests"})
        look_at_no_http(daemon, port)
        check("a text that is checked", daemon.call("POST", "/v1/check", {"text": "process x c a reserve 1 1 end"})[1]["is_well_formed"], True)
        told = [raw_call(daemon, "/v1/processes", b"{}", "wrong")[1] for _ in range(200)]
        check("a flood of wrong tokens", set(told), {"no_token", "too_many_requests"})
        check("faults of the service", daemon.events("internal_error"), [])
        daemon.stop()
    finally:
        end(daemon.process)
    return f"{len(rows)} kinds of bad input, floods, what is no HTTP, and bodies of 100 MB"


def raw_call(daemon, path, body, token, *, method="POST", more={}):
    """The status and the name of the error, of a body that may be no JSON."""
    connection = Connection(daemon.address, 30)
    headers = {"Content-Type": "application/json", **({"Authorization": f"Bearer {token}"} if token else {}), **more}
    try:
        connection.request(method, path, body, headers)
    except (BrokenPipeError, ConnectionResetError):
        pass
    answer = connection.getresponse()
    told = json.loads(answer.read())
    connection.close()
    return answer.status, told.get("error")


def plain_call(port, method, path, body, headers):
    connection = http.client.HTTPConnection("127.0.0.1", port, timeout=30)
    connection.request(method, path, body, headers)
    status = connection.getresponse().status
    connection.close()
    return status


def look_at_great_body(daemon):
    """100 MB, announced or in pieces, are refused before they are read."""
    before = memory_of(daemon.process.pid)
    for head in ("Content-Length: 100000000", "Transfer-Encoding: chunked"):
        with socket.socket(socket.AF_UNIX) as it:
            it.settimeout(30)
            it.connect(daemon.address.removeprefix("unix:"))
            it.sendall(f"POST /v1/processes HTTP/1.1\r\nHost: x\r\nAuthorization: Bearer front\r\nContent-Type: application/json\r\n{head}\r\n\r\n".encode())
            threading.Thread(target=pour, args=(it, "chunked" in head), daemon=True).start()
            status = it.makefile("rb").readline()
        if b" 413 " not in status:
            raise Failure(f"100 MB by {head} are answered {status!r}")
    if memory_of(daemon.process.pid) > before + 20_000:
        raise Failure("100 MB stay in memory")


def look_at_compressed_body(daemon):
    """What is compressed is taken as it is: it doesn't become 100 MB."""
    before, body = memory_of(daemon.process.pid), gzip.compress(b" " * 100_000_000)
    check("a compressed body", raw_call(daemon, "/v1/processes", body, "front", more={"Content-Encoding": "gzip"}), (400, "bad_json"))
    if memory_of(daemon.process.pid) > before + 20_000:
        raise Failure("a compressed body is unpacked")


def look_at_no_http(daemon, port):
    """What is no HTTP, or has a head that is too long, is refused, and is one line of the log each."""
    texts = [b"HELO there\r\n\r\n", b"GET /" + b"a" * 20_000 + b" HTTP/1.1\r\n\r\n", b"GET / HTTP/1.1\r\nA: " + b"a" * 20_000 + b"\r\n\r\n"]
    for text in texts:
        with socket.create_connection(("127.0.0.1", port), 30) as it:
            it.sendall(text)
            status = it.makefile("rb").readline()
        check(f"{text[:20]!r}", b" 400 " in status, True)
    wait_for(lambda: sum("no HTTP" in event["what"] for event in daemon.events("log")) == len(texts), "what is no HTTP is logged")


def pour(it, is_chunked):
    piece = b"x" * 100_000
    try:
        for _ in range(1000):
            it.sendall(b"%x\r\n%s\r\n" % (len(piece), piece) if is_chunked else piece)
    except OSError:
        pass


def memory_of(process):
    with open(f"/proc/{process}/status") as file:
        return int(re.search(r"VmRSS:\s+(\d+)", file.read())[1])


def look_at_hosts(port):
    """A page of another site is refused, though its name leads here."""
    check("this machine", plain_call(port, "GET", "/v1/processes", None, {"Host": f"localhost:{port}"}), 200)
    check("another site", plain_call(port, "GET", "/v1/processes", None, {"Host": "elsewhere.example"}), 421)
    with tempfile.TemporaryDirectory() as folder:
        daemon = Daemon(folder, listen=["0.0.0.0:1"])
        daemon.start(until_open=False)
        if daemon.process.wait(30) == 0 or "without a token" not in daemon.log():
            raise Failure("the service listens beyond the machine without a token")


def look_at_limits(folder):
    """Each limit at one more than it allows: open processes, event streams, polls of workers, and the time that a body takes."""
    limits = {"queued": 2, "streams": 1, "polls": 1, "body_seconds": 0.5}
    daemon = Daemon(folder, limits=limits).start()
    try:
        texts = [order(number).process for number in (1, 2, 3)]
        told = [raw_call(daemon, "/v1/processes", json.dumps({"process": text}).encode(), "") for text in texts]
        check("open processes", told, [(201, None), (201, None), (503, "queue_full")])
        stream = Connection(daemon.address, 30)
        stream.request("GET", "/v1/events")
        check("a stream", stream.getresponse().status, 200)
        check("one stream more", raw_call(daemon, "/v1/events", None, "", method="GET"), (503, "too_many_streams"))
        stream.close()
        wait = json.dumps({"worker": "x", "operations": [], "wait": 60}).encode()
        waiting = Connection(daemon.address, 30)
        waiting.request("POST", "/v1/work", wait, {"Content-Type": "application/json"})
        wait_for(lambda: "sihtolem_workers_polling 1\n" in daemon.call_text("/metrics"), "one waits for work")
        check("one more who waits for work", raw_call(daemon, "/v1/work", wait, ""), (503, "too_many_streams"))
        waiting.close()
        with socket.socket(socket.AF_UNIX) as it:
            it.connect(daemon.address.removeprefix("unix:"))
            it.sendall(b"POST /v1/check HTTP/1.1\r\nHost: x\r\nContent-Type: application/json\r\nContent-Length: 20\r\n\r\n{")
            answer = it.makefile("rb").read()
        check("half a body", (b" 408 " in answer, b"body_too_slow" in answer), (True, True))
    finally:
        end(daemon.process)
    return f"limits: {', '.join(limits)}"


def look_at_other_machines(folder):
    """Where other machines reach the service each call wants a token, but the page and whether it is ready."""
    port = free_port()
    token = {"name": "reader", "sha256": hashlib.sha256(b"reader").hexdigest(), "may": ["read"]}
    daemon = Daemon(folder, tokens=[token], listen=[f"unix:{folder}/socket", f"0.0.0.0:{port}"]).start()
    try:
        for path in ("/v1/processes", "/metrics", "/v1/events"):
            check(f"{path} without a token", plain_call(port, "GET", path, None, {}), 401)
            check(f"{path} with a wrong one", plain_call(port, "GET", path, None, {"Authorization": "Bearer wrong"}), 401)
            check(f"{path} with one", plain_call(port, "GET", path, None, {"Authorization": "Bearer reader"}), 200)
        for path in ("/", "/window.js", "/ready"):
            check(path, plain_call(port, "GET", path, None, {}), 200)
        check("a reader who submits", plain_call(port, "POST", "/v1/processes", "{}", {"Authorization": "Bearer reader"}), 403)
    finally:
        end(daemon.process)
    return "what other machines may do"


def look_at_full_disk(folder):
    """Where a small disk can be mounted: nothing is accepted while it is full, and all goes on once there is room."""
    disk = f"{folder}/disk"
    os.makedirs(disk)
    if subprocess.run(["mount", "-t", "tmpfs", "-o", "size=8m", "none", disk], capture_output=True).returncode:
        return "a full disk is left out: none can be mounted"
    daemon = Daemon(f"{disk}/shop", databases=f"{folder}/databases", patience_seconds=3.0)
    workers = []
    try:
        daemon.start()
        workers = [worker(daemon, "worker")]
        with open(f"{disk}/ballast", "wb", buffering=0) as ballast:
            try:
                while True:
                    ballast.write(b"x" * 4096)
            except OSError:
                pass
        answers = [daemon.call("POST", "/v1/processes", {"process": order(number).process}) for number in range(1, 30)]
        if "storage_failed" not in {told.get("error") for _, told in answers}:
            raise Failure(f"a full disk accepts 29 orders: {answers[-1]}")
        os.remove(f"{disk}/ballast")
        wait_for(lambda: daemon.call("POST", "/v1/processes", {"process": order(40).process})[0] in (200, 201), "there is room again")
        wait_for(lambda: is_done(daemon), "all end behind a full disk")
        daemon.stop()
        audited(daemon)
    finally:
        for each in [*workers, *([daemon.process] if daemon.process else [])]:
            end(each)
        subprocess.run(["umount", "-l", disk], check=False)
    return "a full disk"
