"""sihtolemd CONFIGURATION   serves until it is told to stop
sihtolemd token           makes a token, and the line of it for the configuration"""
import asyncio
import hashlib
import logging
import os
import secrets
import signal
import socket
import sys

from aiohttp import web
from aiohttp.http_exceptions import HttpProcessingError

from .configuration import Configuration, host_and_port, read_configuration
from .errors import ConfigurationError
from .events import Events
from .metrics import Metrics
from .paths import Paths
from .service import Service


# Whose words are events too, and from which level on.
LOGS = {"sihtolem": logging.INFO, "aiohttp": logging.WARNING, "asyncio": logging.WARNING}


class LogLines(logging.Handler):
    """What the libraries log, as events. What is no HTTP has no trace of interest."""

    def __init__(self, events: Events):
        super().__init__(logging.INFO)
        self._events = events

    def emit(self, record: logging.LogRecord) -> None:
        error = record.exc_info[1] if record.exc_info else None
        if isinstance(error, HttpProcessingError):
            told = f"a request that is no HTTP: {error.message}"
        else:
            told = self.format(record) if error else record.getMessage()
        self._events.publish("log", level=record.levelname.lower(), what=told)


async def serve(configuration: Configuration) -> None:
    events, metrics = Events(), Metrics()
    handler = LogLines(events)
    for name, level in LOGS.items():
        logging.getLogger(name).addHandler(handler)
        logging.getLogger(name).setLevel(level)
    service = Service(configuration, events, metrics)
    loop, stop = asyncio.get_running_loop(), asyncio.Event()
    for number in (signal.SIGTERM, signal.SIGINT):
        loop.add_signal_handler(number, stop.set)
    service.start(loop)
    # A small body that is compressed can be a great one: what is compressed stays so, and is no JSON.
    runner = web.AppRunner(Paths(configuration, service).application(), access_log=None, handle_signals=False, auto_decompress=False)
    await runner.setup()
    for address in configuration.listen:
        await site(runner, address).start()
    events.publish("serving", listen=list(configuration.listen), pid=os.getpid())
    await stop.wait()
    events.publish("stopping")
    await service.stop()
    await runner.cleanup()


def site(runner: web.AppRunner, address: str) -> web.BaseSite:
    if address.startswith("unix:"):
        path = address.removeprefix("unix:")
        remove_left_socket(path)
        return web.UnixSite(runner, path)
    return web.TCPSite(runner, *host_and_port(address))


def remove_left_socket(path: str) -> None:
    """A socket that an earlier run has left is in the way; one that somebody listens at is theirs."""
    with socket.socket(socket.AF_UNIX) as tried:
        try:
            tried.connect(path)
        except OSError:
            if os.path.exists(path):
                os.remove(path)
        else:
            raise ConfigurationError(f"another program listens at {path}")


def token() -> str:
    made = secrets.token_urlsafe(32)
    return f'token: {made}\n[[tokens]]\nname = "NAME"\nsha256 = "{hashlib.sha256(made.encode()).hexdigest()}"\nmay = ["submit"]'


def main() -> None:
    if sys.argv[1:] == ["token"]:
        print(token())
        return
    if len(sys.argv) != 2:
        sys.exit(__doc__)
    os.umask(0o077)
    # Modules of the operator's own stand beside the configuration.
    sys.path.append(os.path.dirname(os.path.realpath(sys.argv[1])))
    try:
        asyncio.run(serve(read_configuration(sys.argv[1])))
    except (ConfigurationError, OSError) as error:
        sys.exit(f"sihtolemd: {error}")


if __name__ == "__main__":
    main()
