"""The configuration file of the service, in TOML. docs/OPERATING.md describes each entry."""
import dataclasses
import ipaddress
import os
import re
import tomllib
import typing
from dataclasses import dataclass, field
from typing import Any

from .errors import ConfigurationError

PERMISSIONS = ("read", "submit", "work", "abort")


@dataclass(frozen=True)
class Token:
    """Who has the token whose SHA-256 this is, and what they may do."""

    name: str
    sha256: str
    may: tuple[str, ...]


@dataclass(frozen=True)
class Limits:
    body_bytes: int = 131_072
    body_seconds: float = 10.0
    requests_per_second: float = 500.0
    burst: float = 1000.0
    queued: int = 100_000
    streams: int = 64
    polls: int = 1024


@dataclass(frozen=True)
class Configuration:
    """Paths are absolute. `listen` has `HOST:PORT` or `unix:PATH`."""

    folder: str
    scenario: str
    listen: tuple[str, ...] = ("127.0.0.1:8470",)
    program: str = field(default_factory=lambda: os.environ.get("PROGRAM", "tps"))
    worker_operations: tuple[str, ...] = ()
    participants: tuple[str, ...] = ()
    carry_over: tuple[str, ...] = ()
    mark: str = ""
    processes_in_files: int = 4000
    most_active: int = 64
    lease_seconds: float = 30.0
    unclaimed_seconds: float = 5.0
    patience_seconds: float = 60.0
    hosts: tuple[str, ...] = ()
    limits: Limits = field(default_factory=Limits)
    tokens: tuple[Token, ...] = ()

    @property
    def is_local(self) -> bool:
        """Whether only this machine can reach the service."""
        return all(is_local(address) for address in self.listen)


def host_and_port(address: str) -> tuple[str, int]:
    host, colon, port = address.rpartition(":")
    if not colon or not port.isdigit() or int(port) > 65535:
        raise ConfigurationError(f"`listen` has {address!r}, which is neither HOST:PORT nor unix:PATH")
    return host.strip("[]"), int(port)


def is_local(address: str) -> bool:
    if address.startswith("unix:"):
        return True
    host, _ = host_and_port(address)
    try:
        return ipaddress.ip_address(host).is_loopback
    except ValueError:
        return host == "localhost"


def read_configuration(path: str) -> Configuration:
    try:
        with open(path, "rb") as file:
            told = tomllib.load(file)
    except (OSError, tomllib.TOMLDecodeError, UnicodeDecodeError) as error:
        raise ConfigurationError(f"{path}: {error}") from None
    base = os.path.dirname(os.path.realpath(path))
    tokens = tuple(_made(Token, row, "tokens") for row in told.pop("tokens", []))
    limits = _made(Limits, told.pop("limits", {}), "limits")
    made = _made(Configuration, {**told, "tokens": tokens, "limits": limits}, "the top")
    return checked(_with_paths(made, base))


def checked(made: Configuration) -> Configuration:
    for token in made.tokens:
        if len(token.sha256) != 64 or not set(token.sha256) <= set("0123456789abcdef"):
            raise ConfigurationError(f"token {token.name!r}: `sha256` is no SHA-256 in hexadecimal; `sihtolemd token` makes one")
        unknown = set(token.may) - set(PERMISSIONS)
        if unknown:
            raise ConfigurationError(f"token {token.name!r} may {sorted(unknown)}; there is {', '.join(PERMISSIONS)}")
    if not made.is_local and not made.tokens:
        raise ConfigurationError("nothing listens beyond this machine without a token: list `tokens`, or listen on 127.0.0.1")
    if not re.fullmatch(r"[a-z0-9_]{0,32}", made.mark):
        raise ConfigurationError("`mark` has up to 32 of a-z, 0-9 and _")
    if not 1 <= made.most_active <= 256 or made.processes_in_files < 1 or made.lease_seconds <= 0:
        raise ConfigurationError("`most_active` is from 1 to 256; `processes_in_files` and `lease_seconds` are above 0")
    return made


def _with_paths(made: Configuration, base: str) -> Configuration:
    """Relative paths begin at the folder of the file. A program without a slash is looked for on the path."""

    def program_at(path: str) -> str:
        return os.path.join(base, path) if "/" in path else path

    carry_over = (program_at(made.carry_over[0]), *made.carry_over[1:]) if made.carry_over else ()
    folder, scenario = os.path.join(base, made.folder), os.path.join(base, made.scenario)
    return dataclasses.replace(made, folder=folder, scenario=scenario, program=program_at(made.program), carry_over=carry_over)


def _made(kind: Any, told: dict[str, Any], where: str) -> Any:
    """The entries as a `kind`, each of the type of its default."""
    known = {it.name: it for it in dataclasses.fields(kind)}
    for name, value in told.items():
        if name not in known:
            raise ConfigurationError(f"{where} has no entry `{name}`; there is {', '.join(known)}")
        if typing.get_origin(known[name].type) is tuple:
            if not isinstance(value, (list, tuple)) or name != "tokens" and not all(isinstance(it, str) for it in value):
                raise ConfigurationError(f"`{name}` of {where} is a list of texts")
            told = {**told, name: tuple(value)}
        elif known[name].type is str and not isinstance(value, str):
            raise ConfigurationError(f"`{name}` of {where} is text")
        elif known[name].type in (int, float) and (isinstance(value, bool) or not isinstance(value, (int, float))):
            raise ConfigurationError(f"`{name}` of {where} is a number")
    for name, entry in known.items():
        if name not in told and entry.default is dataclasses.MISSING and entry.default_factory is dataclasses.MISSING:
            raise ConfigurationError(f"{where} lacks the entry `{name}`")
    return kind(**told)
