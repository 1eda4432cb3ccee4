"""Who may do what, how much, and how fast."""
import asyncio
import hashlib
import hmac
import json
import time
from typing import Any

from aiohttp import web

from .configuration import Configuration, Token
from .errors import BadField, BadJson, BodyTooLarge, BodyTooSlow, NotAllowed, NotJson, NoToken, TooManyRequests, WrongHost


class Bucket:
    """Lets so many through a second, and a burst at first."""

    def __init__(self, rate: float, burst: float):
        self._rate, self._burst, self._left, self._at = rate, burst, burst, time.monotonic()

    def take(self) -> bool:
        now = time.monotonic()
        self._left, self._at = min(self._burst, self._left + (now - self._at) * self._rate), now
        if self._left < 1:
            return False
        self._left -= 1
        return True


class Guard:
    def __init__(self, configuration: Configuration):
        self._configuration, self._buckets = configuration, dict[str, Bucket]()

    def admit(self, request: web.Request, permission: str) -> None:
        """Raises where this request may not be made, or comes too fast: each token has a rate of its own, and all without one share another. Reading
        wants a token only where the service can be reached from beyond this machine."""
        self._refuse_other_host(request)
        token = self._token_of(request)
        limits, who = self._configuration.limits, token.name if token else ""
        if not self._buckets.setdefault(who, Bucket(limits.requests_per_second, limits.burst)).take():
            raise TooManyRequests(f"more than {limits.requests_per_second:g} requests a second")
        if self._configuration.tokens and (permission != "read" or not self._configuration.is_local):
            if token is None:
                raise NoToken(f"to {permission} wants a token" if "Authorization" not in request.headers else "this token isn't known")
            if permission != "read" and permission not in token.may:
                raise NotAllowed(f"{token.name} may not {permission}")
        # A page of another site can send forms and texts without asking, but no JSON.
        if request.method == "POST" and request.content_type != "application/json":
            raise NotJson(f"it is {request.content_type}")

    def _refuse_other_host(self, request: web.Request) -> None:
        """A page of another site can have its name lead to this machine, where reading wants no token. On a Unix socket no browser comes."""
        address = request.transport.get_extra_info("sockname") if request.transport else None
        if not isinstance(address, tuple) or not self._configuration.is_local:
            return
        told = request.headers.get("Host", "localhost")
        host = told.rpartition(":")[0] if told.rpartition(":")[2].isdigit() else told
        if host.strip("[]") not in ("localhost", "127.0.0.1", "::1", address[0], *self._configuration.hosts):
            raise WrongHost(f"{host} is not this service")

    def _token_of(self, request: web.Request) -> Token | None:
        kind, _, word = request.headers.get("Authorization", "").partition(" ")
        digest = hashlib.sha256(word.strip().encode()).hexdigest()
        found = [token for token in self._configuration.tokens if hmac.compare_digest(token.sha256, digest)]
        return found[0] if kind == "Bearer" and found else None


async def body_of(request: web.Request, configuration: Configuration) -> dict[str, Any]:
    """The JSON object of a request. What is too large isn't read."""
    limits = configuration.limits
    if request.content_length is not None and request.content_length > limits.body_bytes:
        raise BodyTooLarge(f"{request.content_length} bytes")
    try:
        body = await asyncio.wait_for(request.read(), limits.body_seconds)
    except web.HTTPRequestEntityTooLarge:
        raise BodyTooLarge(f"more than {limits.body_bytes} bytes") from None
    except asyncio.TimeoutError:
        raise BodyTooSlow(f"it isn't there after {limits.body_seconds:g} s") from None
    try:
        told = json.loads(body, parse_constant=refuse_constant)
        # Half of a pair of UTF-16 is no sign, though JSON can spell it.
        json.dumps(told, ensure_ascii=False).encode()
    except (ValueError, RecursionError) as error:
        raise BadJson(str(error)) from None
    if not isinstance(told, dict):
        raise BadJson("it is no object")
    return told


def refuse_constant(word: str) -> None:
    raise ValueError(f"{word} is no number of JSON")


def field_of(body: dict[str, Any], name: str, kind: type, default: Any = None) -> Any:
    value = body.get(name, default)
    if isinstance(value, bool) or not isinstance(value, (int, float) if kind is float else kind):
        raise BadField(f"`{name}` is {'missing' if name not in body else 'of another type'}; it has to be {kind.__name__}")
    return value
