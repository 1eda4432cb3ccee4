"""The paths of the service. docs/OPERATING.md lists them, with what each wants and answers."""
import asyncio
import json
import os
import traceback
from collections.abc import Awaitable, Callable
from typing import Any

from aiohttp import web

from .configuration import Configuration
from .desk import told
from .errors import BadField, InternalError, NoSuchPath, NotOpen, RequestError, TooManyStreams, WrongMethod
from .guard import Guard, body_of, field_of
from .service import Service

WINDOW = os.path.join(os.path.dirname(os.path.realpath(__file__)), "window")
# Nothing of the page comes from elsewhere, and no other page may frame it.
HEADERS = {
    "Content-Security-Policy": "default-src 'self'; img-src 'self' data:; frame-ancestors 'none'; base-uri 'none'; form-action 'none'",
    "X-Content-Type-Options": "nosniff",
    "Referrer-Policy": "no-referrer",
    "Cache-Control": "no-store",
}
ENDED_TOLD = 100
LONGEST_POLL = 60.0
SECONDS_BETWEEN_SIGNS = 15.0
Handler = Callable[[web.Request], Awaitable[web.StreamResponse]]


class Paths:
    def __init__(self, configuration: Configuration, service: Service):
        self._configuration, self._service, self._guard, self._streams = configuration, service, Guard(configuration), 0

    def application(self) -> web.Application:
        made = web.Application(middlewares=[self._answered], client_max_size=self._configuration.limits.body_bytes)
        made.router.add_get("/", self._window("index.html", "text/html"))
        made.router.add_get("/window.js", self._window("window.js", "text/javascript"))
        made.router.add_get("/window.css", self._window("window.css", "text/css"))
        made.router.add_get("/ready", self._ready)
        for method, path, permission, handler in (
            ("GET", "/metrics", "read", self._metrics),
            ("GET", "/v1/processes", "read", self._processes),
            ("GET", "/v1/processes/{name}", "read", self._process),
            ("GET", "/v1/events", "read", self._events),
            ("POST", "/v1/check", "read", self._check),
            ("POST", "/v1/processes", "submit", self._submit),
            ("POST", "/v1/processes/{name}/abort", "abort", self._abort),
            ("POST", "/v1/work", "work", self._take),
            ("POST", "/v1/work/{lease:[0-9]{1,18}}/done", "work", self._done),
            ("POST", "/v1/work/{lease:[0-9]{1,18}}/refused", "work", self._refused),
            ("POST", "/v1/work/{lease:[0-9]{1,18}}/heartbeat", "work", self._heartbeat),
        ):
            made.router.add_route(method, path, self._guarded(permission, handler))
        return made

    @web.middleware
    async def _answered(self, request: web.Request, handler: Handler) -> web.StreamResponse:
        """Each fault is one named answer, whose connection isn't used again where its body wasn't read."""
        try:
            answer = await handler(request)
        except RequestError as error:
            answer = refusal(error)
        except web.HTTPNotFound:
            answer = refusal(NoSuchPath(request.path))
        except web.HTTPMethodNotAllowed:
            answer = refusal(WrongMethod(f"{request.method} {request.path}"))
        except Exception:
            self._service.events.publish("internal_error", path=request.path, what=traceback.format_exc())
            answer = refusal(InternalError("this is a fault of the service"))
        if not answer.prepared:
            answer.headers.update(HEADERS)
            if not request.content.at_eof():
                answer.force_close()
        self._service.metrics.count(self._service.metrics.requests, str(answer.status))
        return answer

    def _guarded(self, permission: str, handler: Handler) -> Handler:
        async def guarded(request: web.Request) -> web.StreamResponse:
            self._guard.admit(request, permission)
            return await handler(request)

        return guarded

    # What is read.

    def _window(self, name: str, kind: str) -> Handler:
        async def window(request: web.Request) -> web.StreamResponse:
            with open(f"{WINDOW}/{name}", encoding="utf-8") as file:
                return web.Response(text=file.read(), content_type=kind, charset="utf-8")

        return window

    async def _ready(self, request: web.Request) -> web.StreamResponse:
        if not self._service.runner.is_open:
            raise NotOpen(f"the service waits for {self._service.runner.waits_for}")
        return web.json_response({"open": True})

    async def _metrics(self, request: web.Request) -> web.StreamResponse:
        text = self._service.metrics.text(*self._service.gauges())
        return web.Response(text=text, headers={"Content-Type": "text/plain; version=0.0.4; charset=utf-8"})

    async def _processes(self, request: web.Request) -> web.StreamResponse:
        """The events behind `event` are what has happened since."""
        service = self._service
        number = service.events.last
        queued, active = service.tracker.queued(), service.tracker.active()
        told: dict[str, Any] = {"event": number, "open": service.runner.is_open, "waits_for": None if service.runner.is_open else service.runner.waits_for}
        told |= {"active": active, "queued": queued[:ENDED_TOLD], "queued_count": len(queued), "ended": service.last_ended(ENDED_TOLD)}
        return web.json_response(told)

    async def _process(self, request: web.Request) -> web.StreamResponse:
        return web.json_response(self._service.process(request.match_info["name"]))

    async def _events(self, request: web.Request) -> web.StreamResponse:
        """Server-sent events behind `after` or Last-Event-ID. Where some of those aren't kept any more it begins with `lost`."""
        after = request.headers.get("Last-Event-ID") or request.query.get("after") or str(self._service.events.last)
        if not after.isascii() or not after.isdigit() or len(after) > 18:
            raise BadField("`after` is no number of an event")
        if self._streams >= self._configuration.limits.streams:
            raise TooManyStreams(f"{self._streams} event streams are open")
        answer = web.StreamResponse(headers={"Content-Type": "text/event-stream", **HEADERS})
        self._streams += 1
        wake = self._service.events.follow()
        try:
            await answer.prepare(request)
            await self._send_events(answer, wake, int(after))
        except (ConnectionError, asyncio.CancelledError):
            pass
        finally:
            self._service.events.leave(wake)
            self._streams -= 1
        return answer

    async def _send_events(self, answer: web.StreamResponse, wake: asyncio.Event, last: int) -> None:
        while not self._service.runner.is_stopping:
            wake.clear()
            found = self._service.events.after(last)
            if found is None:
                last = self._service.events.last
                found = [{"id": last, "event": "lost"}]
            text = "".join(f"id: {event['id']}\ndata: {json.dumps(event)}\n\n" for event in found)
            await answer.write((text or ": here\n\n").encode())
            last = found[-1]["id"] if found else last
            try:
                await asyncio.wait_for(wake.wait(), SECONDS_BETWEEN_SIGNS)
            except asyncio.TimeoutError:
                pass

    # What is asked for.

    async def _check(self, request: web.Request) -> web.StreamResponse:
        body = await body_of(request, self._configuration)
        said, hints = await self._service.check(field_of(body, "text", str))
        is_well_formed = bool(said) and all(line.endswith(": well-formed") for line in said)
        return web.json_response({"is_well_formed": is_well_formed, "said": said, "hints": hints})

    async def _submit(self, request: web.Request) -> web.StreamResponse:
        body = await body_of(request, self._configuration)
        process, is_new = await self._service.submit(field_of(body, "process", str))
        return web.json_response(process, status=201 if is_new else 200)

    async def _abort(self, request: web.Request) -> web.StreamResponse:
        return web.json_response(await self._service.abort(request.match_info["name"]))

    async def _take(self, request: web.Request) -> web.StreamResponse:
        body = await body_of(request, self._configuration)
        operations = field_of(body, "operations", list)
        if not all(isinstance(operation, str) for operation in operations):
            raise BadField("`operations` is a list of names")
        if self._service.desk.polls >= self._configuration.limits.polls:
            raise TooManyStreams(f"{self._service.desk.polls} workers wait for work")
        wait = min(max(field_of(body, "wait", float, 20.0), 0.0), LONGEST_POLL)
        lease = await self._service.desk.take(field_of(body, "worker", str), set(operations), wait, lambda: is_there(request))
        if lease is None:
            return web.Response(status=204)
        return web.json_response({**told(lease), "seconds": self._service.desk.seconds})

    async def _done(self, request: web.Request) -> web.StreamResponse:
        self._service.desk.done(int(request.match_info["lease"]))
        return web.json_response({})

    async def _refused(self, request: web.Request) -> web.StreamResponse:
        body = await body_of(request, self._configuration)
        self._service.desk.refused(int(request.match_info["lease"]), field_of(body, "reason", str)[:200])
        return web.json_response({})

    async def _heartbeat(self, request: web.Request) -> web.StreamResponse:
        self._service.desk.beat(int(request.match_info["lease"]))
        return web.json_response({"seconds": self._service.desk.seconds})


def is_there(request: web.Request) -> bool:
    """Whether who asks has not closed the connection."""
    return request.transport is not None and not request.transport.is_closing()


def refusal(error: RequestError) -> web.Response:
    headers: dict[str, Any] = {"Retry-After": "1"} if error.status in (429, 503) else {}
    if error.status == 401:
        headers["WWW-Authenticate"] = "Bearer"
    return web.json_response(error.as_json(), status=error.status, headers=headers)
