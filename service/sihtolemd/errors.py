"""What a request can be answered with in place of what it asks for. Each has one name, a status, and what to do."""


class RequestError(Exception):
    name, status, advice = "", 500, ""

    def as_json(self) -> dict[str, str]:
        return {"error": self.name, "what": str(self), "advice": self.advice}


class BadJson(RequestError):
    name, status, advice = "bad_json", 400, "send one JSON object in UTF-8"


class BadField(RequestError):
    name, status, advice = "bad_field", 400, "send the fields that docs/OPERATING.md lists, each of its type"


class NotJson(RequestError):
    name, status, advice = "not_json", 415, "send Content-Type: application/json"


class BodyTooLarge(RequestError):
    name, status, advice = "body_too_large", 413, "send less; the limit is `body_bytes` of the configuration"


class BodyTooSlow(RequestError):
    name, status, advice = "body_too_slow", 408, "send the whole body at once"


class BadProcess(RequestError):
    """The text is no process, or one that can get stuck."""

    name, status, advice = "bad_process", 422, "mend the text; POST /v1/check tells of a text whether it is well-formed"


class CheckFailed(RequestError):
    """Something kills the program that checks. Nothing was accepted."""

    name, status, advice = "check_failed", 503, "submit it again; look at the memory of the machine"


class UnknownOperation(RequestError):
    name, status, advice = "unknown_operation", 422, "name operations of the scenario, each of which a worker or a participant does"


class NameTaken(RequestError):
    name, status, advice = "name_taken", 409, "a name is one process for ever: send the same text, or take another name"


class NoProcess(RequestError):
    name, status, advice = "no_process", 404, "submit it first"


class NoSuchPath(RequestError):
    name, status, advice = "no_such_path", 404, "docs/OPERATING.md lists the paths"


class WrongMethod(RequestError):
    name, status, advice = "wrong_method", 405, "docs/OPERATING.md lists the method of each path"


class NoToken(RequestError):
    name, status, advice = "no_token", 401, "send Authorization: Bearer TOKEN, with a token that the configuration lists"


class NotAllowed(RequestError):
    name, status, advice = "not_allowed", 403, "ask the operator for a token that may do this"


class WrongHost(RequestError):
    """A page of another site may have sent this by a browser on this machine."""

    name, status, advice = "wrong_host", 421, "call the service by localhost or its address, or list the name under `hosts`"


class TooManyRequests(RequestError):
    name, status, advice = "too_many_requests", 429, "wait a second and send fewer; the limit is `requests_per_second`"


class TooManyStreams(RequestError):
    name, status, advice = "too_many_streams", 503, "close event streams or long polls that nobody reads"


class QueueFull(RequestError):
    name, status, advice = "queue_full", 503, "submit it again later; the limit is `queued`"


class NotOpen(RequestError):
    name, status, advice = "not_open", 503, "ask again soon; GET /ready tells what the service waits for"


class StorageFailed(RequestError):
    """Nothing was accepted."""

    name, status, advice = "storage_failed", 503, "make room on the disk of the service's folder, and submit it again"


class LeaseEnded(RequestError):
    """Somebody else may do this work by now."""

    name, status, advice = "lease_ended", 409, "drop this work: it is handed out again under its name"


class NotRefusable(RequestError):
    name, status, advice = "not_refusable", 409, "what was prepared has to be committed, or taken back: try again until it goes through"


class InternalError(RequestError):
    name, status, advice = "internal_error", 500, "look at the log of the service"


class ConfigurationError(Exception):
    """The configuration has no form, or would be unsafe. The service doesn't start."""
