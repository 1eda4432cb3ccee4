"""Runs processes over several transactional systems by `tps serve`. See clients/README.md."""
from .dialogue import Block
from .errors import (
    Closed,
    FilesFull,
    FilesRefused,
    FolderInUse,
    NoParticipant,
    NotReady,
    ProcessRefused,
    ProgramMissing,
    Refused,
    ScenarioRefused,
    ServeFailed,
    SihtolemError,
    Superseded,
    Unreachable,
    Unsettled,
    WorkAhead,
    WorkLost,
)
from .outbox import Outbox
from .participants import Participant, ProgramAlone, Work
from .postgres import Postgres
from .scheduler import Observer, Outcome, Scheduler
from .settling import Action, Answer, State, settle
from .sqlite import Held, Sqlite
from .statements import Statements
from .worker import Fenced, Overtaken, Service, Worker

__all__ = [
    "Action",
    "Answer",
    "Block",
    "Closed",
    "Fenced",
    "FilesFull",
    "FilesRefused",
    "FolderInUse",
    "Held",
    "NoParticipant",
    "NotReady",
    "Observer",
    "Outbox",
    "Outcome",
    "Overtaken",
    "Participant",
    "Postgres",
    "ProcessRefused",
    "ProgramAlone",
    "ProgramMissing",
    "Refused",
    "ScenarioRefused",
    "Scheduler",
    "ServeFailed",
    "SihtolemError",
    "Service",
    "Sqlite",
    "State",
    "Statements",
    "Superseded",
    "Unreachable",
    "Unsettled",
    "Work",
    "WorkAhead",
    "WorkLost",
    "Worker",
    "settle",
]
