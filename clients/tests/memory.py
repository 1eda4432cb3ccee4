"""A system in memory, that plays what a table says."""
import threading

from sihtolem import Refused, State, Unreachable

NEXT = {State.PREPARED: State.COMMITTED, State.UNDO_PREPARED: State.UNDONE}
BEFORE = {State.PREPARED: State.ABSENT, State.UNDO_PREPARED: State.COMMITTED}


class Memory:
    """Outcomes stand in the tables by `PROCESS.STEP`, one a call; where there is none the call goes well."""

    def __init__(self, operations, prepares=None, commits=None):
        self.operations, self.lock = operations, threading.Lock()
        self.prepares, self.commits = prepares or {}, commits or {}
        self.states, self.begun, self.calls = {}, 0, 0
        self.on_call = lambda count: None

    def begin(self, mark):
        self.begun += 1

    def found(self, mark):
        with self.lock:
            return {place: state for place, state in self.states.items() if state is not State.ABSENT}

    def prepare(self, work):
        with self.lock:
            self.calls += 1
            self.on_call(self.calls)
            self.play(self.prepares, work)
            state = self.states.get(work.place, State.ABSENT)
            if work.undo:
                assert state in (State.COMMITTED, State.UNDO_PREPARED), (work, state)
                self.states[work.place] = State.UNDO_PREPARED
            else:
                assert state in (State.ABSENT, State.PREPARED), (work, state)
                self.states[work.place] = State.PREPARED

    def commit(self, work):
        with self.lock:
            self.play(self.commits, work)
            state = self.states[work.place]
            assert state in NEXT, (work, state)
            self.states[work.place] = NEXT[state]

    def take_back(self, work):
        with self.lock:
            state = self.states.get(work.place, State.ABSENT)
            self.states[work.place] = BEFORE.get(state, state)

    def close(self):
        pass

    @staticmethod
    def play(table, work):
        step = f"{work.process}.{work.place.partition('.')[2]}" + (" undo" if work.undo else "")
        outcome = table[step].pop(0) if table.get(step) else ""
        if outcome == "refused":
            raise Refused("played")
        if outcome == "unreachable":
            raise Unreachable("played")
        if outcome == "error":
            raise KeyError("played")
