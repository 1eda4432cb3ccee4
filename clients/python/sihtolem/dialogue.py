"""The dialogue with `tps serve`: a line goes out, and its answer comes back. docs/DRIVERS.md has the protocol."""
import re
import subprocess
import time
from collections.abc import Callable
from dataclasses import dataclass

from .errors import ProgramMissing

FAULTS = ("disk fault", "no memory", "read fault")


# Hears each line with its answer, and the seconds from the one to the other; of lines that go out in one write, since the write.
Listener = Callable[[str, list[str], float], None]


class Ended(Exception):
    """The program has ended: its last line, or none, and its status, which is negative where a signal ended it."""

    def __init__(self, line: str, status: int):
        super().__init__(f"serve ended with {line or 'no line'}, status {status}")
        self.line, self.status = line, status


@dataclass(frozen=True)
class Piece:
    """What is handed out: the `do` or the `undo` of a step, with its operation, or the `end` of a process, without a step."""

    number: int
    work: str
    process: int
    step: str = ""
    operation: str = ""
    key: int = 0
    amount: int = 0

    @property
    def place(self) -> str:
        return f"{self.process}.{self.step}"


def read_piece(line: str) -> Piece | None:
    """The piece of a line such as `piece 4: do 2.reserve take 3 2` or `piece 9: end 2`; None if it is another line."""
    words = line.split(" ")
    if words[0] != "piece":
        return None
    process, _, step = words[3].partition(".")
    operation, key, amount = words[4:7] or ("", 0, 0)
    return Piece(int(words[1].rstrip(":")), words[2], int(process), step, operation, int(key), int(amount))


@dataclass(frozen=True)
class Block:
    """What stands against the next piece of a process: a step of another process, by a rule of docs/ADMISSION.md."""

    process: int
    step: str
    holder: int
    held: str
    rule: str


def read_block(line: str) -> Block | None:
    """The block of a line such as `blocked on 1.add by 2.take rule A3`; None if it is another line."""
    found = re.fullmatch(r"(?:blocked|wait) on (\d+)\.(\w+) by (\d+)\.(\w+) rule (\w+)", line)
    return Block(int(found[3]), found[4], int(found[1]), found[2], found[5]) if found else None


class Dialogue:
    """One run of `tps serve`. `active` has the processes, with their names, that an earlier run left."""

    def __init__(self, program: str, folder: str, scenario: str, listener: Listener = lambda line, answer, seconds: None):
        self._listener = listener
        try:
            # A signal for the driver's own group, such as that of Ctrl-C, isn't for the program.
            self._program = subprocess.Popen(
                [program, "serve"], cwd=folder, stdin=subprocess.PIPE, stdout=subprocess.PIPE, encoding="ascii", process_group=0
            )
        except FileNotFoundError as error:
            raise ProgramMissing(f"{error.filename} is not there") from None
        try:
            self._say(f"{scenario.rstrip()}\n%%\n")
            self.active = self._read_ready()
        except BaseException:
            self.close()
            raise

    @property
    def pid(self) -> int:
        return self._program.pid

    def close(self) -> None:
        """Ends the input, and waits until the program has ended."""
        assert self._program.stdin and self._program.stdout
        try:
            self._program.stdin.close()
        except OSError:
            pass
        self._program.stdout.close()
        self._program.wait()

    def ask(self, line: str) -> list[str]:
        """The lines of the answer to a line."""
        return self.ask_all([line])[0]

    def ask_all(self, lines: list[str]) -> list[list[str]]:
        """The answers to these lines, which go out in one write each 200."""
        answers = []
        for at in range(0, len(lines), 200):
            some = lines[at : at + 200]
            began = time.monotonic()
            self._say("".join(f"{line}\n" for line in some))
            for line in some:
                answers.append(self._read_answer())
                self._listener(line, answers[-1], time.monotonic() - began)
        return answers

    def _say(self, text: str) -> None:
        assert self._program.stdin and self._program.stdout
        try:
            self._program.stdin.write(text)
            self._program.stdin.flush()
        except OSError:
            rest = self._program.stdout.read().splitlines()
            raise self._ended(rest[-1] if rest else "") from None

    def _read_answer(self) -> list[str]:
        first = self._read_line()
        if first in FAULTS:
            raise self._ended(first)
        if first.startswith("lines "):
            return [self._read_line() for _ in range(int(first.split(" ")[1]))]
        return [first]

    def _read_line(self) -> str:
        assert self._program.stdout
        line = self._program.stdout.readline()
        if not line.endswith("\n"):
            raise self._ended("")
        return line[:-1]

    def _read_ready(self) -> dict[int, str]:
        first = self._read_line()
        if not first.startswith("ready "):
            raise self._ended(first)
        lines = [self._read_line().split(" ") for _ in range(int(first.split(" ")[1]))]
        return {int(number): name for how, number, name in lines if how in ("completing", "resuming")}

    def _ended(self, line: str) -> Ended:
        return Ended(line, self._program.wait())
