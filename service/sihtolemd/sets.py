"""The sets of files: one in each of the folders 1, 2, .. of a folder, of which the last is in use. A set has room for some thousand processes."""
import glob
import logging
import os
import shutil
import subprocess
import tempfile
from collections.abc import Sequence

from sihtolem.dialogue import Ended
from sihtolem.files import sync_folder

# The process that brings values over into fresh files. `tps run` runs it, so no system has work of it.
OPENING = "opening"
NO_PROCESSES = 'processes = ""'
# A set keeps the scenario that it was made with under this name.
SCENARIO = "scenario.toml"
log = logging.getLogger("sihtolem")


class Sets:
    def __init__(self, program: str, folder: str, scenario: str, carry_over: Sequence[str]):
        self._program, self._folder, self._scenario, self._carry_over = program, folder, scenario, carry_over
        os.makedirs(folder, exist_ok=True)

    @property
    def last(self) -> int:
        """The number of the set in use, 0 before there is one."""
        return max((int(name) for name in os.listdir(self._folder) if name.isdigit()), default=0)

    def folder(self, number: int) -> str:
        return f"{self._folder}/{number}"

    def scenario(self, number: int) -> str:
        """The scenario that the set was made with, which its files go on to want."""
        try:
            with open(f"{self.folder(number)}/{SCENARIO}", encoding="ascii") as file:
                return file.read()
        except FileNotFoundError:
            return self._scenario

    def begin(self) -> int:
        """Makes a fresh set, with the values that `carry_over` prints as a process. It is in use once all that is done: by its new name."""
        for left in glob.glob(f"{self._folder}/next*"):
            shutil.rmtree(left, ignore_errors=True)
        made = tempfile.mkdtemp(prefix="next", dir=self._folder)
        self._call("init", made, self._scenario)
        if self._carry_over:
            process = subprocess.run(self._carry_over, stdout=subprocess.PIPE, encoding="ascii", check=True).stdout.strip()
            self._call("run", made, self._scenario.replace(NO_PROCESSES, f'processes = "{process}"', 1))
        with open(f"{made}/{SCENARIO}", "w", encoding="ascii") as file:
            file.write(self._scenario)
            file.flush()
            os.fsync(file.fileno())
        sync_folder(made)
        number = self.last + 1
        os.rename(made, self.folder(number))
        sync_folder(self._folder)
        return number

    def _call(self, word: str, folder: str, text: str) -> None:
        done = subprocess.run([self._program, word], cwd=folder, input=text, capture_output=True, encoding="ascii")
        for line in done.stderr.splitlines():
            log.warning("%s of fresh files: %s", word, line)
        if done.returncode:
            raise Ended(done.stdout.rstrip("\n"), done.returncode)
