"""The files of the program: a set of them in each of the folders files/1, files/2, .., of which the last is in use."""
import glob
import os
import shutil
import subprocess
import tempfile

from databases import TOP  # which makes the library known

from sihtolem.dialogue import Ended


class Files:
    def __init__(self, program, folder):
        self._program, self._folder = program, f"{folder}/files"
        os.makedirs(self._folder, exist_ok=True)

    @property
    def last(self):
        """The number of the set in use, 0 before there is one."""
        return max((int(name) for name in os.listdir(self._folder) if name.isdigit()), default=0)

    def folder(self, number):
        return f"{self._folder}/{number}"

    def begin(self, scenario):
        """Makes a fresh set and runs the processes of that scenario on it. It is in use once all that is done: by its new name. Where something
        killed the program on the way, it is made once more."""
        self._until_alive(lambda: self._make(scenario))

    def _make(self, scenario):
        for left in glob.glob(self.folder("next*")):
            shutil.rmtree(left, ignore_errors=True)
        made = tempfile.mkdtemp(prefix="next", dir=self._folder)
        self._call("init", made, scenario)
        self._call("run", made, scenario)
        os.rename(made, self.folder(self.last + 1))

    def show(self, number):
        """The report of a set."""
        return self._read("show", self.folder(number), "")

    def verify(self, report):
        """What is said of a report: `accepted`, or why not."""
        try:
            return self._read("verify", self._folder, report).rstrip("\n")
        except Ended as ended:
            return ended.line

    def _read(self, word, folder, text):
        return self._until_alive(lambda: self._call(word, folder, text))

    @staticmethod
    def _until_alive(do):
        """Does it again where something killed the program."""
        while True:
            try:
                return do()
            except Ended as ended:
                if ended.status >= 0:
                    raise

    def _call(self, word, folder, text):
        done = subprocess.run([self._program, word], cwd=folder, input=text, stdout=subprocess.PIPE, encoding="ascii")
        if done.returncode:
            raise Ended(done.stdout.rstrip("\n"), done.returncode)
        return done.stdout
