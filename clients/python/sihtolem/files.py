"""The nine files of a folder: making them, and copying them."""
import os
import shutil
import subprocess
import tempfile

from .dialogue import Ended
from .errors import ProgramMissing

NAMES = tuple(f"tps.{number}" for number in range(9))


def make_files(program: str, folder: str, scenario: str) -> None:
    """Makes the files where the folder has none. They are made beside it and come under its name at once, so a stop leaves no part of them."""
    if any(os.path.exists(os.path.join(folder, name)) for name in NAMES):
        return
    folder = os.path.realpath(folder)
    os.makedirs(folder, exist_ok=True)
    made = tempfile.mkdtemp(prefix=f"{os.path.basename(folder)}.new.", dir=os.path.dirname(folder))
    try:
        try:
            done = subprocess.run([program, "init"], cwd=made, input=scenario, stdout=subprocess.PIPE, encoding="ascii")
        except FileNotFoundError as error:
            raise ProgramMissing(f"{error.filename} is not there") from None
        if done.returncode:
            raise Ended(done.stdout.rstrip("\n"), done.returncode)
        try:
            os.rename(made, folder)
        except OSError:
            # The folder isn't empty: something else of the user's stands there. File 0 comes last, since it makes the files whole.
            for name in reversed(NAMES):
                os.rename(os.path.join(made, name), os.path.join(folder, name))
    finally:
        shutil.rmtree(made, ignore_errors=True)


def copy_files(source: str, target: str) -> None:
    """Copies the files into a folder that has none yet. It comes under its name once all are copied and on the disk."""
    target = os.path.realpath(target)
    if os.path.exists(target) and os.listdir(target):
        raise FileExistsError(f"{target} has files already: name a fresh folder for each backup")
    made = tempfile.mkdtemp(prefix=f"{os.path.basename(target)}.new.", dir=os.path.dirname(target))
    try:
        for name in NAMES:
            if os.path.exists(os.path.join(source, name)):
                with open(shutil.copyfile(os.path.join(source, name), os.path.join(made, name)), "rb") as file:
                    os.fsync(file.fileno())
        sync_folder(made)
        os.rename(made, target)
        sync_folder(os.path.dirname(target))
    finally:
        shutil.rmtree(made, ignore_errors=True)


def sync_folder(folder: str) -> None:
    opened = os.open(folder, os.O_RDONLY)
    try:
        os.fsync(opened)
    finally:
        os.close(opened)
