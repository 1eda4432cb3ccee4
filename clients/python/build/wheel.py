"""Makes the wheel for pip (PEP 517): the package's files, and what pyproject.toml tells of it."""
import base64
import hashlib
import os
import tarfile
import tomllib
import zipfile

with open("pyproject.toml", "rb") as file:
    PROJECT = tomllib.load(file)["project"]
NAME, VERSION = PROJECT["name"], PROJECT["version"]
INFO = f"{NAME}-{VERSION}.dist-info"
METADATA = (
    f"Metadata-Version: 2.1\nName: {NAME}\nVersion: {VERSION}\nSummary: {PROJECT['description']}\nRequires-Python: {PROJECT['requires-python']}\n"
)


def contents():
    found = {}
    for name in sorted(os.listdir(NAME)):
        if name.endswith((".py", ".typed")):
            with open(f"{NAME}/{name}", "rb") as file:
                found[f"{NAME}/{name}"] = file.read()
    found[f"{INFO}/METADATA"] = METADATA.encode()
    found[f"{INFO}/WHEEL"] = b"Wheel-Version: 1.0\nGenerator: sihtolem\nRoot-Is-Purelib: true\nTag: py3-none-any\n"
    return found


def build_wheel(folder, config_settings=None, metadata_directory=None):
    name, record = f"{NAME}-{VERSION}-py3-none-any.whl", ""
    with zipfile.ZipFile(f"{folder}/{name}", "w", zipfile.ZIP_DEFLATED) as wheel:
        for path, text in contents().items():
            wheel.writestr(path, text)
            digest = base64.urlsafe_b64encode(hashlib.sha256(text).digest()).rstrip(b"=").decode()
            record += f"{path},sha256={digest},{len(text)}\n"
        wheel.writestr(f"{INFO}/RECORD", f"{record}{INFO}/RECORD,,\n")
    return name


def build_sdist(folder, config_settings=None):
    name = f"{NAME}-{VERSION}"
    with tarfile.open(f"{folder}/{name}.tar.gz", "w:gz") as file:
        for path in ("pyproject.toml", "build", NAME):
            file.add(path, f"{name}/{path}", filter=lambda it: None if "__pycache__" in it.name else it)
    return f"{name}.tar.gz"
