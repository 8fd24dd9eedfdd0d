"""Makes the wheel that `pip install ./python` installs: backoff.py and, beside it, the shared library.

It has no needs, so that pip fetches nothing: setuptools would have to be fetched, and its wheels need a further package.
The archive is made first where it is missing (./setup), or it is the one in the folder that BACKOFF_LIB_DIR names.
"""

from __future__ import annotations

import base64
import hashlib
import os
import re
import subprocess
import sysconfig
import zipfile
from pathlib import Path
from tempfile import TemporaryDirectory
from typing import Optional, Union

HERE = Path(__file__).resolve().parent
LIBRARY = "libbackoff.so"


def _stated(file: str, name: str) -> str:
    """What a file of this folder says of the project: a text in quotation marks, on a line of its own."""
    return re.search(rf'^{name} = "(.*)"$', (HERE / file).read_text(), re.MULTILINE)[1]


NAME = _stated("pyproject.toml", "name")
VERSION = _stated("backoff.py", "__version__")
TAG = "py3-none-" + re.sub(r"[-.]", "_", sysconfig.get_platform())
INFO = f"{NAME}-{VERSION}.dist-info"
METADATA = f"""\
Metadata-Version: 2.1
Name: {NAME}
Version: {VERSION}
Summary: {_stated("pyproject.toml", "description")}
Requires-Python: {_stated("pyproject.toml", "requires-python")}
"""
WHEEL = f"Wheel-Version: 1.0\nGenerator: backoff\nRoot-Is-Purelib: false\nTag: {TAG}\n"


def _environment() -> dict[str, str]:
    """A folder of the archive is named from where pip was called, which works in this folder."""
    environment = dict(os.environ)
    if environment.get("BACKOFF_LIB_DIR"):
        environment["BACKOFF_LIB_DIR"] = os.path.join(environment.get("PWD", ""), environment["BACKOFF_LIB_DIR"])
    return environment


def _make_library(folder: Union[str, Path]) -> Path:
    """Puts the shared library into a folder; what cannot be made ends with the words of ./setup or of make-library."""
    library = Path(folder, LIBRARY)
    for command in ([HERE.parent / "setup", "archive"], [HERE / "make-library", library]):
        if subprocess.run(command, env=_environment()).returncode:
            raise SystemExit("the shared library was not made; above stands why")
    return library


def _record(name: str, data: bytes) -> str:
    """The line that the list of the installed files has of one of them."""
    digest = base64.urlsafe_b64encode(hashlib.sha256(data).digest()).rstrip(b"=").decode()
    return f"{name},sha256={digest},{len(data)}\n"


def _write_wheel(folder: str, files: dict[str, bytes]) -> str:
    """Writes a wheel with these files, and gives its name."""
    files = {**files, f"{INFO}/METADATA": METADATA.encode(), f"{INFO}/WHEEL": WHEEL.encode()}
    records = "".join(_record(name, data) for name, data in files.items())
    files[f"{INFO}/RECORD"] = f"{records}{INFO}/RECORD,,\n".encode()
    wheel = f"{NAME}-{VERSION}-{TAG}.whl"
    with zipfile.ZipFile(os.path.join(folder, wheel), "w", zipfile.ZIP_DEFLATED) as archive:
        for name, data in files.items():
            archive.writestr(name, data)
    return wheel


def build_wheel(
    wheel_directory: str, config_settings: Optional[dict] = None, metadata_directory: Optional[str] = None
) -> str:
    """What pip calls."""
    with TemporaryDirectory() as folder:
        files = {"backoff.py": (HERE / "backoff.py").read_bytes(), LIBRARY: _make_library(folder).read_bytes()}
    return _write_wheel(wheel_directory, files)


def build_editable(
    wheel_directory: str, config_settings: Optional[dict] = None, metadata_directory: Optional[str] = None
) -> str:
    """What pip calls for `pip install --editable ./python`: this folder, with the library in it, is the one installed."""
    _make_library(HERE)
    return _write_wheel(wheel_directory, {"backoff.pth": f"{HERE}\n".encode()})
