"""What stays beside the project: circuits, formulas, answers, results, each renamed into place when it is whole."""
import contextlib
import hashlib
import hmac
import json
import os
import sys
import tempfile
from functools import cache
from pathlib import Path
from typing import Any

from himarelou.faults import Broken, Fault, shown

FOLDER = ".himarelou"
UMASK = os.umask(0o22)
os.umask(UMASK)


class Store:
    """The folder of results. Nothing is written through a link, and a record that was not sealed here is none."""

    def __init__(self, folder: Path):
        self.folder = folder
        self.room()
        if not (folder / ".gitignore").exists():
            replaced(folder / ".gitignore", b"*\n")

    def room(self, *names: str) -> Path:
        """A folder in the store, made where it is not there."""
        path = self.folder
        for name in ("", *names):
            path = path / name
            if path.is_symlink():
                raise Fault(f"{shown(str(path))} is a link; results are not written through one")
            try:
                path.mkdir(exist_ok=True, parents=not name)
            except OSError as error:
                raise Broken(f"{shown(str(path))}: {error.strerror}") from error
        return path

    def record(self, path: Path, value: dict[str, Any]) -> None:
        """Writes a record with a seal."""
        text = json.dumps(value, sort_keys=True)
        replaced(path, json.dumps({"seal": _seal(text), "record": value}, indent=1, sort_keys=True).encode() + b"\n")

    def recorded(self, path: Path) -> dict[str, Any] | None:
        """The record of a file, where this user sealed it."""
        try:
            value = json.loads(path.read_bytes())
            text = json.dumps(value["record"], sort_keys=True)
            return value["record"] if hmac.compare_digest(str(value["seal"]), _seal(text)) else None
        except (OSError, ValueError, KeyError, TypeError, RecursionError):
            return None


def replaced(path: Path, data: bytes) -> None:
    """Writes a file whole, or leaves it as it was."""
    try:
        handle, name = tempfile.mkstemp(prefix=".new-", dir=path.parent)
        with os.fdopen(handle, "wb") as file:
            file.write(data)
        os.chmod(name, 0o666 & ~UMASK)
        os.replace(name, path)
    except OSError as error:
        raise Broken(f"{shown(str(path))}: {error.strerror}") from error


def handed_out(path: Path, data: bytes) -> None:
    """Writes a file that the user names: as `replaced`, behind a link, too; standard output, a pipe or a device as it is."""
    if path.exists() and os.path.samestat(path.stat(), os.fstat(sys.stdout.fileno())):
        sys.stdout.flush()
        sys.stdout.buffer.write(data)
        return
    try:
        if path.exists() and not path.is_file():
            path.write_bytes(data)
        else:
            replaced(Path(os.path.realpath(path)), data)
    except OSError as error:
        raise Broken(f"{shown(str(path))}: {error.strerror}") from error


def _seal(text: str) -> str:
    return hmac.new(_key(), text.encode(), "sha256").hexdigest()


@cache
def _key() -> bytes:
    """A key of this user's own, so that results which came with a project are not believed; one of this call alone
    where there is no place for it."""
    state, home = os.environ.get("XDG_STATE_HOME", ""), os.environ.get("HOME") or "/nowhere"
    path = Path(state if state.startswith("/") else f"{home}/.local/state", "himarelou", "key")
    try:
        path.parent.mkdir(mode=0o700, parents=True, exist_ok=True)
        with tempfile.NamedTemporaryFile(dir=path.parent) as file:
            file.write(os.urandom(32))
            file.flush()
            with contextlib.suppress(FileExistsError):
                os.link(file.name, path)
        return path.read_bytes()
    except OSError:
        return os.urandom(32)


def sum_of(*parts: Any) -> str:
    """The sum of values that JSON can write."""
    return hashlib.sha256(json.dumps(parts, sort_keys=True).encode()).hexdigest()
