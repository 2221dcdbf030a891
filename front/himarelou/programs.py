"""The proved programs and yosys: where they are, and how a process is run, bounded, and stopped."""
import contextlib
import hashlib
import os
import shutil
import signal
import subprocess
import threading
import time
from collections.abc import Sequence
from dataclasses import dataclass
from functools import cache
from pathlib import Path

from himarelou.faults import Broken, Stopped

TOOLS = ("rvhyper", "rvwatch", "eahyper", "mchyper", "hycheck")


def bin_folder() -> Path:
    """The folder of the launcher that started this, which has the programs, too."""
    return Path(os.environ.get("HIMARELOU_BIN") or Path(__file__).parents[2] / "bin")


@cache
def program(name: str) -> Path:
    """The checked program: the path that `bin/where` prints, or where that is not there the program beside the launcher."""
    where, path = bin_folder() / "where", bin_folder() / name
    if where.is_file():
        said = subprocess.run([where, name], capture_output=True, text=True, stdin=subprocess.DEVNULL, check=False)
        path = Path(said.stdout.strip() or path)
        if said.returncode:
            raise Broken(said.stderr.strip())
    if not os.access(path, os.X_OK):
        raise Broken(f"{name} is not in {path.parent}")
    return path


@cache
def program_sum(name: str) -> str:
    return file_sum(program(name))


@cache
def yosys_version() -> str:
    if not shutil.which("yosys"):
        raise Broken("yosys is not installed, and a circuit is to be made of sources; on Debian: apt-get install yosys")
    return subprocess.run(["yosys", "-V"], capture_output=True, text=True, check=False).stdout.strip()


def file_sum(path: Path) -> str:
    try:
        with open(path, "rb") as file:
            return hashlib.file_digest(file, "sha256").hexdigest()
    except OSError as error:
        raise Broken(f"{path}: {error.strerror}") from error


@cache
def front_sum() -> str:
    """The sum of the front itself, so that nothing is kept that another one made."""
    return hashlib.sha256("".join(file_sum(it) for it in sorted(Path(__file__).parent.glob("*.py"))).encode()).hexdigest()


@dataclass(frozen=True)
class Ended:
    """How a process ended: its status (minus the number of a signal), or None where its time was over."""

    status: int | None
    out: bytes
    err: str
    seconds: float

    def line(self) -> str:
        """What it said in a line, or how it ended."""
        said = self.out.decode(errors="replace").strip() or self.err.strip()
        return said.split("\n")[0] or (f"ended by signal {-self.status}" if self.status and self.status < 0 else f"ended with {self.status}")


class Runner:
    """Runs processes, each in a group of its own, and ends them all at once when it is stopped."""

    def __init__(self) -> None:
        self.lock, self.running, self.is_stopped = threading.Lock(), set(), False

    def run(self, words: Sequence[str | Path], folder: Path | None = None, seconds: float | None = None) -> Ended:
        """Runs a list of words, in a folder, and no longer than so many seconds."""
        begun = time.monotonic()
        with self.lock:
            if self.is_stopped:
                raise Stopped
            try:
                process = subprocess.Popen(words, cwd=folder, stdin=subprocess.DEVNULL, stdout=subprocess.PIPE, stderr=subprocess.PIPE,
                                           start_new_session=True)
            except OSError as error:
                raise Broken(f"{words[0]}: {error.strerror}") from error
            self.running.add(process)
        try:
            printed, told = process.communicate(timeout=seconds)
            status = process.returncode
        except subprocess.TimeoutExpired:
            _end(process)
            (printed, told), status = process.communicate(), None
        with self.lock:
            self.running.discard(process)
        if self.is_stopped:
            raise Stopped
        return Ended(status, printed, told.decode(errors="replace"), time.monotonic() - begun)

    def stop(self) -> None:
        with self.lock:
            self.is_stopped = True
            for process in self.running:
                _end(process)


def _end(process: subprocess.Popen) -> None:
    with contextlib.suppress(ProcessLookupError):
        os.killpg(process.pid, signal.SIGKILL)
