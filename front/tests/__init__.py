"""What tests share: the launcher, a folder for a project, and what is skipped where something is not installed."""
import os
import shutil
import subprocess
import sys
import tempfile
import unittest
from pathlib import Path

sys.dont_write_bytecode = True
TOP = Path(__file__).resolve().parents[2]
HIMARELOU = Path(os.environ.get("HIMARELOU", TOP / "bin" / "himarelou"))  # an installed one may be named
os.environ.setdefault("HIMARELOU_BIN", str(HIMARELOU.parent))



def needs(program: str):
    """Skips a test, and says so, where a program is not installed."""
    if shutil.which(program):
        return lambda test: test
    print(f"front: no {program} here, so its tests are skipped", file=sys.stderr)
    return unittest.skip(f"no {program} here")


class Folder(unittest.TestCase):
    """A test with a folder of its own."""

    def setUp(self) -> None:
        room = tempfile.TemporaryDirectory(prefix="himarelou-test-")
        self.addCleanup(room.cleanup)
        self.folder = Path(room.name)

    def put(self, name: str, text: str | bytes) -> Path:
        path = self.folder / name
        path.parent.mkdir(parents=True, exist_ok=True)
        path.write_bytes(text.encode() if isinstance(text, str) else text)
        return path

    def run_front(self, *words, status: int | None = 0, **more) -> subprocess.CompletedProcess:
        environment = {**os.environ, "XDG_STATE_HOME": str(self.folder / "state"), **more.pop("environment", {})}
        done = subprocess.run([HIMARELOU, *words], cwd=more.pop("cwd", self.folder), capture_output=True, text=True,
                              stdin=subprocess.DEVNULL, env=environment, check=False, **more)
        if status is not None:
            self.assertEqual(done.returncode, status, done.stdout + done.stderr)
        return done
