"""What came of a check; all results as JSON and as JUnit; what is seen while checks run: on a terminal a line for each running one,
renewed, and a table behind all, elsewhere plain lines."""
import json
import os
import shutil
import sys
import threading
import time
import xml.etree.ElementTree as ET
from collections.abc import Sequence
from dataclasses import asdict, dataclass, field
from pathlib import Path
from typing import TextIO

from himarelou.faults import shown

AS_EXPECTED, OTHERWISE, OPEN, FAULT = "as expected", "not as expected", "open", "fault"
STATUS = {FAULT: 2, OTHERWISE: 1, OPEN: 4, AS_EXPECTED: 0}
ELEMENTS = {OTHERWISE: "failure", FAULT: "error", OPEN: "skipped"}
COLOURS = {AS_EXPECTED: "32", OTHERWISE: "31", OPEN: "33", FAULT: "31"}
HEAD = ("check", "answer", "", "seconds", "by")
IS_MET, VACUOUS, UNKNOWN = "met", "vacuous", "unknown"


@dataclass
class Asked:
    """The verdict, or OPEN; the stage that gave it; the last line of each stage that did not, and their seconds; what carries
    the verdict."""

    answer: str = OPEN
    stage: str = ""
    lines: list[str] = field(default_factory=list)
    spent: float = 0
    evidence: str = ""
    is_kept: bool = False


@dataclass(kw_only=True)
class Result(Asked):
    """What came of a check: the answer may be FAULT, too, with the line of the fault."""

    name: str
    kind: str
    expect: str
    seconds: float = 0
    vacuity: str = ""
    notes: list[str] = field(default_factory=list)
    files: dict[str, str] = field(default_factory=dict)

    def take(self, asked: Asked) -> None:
        """Takes over what was answered."""
        vars(self).update(vars(asked))

    @property
    def outcome(self) -> str:
        if self.answer in (OPEN, FAULT):
            return self.answer
        return AS_EXPECTED if self.answer == self.expect and self.vacuity != VACUOUS else OTHERWISE

    @property
    def by(self) -> str:
        """What gave the answer."""
        parts = "kept" * self.is_kept, self.stage, self.evidence, f"premise {self.vacuity}" * bool(self.vacuity)
        return "".join(f"; {it}" for it in parts if it)


def status_of(results: Sequence[Result]) -> int:
    """The status of all: a fault outweighs what is not as expected, and that outweighs open."""
    return next((status for outcome, status in STATUS.items() if any(it.outcome == outcome for it in results)), 0)


def as_json(project: Path, results: Sequence[Result], status: int) -> bytes:
    value = {"project": str(project), "status": status, "checks": [asdict(it) | {"outcome": it.outcome} for it in results]}
    return json.dumps(value, indent=1, ensure_ascii=True).encode() + b"\n"


def as_junit(project: Path, results: Sequence[Result]) -> bytes:
    counts = {name: sum(ELEMENTS.get(it.outcome) == name for it in results) for name in ELEMENTS.values()}
    suite = ET.Element("testsuite", name=shown(str(project)), tests=str(len(results)), failures=str(counts["failure"]),
                       errors=str(counts["error"]), skipped=str(counts["skipped"]),
                       time=f"{sum(it.seconds for it in results):.2f}")
    for result in results:
        case = ET.SubElement(suite, "testcase", classname=result.kind, name=result.name, time=f"{result.seconds:.2f}")
        told = [f"{result.answer}, expected {result.expect}", *result.lines, *result.notes, result.evidence]
        text = "\n".join(shown(it) for it in told if it)
        if result.outcome in ELEMENTS:
            ET.SubElement(case, ELEMENTS[result.outcome], message=text.split("\n")[0]).text = text
        else:
            ET.SubElement(case, "system-out").text = text
    ET.indent(suite)
    return ET.tostring(suite, encoding="utf-8", xml_declaration=True) + b"\n"


class Screen:
    def __init__(self, stream: TextIO = sys.stdout):
        self.stream, self.lock = stream, threading.Lock()
        self.is_terminal = stream.isatty() and os.environ.get("TERM") != "dumb"
        self.has_colour = self.is_terminal and not os.environ.get("NO_COLOR")
        self.running: dict[str, tuple[str, float]] = {}
        self.drawn = 0
        self.is_over = threading.Event()
        if self.is_terminal:
            threading.Thread(target=self._renew, daemon=True).start()

    def stage(self, name: str, stage: str) -> None:
        with self.lock:
            begun = self.running.get(name, ("", time.monotonic()))[1]
            self.running[name] = stage, begun
            if not self.is_terminal:
                self._line(f"{name}: {stage} ..")

    def ended(self, result: Result) -> None:
        said = result.answer if result.answer == result.outcome else f"{result.answer}, {result.outcome}"
        notes = result.notes if result.outcome != AS_EXPECTED or not self.is_terminal else []
        with self.lock:
            self.running.pop(result.name, None)
            self._wipe()
            self._line(f"{result.name}: ", said, result.outcome, f", {result.seconds:g} s{result.by}")
            for it in [*notes, *(result.lines if result.outcome in (OPEN, FAULT) else [])]:
                self._line(f"    {it}")

    def close(self, results: list[Result]) -> None:
        """The closing table on a terminal, and how many came to what."""
        self.is_over.set()
        with self.lock:
            self._wipe()
            if self.is_terminal:
                self._table(results)
            counts = {it: sum(result.outcome == it for result in results) for it in COLOURS}
            self._line(f"{len(results)} checks: " + ", ".join(f"{count} {it}" for it, count in counts.items() if count))

    def _table(self, results: list[Result]) -> None:
        rows = [HEAD, *((it.name, it.answer, it.outcome, f"{it.seconds:g}", it.by[2:]) for it in results)]
        widths = [max(map(len, column)) for column in zip(*rows)]
        for row in rows:
            name, answer, outcome, seconds, carried = (cell.ljust(width) for cell, width in zip(row, widths))
            self._line(f"{name}  {answer}  ", outcome, row[2], f"  {seconds}  {carried.rstrip()}")

    def _line(self, before: str, said: str = "", outcome: str = "", behind: str = "") -> None:
        """A line, of which one part has the colour of an outcome."""
        begin, end = (f"\x1b[{COLOURS[outcome]}m", "\x1b[0m") if self.has_colour and outcome else ("", "")
        print(f"{shown(before)}{begin}{shown(said)}{end}{shown(behind)}".rstrip(), file=self.stream, flush=True)

    def _wipe(self) -> None:
        if self.drawn:
            self.stream.write(f"\x1b[{self.drawn}A\x1b[J")
            self.drawn = 0

    def _renew(self) -> None:
        while not self.is_over.wait(0.2):
            with self.lock:
                self._wipe()
                width, height = shutil.get_terminal_size()
                rows = list(self.running.items())[:max(1, height - 2)]
                for name, (stage, begun) in rows:
                    self.stream.write(shown(f"{name}: {stage}, {time.monotonic() - begun:.0f} s")[:width - 1] + "\n")
                self.drawn = len(rows)
                self.stream.flush()
