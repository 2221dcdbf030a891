"""What a check and a monitor share: a folder, a tool asked stage by stage, evidence given to `hycheck`, answers that are kept."""
import os
import time
from collections.abc import Callable, Sequence
from dataclasses import asdict, dataclass
from pathlib import Path

from himarelou.aiger import read_bytes
from himarelou.design import Circuits
from himarelou.faults import Fault, shown
from himarelou.formula import Formula, Text, parse
from himarelou.names import Names
from himarelou.programs import file_sum, front_sum, program, program_sum
from himarelou.result import FAULT, OPEN, Asked, Result
from himarelou.schema import Question, Stage
from himarelou.store import replaced, sum_of

VERDICTS = ("holds with strategy", "holds", "violated", "strategy fails", "no violation", "violation")
OPEN_STATUS = (4, 5, 6)
ACCEPTED = "accepted by hycheck"
NO_CERTIFICATE = "no certificate exists; {}, which is proved, carries it"


@dataclass(frozen=True)
class Files:
    """What a tool is given, two files and maybe a strategy, and where its answer goes."""

    tool: str
    first: Path
    second: Path
    answer: Path
    strategy: Path | None = None

    def words(self) -> list[str]:
        """What stands behind the words of a stage."""
        extra = [] if self.tool != "mchyper" else ["--strategy", os.path.abspath(self.strategy)] if self.strategy else ["--proof"]
        return [*extra, os.path.abspath(self.first), os.path.abspath(self.second)]


class Task:
    """One question of a project; `work_on` fills its result; `show_stage` is told the name of the question and what is done."""

    def __init__(self, circuits: Circuits, question: Question, show_stage: Callable[[str, str], None]):
        self.circuits, self.question, self.show_stage = circuits, question, show_stage
        self.result = Result(name=question.name, kind=question.kind, expect=question.expect)
        self.room = circuits.store.room("checks", question.name)

    def work_on(self) -> None:
        raise NotImplementedError

    def run(self) -> Result:
        """The result; a fault is one."""
        begun = time.monotonic()
        try:
            self.work_on()
        except (Fault, OSError) as fault:
            self.result.answer, self.result.lines = FAULT, [shown(str(fault))]
        self.result.seconds = round(time.monotonic() - begun, 2)
        return self.result

    def tell(self, stage: str) -> None:
        self.show_stage(self.question.name, stage)

    def fault(self, fault: Fault | str, key: str) -> Fault:
        return self.circuits.project.fault(str(fault), *self.question.where, key)

    def write(self, name: str, data: bytes | str) -> Path:
        replaced(self.room / name, data if isinstance(data, bytes) else data.encode("utf-8", "surrogateescape"))
        return self.room / name

    def formulas(self, key: str, names: Names | None) -> list[Formula]:
        """The formulas of a key, `file` being that of a file."""
        said = getattr(self.question, key)
        source = text_of(self.circuits.project.folder / said) if key == "file" else Text(key, said)
        try:
            return parse(source, names)
        except Fault as fault:
            raise self.fault(fault, key) from fault

    def decided(self, files: Files, stages: Sequence[Stage], budget: float) -> Asked:
        """The answer that is kept, its evidence checked again, or one that is found now, by the stages that are left where a
        call was stopped. What was open is kept for no larger budget."""
        sums = [file_sum(it) for it in (files.first, files.second, files.strategy) if it]
        key = sum_of(sums, [it.words for it in stages], program_sum(files.tool), program_sum("hycheck"), front_sum())
        record = files.answer.with_suffix(".json")
        asked = Asked()
        kept = self.circuits.store.recorded(record)
        if kept and kept["key"] == key and files.answer.is_file() and (kept["asked"]["answer"] != OPEN or budget <= kept["budget"]):
            asked = Asked(**kept["asked"])
        asked.is_kept = asked.answer != OPEN or len(asked.lines) == len(stages)
        while asked.answer == OPEN and len(asked.lines) < len(stages):
            self.ask(asked, files, stages[len(asked.lines)], budget - asked.spent)
            self.circuits.store.record(record, {"key": key, "budget": budget, "asked": asdict(asked)})
        if asked.answer != OPEN:
            asked.evidence = self.evidence(files)
        return asked

    def ask(self, asked: Asked, files: Files, stage: Stage, left: float) -> None:
        """One stage: its verdict, or a line on what it came to."""
        if left <= 0:
            asked.lines.append(f"{stage}: not begun, since the budget is spent")
            return
        self.tell(str(stage))
        seconds = min(stage.seconds, left)
        ended = self.circuits.runner.run([program(files.tool), *stage.words, *files.words()], seconds=seconds)
        replaced(files.answer, ended.out)
        asked.spent = round(asked.spent + ended.seconds, 2)
        line = ended.line()
        verdict = next((it for it in VERDICTS if f"{line} ".startswith(f"{it} ")), OPEN) if ended.status in (0, 1) else OPEN
        if verdict != OPEN:
            asked.answer, asked.stage = verdict, str(stage)
        elif ended.status is None or ended.status in OPEN_STATUS:
            asked.lines.append(f"{stage}: " + (f"nothing in {seconds:.3g} s" if ended.status is None else shown(line)))
        else:
            raise Fault(f"{files.tool} {stage}: {shown(line)}")

    def evidence(self, files: Files) -> str:
        """What carries a verdict: evidence that the checker accepts, where there is any."""
        if files.strategy or files.tool != "mchyper":
            return NO_CERTIFICATE.format(files.tool)
        self.tell("hycheck")
        given = map(os.path.abspath, (files.first, files.second, files.answer))
        ended = self.circuits.runner.run([program("hycheck"), "mc", *given])
        if ended.status != 0:
            raise Fault(f"hycheck: {shown(ended.line())}: {files.answer} does not show what it says")
        return ACCEPTED


def text_of(path: Path) -> Text:
    """The text of a file."""
    return Text(str(path), read_bytes(path).decode("utf-8", "surrogateescape"))
