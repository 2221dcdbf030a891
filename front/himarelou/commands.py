"""The subcommands: their words, each with a help of its own, and what they do."""
import argparse
import contextlib
import os
import re
import shutil
import signal
import subprocess
import sys
from collections.abc import Sequence
from concurrent.futures import FIRST_COMPLETED, ThreadPoolExecutor, wait
from pathlib import Path
from typing import NoReturn, TextIO

from himarelou.aiger import bounded, read_circuit, written
from himarelou.check import Check, Monitor
from himarelou.design import Circuits, make
from himarelou.faults import Broken, Fault, Stopped, did_you_mean, shown
from himarelou.formula import Text, parse, parse_one
from himarelou.names import Names
from himarelou.picture import STEPS, scene_of, svg, vcd
from himarelou.programs import TOOLS, Runner, bin_folder, program, program_sum
from himarelou.project import Project, find, read_project
from himarelou.result import Result, Screen, as_json, as_junit, status_of
from himarelou.runs import failing_part, played, runs_with_strategy
from himarelou.schema import IDENTIFIER, Design, Question
from himarelou.store import FOLDER, Store, handed_out
from himarelou.statement import in_order_of_ports, ports_of
from himarelou.task import text_of

STOPPED = 130


def check(said: argparse.Namespace) -> int:
    is_path = bool(said.words) and (os.path.exists(said.words[0]) or said.words[0].endswith(".toml") or "/" in said.words[0])
    project = read_project(find(said.words[0] if is_path else None))
    questions = chosen(project, said.words[is_path:])
    store = Store(said.out or project.folder / FOLDER)
    screen = Screen()
    results, is_whole = run_all(Circuits(Runner(), project, store), questions, said.jobs, screen)
    screen.close(results)
    status = status_of(results) if is_whole else STOPPED
    for file, data in ((said.json, as_json(project.path, results, status)), (said.junit, as_junit(project.path, results))):
        if file:
            handed_out(file, data)
    return status


def chosen(project: Project, names: Sequence[str]) -> list[Question]:
    """The questions that are named, or all."""
    known = [it.name for it in project.questions]
    for name in names:
        if name not in known:
            raise Fault(f"{shown(str(project.path))}: no check or monitor is named {shown(name)}{did_you_mean(name, known)}")
    if not known:
        raise Fault(f"{shown(str(project.path))}: it has no check and no monitor")
    return [it for it in project.questions if not names or it.name in names]


def run_all(circuits: Circuits, questions: Sequence[Question], jobs: int, screen: Screen) -> tuple[list[Result], bool]:
    """The results in the order of the questions, and whether all of them are there."""
    results: dict[str, Result] = {}
    is_whole = True
    with ThreadPoolExecutor(max_workers=jobs) as pool:
        kinds = {"check": Check, "monitor": Monitor}
        futures = {pool.submit(lambda it: kinds[it.kind](circuits, it, screen.stage).run(), it) for it in questions}
        try:
            while futures:
                # in short turns: where another thread takes a signal, this one sees it when it next runs
                done, futures = wait(futures, timeout=0.1, return_when=FIRST_COMPLETED)
                for future in done:
                    result = future.result()
                    results[result.name] = result
                    screen.ended(result)
        except BaseException as why:
            is_whole = False
            circuits.runner.stop()
            pool.shutdown(wait=True, cancel_futures=True)
            if not isinstance(why, (KeyboardInterrupt, Stopped)):
                raise
    return [results[it.name] for it in questions if it.name in results], is_whole


def circuit(said: argparse.Namespace) -> int:
    if said.out.suffix not in (".aag", ".aig"):
        raise Fault(f"the circuit to write ends in .aag or .aig: {shown(str(said.out))}")
    if said.top and not IDENTIFIER.fullmatch(said.top):
        raise Fault(f"--top: {shown(said.top)} is no identifier")
    design = Design("circuit", sources=tuple(said.sources), top=said.top, define=tuple(_pair("-D", it, True) for it in said.define),
                    parameters=tuple(_pair("--set", it) for it in said.set), include=tuple(said.include), sv=said.sv,
                    clocks=said.clocks, memory=said.memory, start=said.start)
    made = make(Runner(), design, Path())
    tell([*made.findings, *(f"assumed: {it}" for it in made.assumptions), made.size()])
    handed_out(said.out, written(made.circuit, said.out.suffix == ".aag"))
    return 0


def _pair(option: str, word: str, other: bool | None = None) -> tuple[str, str | bool]:
    """NAME=VALUE as a pair; where the value may be left out, `other` stands for it."""
    match = re.fullmatch(r"([A-Za-z_]\w*)(?:=([\w'.+-]+))?", word, re.A)
    if not match or match[2] is None and other is None:
        raise Fault(f"{option} wants NAME=VALUE: {shown(word)}")
    return match[1], match[2] or other


def _text_of(file: str) -> Text:
    """The text of a file, of which `-` is standard input."""
    if file != "-":
        return text_of(Path(file))
    if sys.stdin is None:
        raise Broken("there is no standard input")
    try:
        return Text(file, bounded(sys.stdin.buffer, "standard input").decode("utf-8", "surrogateescape"))
    except OSError as error:
        raise Broken(f"standard input: {error.strerror}") from error


def formula(said: argparse.Namespace) -> int:
    known = read_circuit(said.circuit) if said.circuit else None
    if said.order and not known:
        raise Fault("--order wants --circuit")
    formulas = parse(_text_of(said.file), Names(known.literals) if known else None)
    text = ";\n".join(it.text() for it in formulas)
    if said.order:
        ports = [(kind, name) for kind, of in (("input", "forall"), ("output", "exists")) for name, _ in ports_of(known, formulas[0].runs(of))]
        text = "".join(f"{kind} {shown(name)}\n" for kind, name in ports)
    sys.stdout.buffer.write(text.encode("utf-8", "surrogateescape"))
    return 0


def waves(said: argparse.Namespace) -> int:
    known, answer = read_circuit(said.circuit), _text_of(said.answer).content
    asked = parse_one(text_of(said.formula), Names(known.literals)) if said.formula else None
    if said.strategy and not asked:
        raise Fault("--strategy wants --formula")
    if said.strategy:
        runs = runs_with_strategy(known, in_order_of_ports(read_circuit(said.strategy), known, asked), asked, answer, said.steps)
    else:
        runs = played(known, answer)
    found = failing_part(asked, known, runs) if asked else None
    scene = scene_of(known, runs, said.steps)
    scene.title = [" ".join(str(it) for it in (said.circuit, said.formula) if it), *([found[1]] if found else [])]
    if said.only:
        scene.only(said.only.split(","))
    sys.stdout.buffer.write((vcd(scene) if said.vcd else svg(scene)).encode("utf-8", "replace"))
    return 0


def help(said: argparse.Namespace) -> int:
    pages = [bin_folder() / place / f"{said.tool}.1" for place in ("../docs/man", "../share/man/man1")]
    page = next((it for it in pages if it.is_file()), None)
    if page is None:
        raise Broken(f"the page of {said.tool} is not there")
    if not shutil.which("man"):
        raise Broken(f"man is not installed; the page is {page}")
    return subprocess.run(["man", "-l", page], check=False).returncode


def version() -> str:
    """The version, and of each program its sum and whether it was packed or built here."""
    changes = next((it for place in ("..", "../share/doc/himarelou") if (it := bin_folder() / place / "CHANGES.md").is_file()), None)
    number = re.search(r"(?m)^## (\S+)", changes.read_text(encoding="utf-8")) if changes else None
    lines = [f"himarelou {number[1] if number else 'of no stated version'}"]
    for name in TOOLS:
        built = "built here" if "crates" in program(name).parts else "packed"
        lines.append(f"{name} {program_sum(name)} {built}")
    return "\n".join(lines)


class Parser(argparse.ArgumentParser):
    """A parser that answers in this house's form."""

    def error(self, message: str) -> NoReturn:
        self.exit(2, f"{self.prog}: {shown(message)}\n{self.format_usage()}")


def number(least: int, most: int):
    """A kind of word: a number in a range."""
    def taken(word: str) -> int:
        if not word.isdecimal() or not least <= int(word) <= most:
            raise argparse.ArgumentTypeError(f"a number from {least} to {most} is wanted")
        return int(word)

    return taken


def parser() -> Parser:
    whole = Parser(prog="himarelou", allow_abbrev=False, description="What two runs of a design must have in common, "
                   "checked by proved programs.", epilog="`himarelou COMMAND --help` says a command's words, "
                   "`himarelou help TOOL` shows the page of a tool.")
    whole.add_argument("--version", action="store_true", help="the version, and the sums of the programs")
    below = whole.add_subparsers(dest="command", metavar="COMMAND")
    for run, (about, more, words) in COMMANDS.items():
        made = below.add_parser(run.__name__, help=about, description=f"{about[0].upper()}{about[1:]}. {more}",
                                allow_abbrev=False)
        made.set_defaults(run=run)
        for names, help_of, kind in words:
            made.add_argument(*names.split(), help=help_of, **kind)
    return whole


FILE, LIST = {"type": Path, "metavar": "FILE"}, {"action": "append", "default": []}
# each command with what it does, what else is to be known of it, and its words
COMMANDS = {
    check: ("asks what a project file asks", "Status: 0 where all is as expected, 1 where not, 4 where something is open, 2 "
            "where the file or a source is at fault.", [
        ("words", "the project file or its folder, first; then checks and monitors",
         {"nargs": "*", "metavar": "FILE|FOLDER|NAME"}),
        ("--jobs", "so many at a time",
         {"type": number(1, 256), "default": max(1, (os.cpu_count() or 2) // 2), "metavar": "N"}),
        ("--json", "the results as JSON", FILE),
        ("--junit", "the results as JUnit", FILE),
        ("--out", f"where results stand, usually {FOLDER} beside the project file", FILE | {"metavar": "FOLDER"})]),
    circuit: ("makes a Verilog design a circuit", "It needs yosys, and lists what is seldom meant: registers that start with "
              "either value, signals that nothing drives, values x.", [
        ("out", "the circuit: ASCII where it ends in .aag, binary where in .aig", {"metavar": "OUT", "type": Path}),
        ("sources", None, {"metavar": "FILE", "nargs": "+"}),
        ("--top", "the module; usually the only one that no other uses", {"metavar": "NAME"}),
        ("--set", "a parameter of the module", LIST | {"metavar": "NAME=VALUE"}),
        ("-D --define", "a macro", LIST | {"metavar": "NAME[=VALUE]"}),
        ("-I --include", "where included files stand", LIST | {"metavar": "FOLDER"}),
        ("--sv", "SystemVerilog, also in files that do not end in .sv", {"action": "store_true"}),
        ("--start", "registers without a start value: either one, or 0", {"choices": ("any", "zero"), "default": "any"}),
        ("--clocks", "clocks as inputs whose edges are seen, where there are several", {"choices": ("inputs",)}),
        ("--memory", "the largest memory, usually 16384",
         {"metavar": "BITS", "type": number(1, 1 << 30), "default": 16_384})]),
    formula: ("writes a formula out as the tools read it", "`a_p = a_q` and `a_p != 5` of vectors bit by bit, == as =, && and "
              "|| as & and |, without comments. With a circuit a vector is as wide as it is there.", [
        ("file", "the formula, usually standard input", {"metavar": "FILE", "nargs": "?", "default": "-"}),
        ("--circuit", "the circuit whose names they are", FILE),
        ("--order", "in place of it the order of the ports of a strategy; wants --circuit", {"action": "store_true"})]),
    waves: ("draws the runs behind an answer", "The answer is that of `mchyper --proof`, or `strategy fails`; the picture is "
            "SVG on standard output.", [
        ("circuit", None, FILE | {"metavar": "CIRCUIT"}),
        ("answer", "the answer's file, usually standard input", {"metavar": "ANSWER", "nargs": "?", "default": "-"}),
        ("--formula", "the formula, so that the title says which part fails where", FILE),
        ("--strategy", "the strategy that fails; wants --formula", FILE),
        ("--steps", f"the most steps that are drawn, usually {STEPS}",
         {"metavar": "N", "type": number(1, 4096), "default": STEPS}),
        ("--only", "these signals, by the labels of the picture", {"metavar": "LABEL,.."}),
        ("--vcd", "a value change dump for GTKWave in place of the picture", {"action": "store_true"})]),
    help: ("shows the page of a tool", "", [
        ("tool", ", ".join(TOOLS),
         {"metavar": "TOOL", "choices": ("himarelou", *TOOLS), "nargs": "?", "default": "himarelou"})]),
}


def main(words: Sequence[str]) -> int:
    """The exit status of a command. What can't be written on standard error is left out, and the status is the same."""
    for it in (signal.SIGTERM, signal.SIGHUP):
        if signal.getsignal(it) == signal.SIG_DFL:  # nohup ignores one, and so it stays
            signal.signal(it, signal.default_int_handler)  # not by SIGINT, which a script has what it starts with & ignore
    sys.stderr = sys.stderr or open(os.devnull, "w", encoding="utf-8")
    status, lines = ended(words)
    tell(lines)
    return status


def ended(words: Sequence[str]) -> tuple[int, list[str]]:
    """The exit status of a command, and what went wrong in a line, if something did."""
    try:
        if sys.stdout is None:
            raise Broken("there is no standard output")
        status = answered(words)
        sys.stdout.flush()
        return status, []
    except Fault as fault:
        return fault.status, [f"himarelou: {fault}"]
    except (KeyboardInterrupt, Stopped):
        return STOPPED, []
    except OSError as error:
        # who opens a file says so as a fault: what is left is standard output, and a reader that left early wants no line
        of = shown(str(error.filename)) if error.filename else "standard output" if _is_lost(sys.stdout) else ""
        return Broken.status, [] if isinstance(error, BrokenPipeError) else [": ".join(filter(None, ("himarelou", of, error.strerror)))]


def answered(words: Sequence[str]) -> int:
    """The exit status of a command, as far as what it prints can be written."""
    try:
        said = parser().parse_args(words)
    except SystemExit as left:  # a help was shown, or a word is wrong
        return left.code
    if said.version:
        print(version())
        return 0
    if said.command is None:
        parser().print_help(sys.stderr)
        return 2
    return said.run(said)


def tell(lines: Sequence[str]) -> None:
    """Says lines on standard error, where that can be written."""
    with contextlib.suppress(OSError):
        for line in lines:
            print(line, file=sys.stderr)
    _is_lost(sys.stderr)


def _is_lost(stream: TextIO) -> bool:
    """Whether what was printed can't be written; then it goes nowhere, so that the end of the program does not try again."""
    try:
        stream.flush()
        return False
    except OSError:
        os.dup2(os.open(os.devnull, os.O_WRONLY), stream.fileno())
        return True
