"""Circuits of Verilog sources, by yosys, and what of them is seldom meant; each is made once a call, and kept by what it is made
of."""
import glob
import hashlib
import os
import re
import tempfile
import threading
from collections import defaultdict
from dataclasses import dataclass, field
from functools import cached_property
from pathlib import Path

from himarelou.aiger import Circuit, read_bytes, read_circuit, written
from himarelou.faults import Fault, shown
from himarelou.gates import Builder
from himarelou.names import Names
from himarelou.programs import Runner, file_sum, front_sum, yosys_version
from himarelou.project import Project
from himarelou.schema import Design
from himarelou.store import Store, replaced, sum_of
from himarelou.yosys import Module, listed, quoted, read_modules, run_yosys, top_of

INCLUDE = re.compile(rb'`include\s+(?:"([^"\n]+)")?|\$readmem[bh]\s*\(\s*(?:"([^"\n]+)")?')
FINISH = ("dffunmap", "setundef -undriven -anyseq", "setundef -anyseq")
# no opt_dff: it takes a register that never changes for one without a value, and drops what depends on it
TO_ANDS = ("techmap", "opt_expr", "opt_merge", "opt_clean", "abc -g AND", "opt_clean", "aigmap")


@dataclass
class Made:
    """A circuit, the design's own outputs, and what is to be told of it; in a project also its file."""

    circuit: Circuit
    outputs: list[str]
    findings: list[str] = field(default_factory=list)
    assumptions: list[str] = field(default_factory=list)
    file: Path = Path()

    def size(self) -> str:
        return f"{len(self.circuit.latches)} registers, {len(self.circuit.ands)} ands"

    @cached_property
    def names(self) -> Names:
        return Names(self.circuit.literals)


def files_of(patterns: tuple[str, ...], folder: Path) -> list[str]:
    """The files that patterns name, as paths from the folder, each once."""
    found: dict[str, None] = {}
    for pattern in patterns:
        is_one = (folder / pattern).is_file()
        names = [pattern] if is_one else sorted(glob.glob(pattern, root_dir=folder, recursive=True))
        files = [it for it in names if (folder / it).is_file()]
        if not files:
            raise Fault(f"no file is named {shown(pattern)}")
        found |= dict.fromkeys(files)
    return list(found)


def made_of(design: Design, folder: Path) -> str | None:
    """The sum of all that a circuit is made of, or None where the sources name further files in a way that is not seen."""
    left = [folder / it for it in files_of(design.sources, folder)]
    sums: dict[str, str] = {}
    while left:
        path = left.pop()
        if str(path) in sums:
            continue
        data = read_bytes(path)
        sums[str(path)] = hashlib.sha256(data).hexdigest()
        for match in INCLUDE.finditer(data):
            word = os.fsdecode(match[1] or match[2] or b"")
            named = [it / word for it in (folder, path.parent, *(folder / it for it in design.include)) if word and (it / word).is_file()]
            if not named:
                return None
            left += named
    return sum_of(repr(design), yosys_version(), front_sum(), sums)


def make(runner: Runner, design: Design, folder: Path) -> Made:
    """The circuit of a design."""
    if design.file:
        circuit = read_circuit(folder / design.file)
        return Made(circuit, [name for kind, name, _ in circuit.signals() if kind == "o"], file=folder / design.file)
    usual = tempfile.gettempdir()
    with tempfile.TemporaryDirectory(prefix="himarelou-", dir="/tmp" if " " in usual else usual) as name:  # -I takes no blank
        return _Work(runner, design, folder, Path(name)).made()


class _Work:
    """The way of a design through yosys, in two runs: what is read is judged before what is dear."""

    def __init__(self, runner: Runner, design: Design, folder: Path, room: Path):
        self.runner, self.design, self.folder, self.room = runner, design, folder, room

    def made(self) -> Made:
        design = self.design
        module = self.read()
        clocks = module.clocks()
        if len(clocks) > 1 and design.clocks is None:
            raise Fault(f"several clocks: {shown(', '.join(clocks))}; a circuit has one step for all registers, and "
                        'clocks = "inputs" takes each clock as an input whose edges are seen')
        for name, bits in module.memories():
            if bits > design.memory:
                raise Fault(f"the memory {shown(name)} has {bits} bits, each a register: memory = {bits} takes it")
        self.run(self.mapping(module))
        circuit = read_circuit(self.room / "circuit.aig")
        findings = told_of(circuit, module)
        with_aliases(circuit)
        made = Made(circuit, module.outputs(), findings)
        if design.start == "zero":
            made.assumptions.append("registers without a start value start with 0")
        if design.clocks:
            made.assumptions.append(f"clocks are inputs, one step for each of their levels: {shown(', '.join(clocks))}")
        return made

    def run(self, lines: list[str]) -> None:
        run_yosys(self.runner, lines, self.folder, self.room)

    def here(self, name: str) -> str:
        return quoted(str(self.room / name))

    def reads(self) -> list[str]:
        """The commands that read the sources."""
        words = [f"-D{name}" + ("" if value is True else f"={value}") for name, value in self.design.define if value is not False]
        for place, path in enumerate(self.design.include):
            if not (self.folder / path).is_dir():
                raise Fault(f"no folder is named {shown(path)}")
            (self.room / f"i{place}").symlink_to((self.folder / path).resolve())
            words.append(f"-I{self.room}/i{place}")
        lines = []
        for file in files_of(self.design.sources, self.folder):
            sv = ["-sv"] if self.design.sv or file.endswith((".sv", ".svh")) else []
            lines.append(" ".join(["read_verilog", "-formal", *sv, *words, quoted(file)]))
        return lines

    def read(self) -> Module:
        """The flat module, memories still whole."""
        lines, top = self.reads(), self.design.top
        if top is None:
            self.run([*lines, "proc", f"write_json {self.here('modules.json')}"])
            top = top_of(read_modules(self.room / "modules.json"))
        if not re.fullmatch(r"[A-Za-z_][A-Za-z0-9_$]*", top):
            raise Fault(f"top: {shown(top)} is no identifier")
        sets = "".join(f" -chparam {name} {value}" for name, value in self.design.parameters)
        self.run([*lines, f"hierarchy -check -top {top}{sets}", "proc", "flatten", "opt_clean",
                  f"write_json {self.here('flat.json')}", f"write_rtlil {self.here('flat.il')}"])
        modules = read_modules(self.room / "flat.json")
        return Module(next(it for it in modules.values() if int(str(it["attributes"].get("top", "0")), 2)))

    def mapping(self, module: Module) -> list[str]:
        """The commands from the flat module to ands; a register that a gate will follow becomes an output first."""
        design = self.design
        clocks = "clk2fflogic" if design.clocks else "async2sync"
        held = "t:$*dff* t:$*latch* %u t:$sr %u" if design.clocks else "t:$adff* t:$aldff* %u t:$dffsr* %u"
        keeps = [f"select -set held {held} %co1:+[Q] w:* %i", "expose @held", "select -clear"]
        starts = ["setundef -init -zero"] if design.start == "zero" else []
        return [f"read_rtlil {self.here('flat.il')}", "memory_map", "opt_clean",
                *(keeps if design.clocks or module.has_asynchronous() else []), clocks, *FINISH, *starts, *TO_ANDS,
                f"write_aiger -symbols {self.here('circuit.aig')}"]


def told_of(circuit: Circuit, module: Module) -> list[str]:
    """What is seldom meant: free signals, registers that start with either value, values x. A register that a gate follows,
    as behind an asynchronous reset, has the name of that gate's output."""
    free, told, registers = module.undriven(), [], module.registers()
    gates = {made: (left >> 1, right >> 1) for made, left, right in circuit.ands}
    behind = {it: name for kind, name, literal in circuit.signals() if kind == "o" and registers & set(name.split(" "))
              for it in gates.get(literal & ~1, ())}
    either = [circuit.names.get(("l", place), behind.get(it.literal >> 1)) for place, it in enumerate(circuit.latches)
              if it.is_either and it.next != it.literal]
    nameless = either.count(None)
    named = [min(it.split(" "), key=len) for it in either if it is not None]
    values_x = sum(("i", place) not in circuit.names for place in range(len(circuit.inputs))) - len(free)
    if free:
        told.append(f"nothing drives (free in each cycle): {listed(free)}")
    if either:
        others = [f"{nameless} without a name"] if nameless else []
        told.append("no start value: " + ", ".join([listed(named)] * bool(named) + others))
    if values_x > 0:
        places = module.lines_of_x()
        told.append(f"values x (free in each cycle): {values_x}" + (f", as of {shown(', '.join(places))}" if places else ""))
    return told


def with_aliases(circuit: Circuit) -> None:
    """Gives each name that yosys joined to another (`s t`) to a signal of its own: the shortest one stays."""
    taken = {name for _, name, _ in circuit.signals()}
    builder = Builder(circuit)
    for (kind, place), name in list(circuit.names.items()):
        first, *others = sorted(name.split(" "), key=len)
        circuit.names[kind, place] = first
        literal = {"i": circuit.inputs, "o": circuit.outputs}.get(kind) or [it.literal for it in circuit.latches]
        for other in others:
            if other not in taken:
                taken.add(other)
                builder.output(other, literal[place])


class Circuits:
    """The circuits of a project, each made once a call."""

    def __init__(self, runner: Runner, project: Project, store: Store):
        self.runner, self.project, self.store = runner, project, store
        self.locks: dict[str, threading.Lock] = defaultdict(threading.Lock)
        self.made: dict[str, Made | Fault] = {}

    def of(self, design: Design) -> Made:
        """The circuit of a design; a fault is the same for all that ask."""
        with self.locks[design.name]:
            if design.name not in self.made:
                try:
                    self.made[design.name] = self._kept(design) if design.sources else make(self.runner, design, self.project.folder)
                except Fault as fault:
                    self.made[design.name] = self.project.fault(str(fault), *design.where)
        found = self.made[design.name]
        if isinstance(found, Fault):
            raise found
        return found

    def _kept(self, design: Design) -> Made:
        """The circuit of sources that is kept, or a new one."""
        room = self.store.room("circuits")
        file, record = room / f"{design.name}.aag", room / f"{design.name}.json"
        key, kept = made_of(design, self.project.folder), self.store.recorded(record) or {}
        if key and kept.get("key") == key and file.is_file() and kept["sum"] == file_sum(file):
            return Made(read_circuit(file), *kept["told"], file)
        made = make(self.runner, design, self.project.folder)
        made.file = file
        replaced(file, written(made.circuit))
        self.store.record(record, {"key": key, "sum": file_sum(file), "told": [made.outputs, made.findings, made.assumptions]})
        return made
