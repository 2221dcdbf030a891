"""yosys: a script of quoted words, the netlist that it writes, and what is read off that."""
import json
import re
from collections.abc import Iterable
from pathlib import Path
from typing import Any

from himarelou.faults import Fault, shown
from himarelou.names import joined
from himarelou.programs import Runner, yosys_version

UNQUOTABLE = re.compile(r'[";*?\[\]{}\x00-\x1f\x7f]|^-')
LATCHES = ("$dlatch", "$adlatch", "$dlatchsr", "$sr")
ASYNCHRONOUS = ("$adff", "$adffe", "$aldff", "$aldffe", "$dffsr", "$dffsre")


def quoted(path: str) -> str:
    """A path as a word of a yosys script."""
    if UNQUOTABLE.search(path):
        raise Fault(f'{shown(path)}: yosys takes no path with " ; * ? [ ] {{ }}, a line feed, or a dash at its beginning')
    return f'"{path}"' if path.startswith("/") else f'"./{path}"'


def run_yosys(runner: Runner, lines: Iterable[str], folder: Path, room: Path) -> None:
    """Runs a script in a folder; `room` is a folder for its own files."""
    yosys_version()
    script = room / "script.ys"
    script.write_text("".join(it + "\n" for it in lines))
    ended = runner.run(["yosys", "-q", "-s", script], folder)
    if ended.status:
        told = ended.err.strip() or ended.out.decode(errors="replace").strip() or f"it ended with {ended.status}"
        raise Fault(f"yosys: {shown(told.splitlines()[-1].removeprefix('ERROR: ').removeprefix('./').replace('`./', '`'))}")


class Module:
    """A module of a netlist that yosys wrote as JSON."""

    def __init__(self, module: dict[str, Any]):
        self.module = module
        self.cells: list[dict[str, Any]] = list(module["cells"].values())
        self.names = self._bit_names()

    def _bit_names(self) -> dict[Any, str]:
        """The name of each bit, the shortest where there are several."""
        names: dict[Any, tuple[tuple[int, int], str]] = {}
        for name, net in self.module["netnames"].items():
            for place, bit in enumerate(net["bits"]):
                whole = name if len(net["bits"]) == 1 else f"{name}[{place + net.get('offset', 0)}]"
                rank = (net["hide_name"], len(whole))
                if bit not in names or rank < names[bit][0]:
                    names[bit] = (rank, whole)
        return {bit: whole for bit, (_, whole) in names.items()}

    def outputs(self) -> list[str]:
        """The names of the output ports."""
        return [name for name, port in self.module["ports"].items() if port["direction"] != "input"]

    def registers(self) -> set[str]:
        """The names of the registers, but of memories, bit by bit."""
        return {self.names[bit] for cell in self.cells for bit in cell["connections"].get("Q", ()) if bit in self.names}

    def clocks(self) -> list[str]:
        """The clocks of registers and memories, each with its edge, and what is held by a level."""
        found = set()
        for cell in self.cells:
            bits, values = cell["connections"], cell["parameters"]
            if cell["type"] in LATCHES:
                found.add(f"latch {self.names.get(bits['Q'][0], bits['Q'][0])}")
            elif "CLK" in bits and int(str(values.get("CLK_ENABLE", "1")), 2):
                is_high = int(str(values.get("CLK_POLARITY", "1")), 2)
                found.add(f"{'posedge' if is_high else 'negedge'} {self.names.get(bits['CLK'][0], bits['CLK'][0])}")
        return sorted(found)

    def undriven(self) -> list[str]:
        """Signals that are read and that nothing drives."""
        driven, read = set(), set()
        for port in self.module["ports"].values():
            (driven if port["direction"] == "input" else read).update(port["bits"])
        for cell in self.cells:
            for port, bits in cell["connections"].items():
                (driven if cell["port_directions"][port] == "output" else read).update(bits)
        return sorted(self.names.get(bit, str(bit)) for bit in read - driven if isinstance(bit, int))

    def lines_of_x(self) -> list[str]:
        """The places in the sources of cells that are given a value x: a file with its lines, as `a.v:5,7`."""
        found: dict[str, set[int]] = {}
        for cell in self.cells:
            given = [bit for port, bits in cell["connections"].items() if cell["port_directions"][port] == "input" for bit in bits]
            place = re.match(r"(?:\./)?([^|]*?):([1-9]\d*)", cell["attributes"].get("src", ""))
            if "x" in given and place:
                found.setdefault(place[1], set()).add(int(place[2]))
        return [f"{file}:{','.join(map(str, sorted(lines)))}" for file, lines in found.items()]

    def memories(self) -> list[tuple[str, int]]:
        """The memories by name, with their bits."""
        return [(name, it["width"] * it["size"]) for name, it in self.module.get("memories", {}).items()]

    def has_asynchronous(self) -> bool:
        return any(it["type"] in ASYNCHRONOUS for it in self.cells)


def read_modules(path: Path) -> dict[str, dict[str, Any]]:
    with open(path, encoding="utf-8", errors="replace") as file:
        return json.load(file)["modules"]


def top_of(modules: dict[str, dict[str, Any]]) -> str:
    """The only module that no other uses."""
    used = {cell["type"] for module in modules.values() for cell in module["cells"].values()}
    tops = [name for name in modules if name not in used]
    if len(tops) != 1:
        raise Fault(f"top: say which, since no module uses {shown(', '.join(tops))}" if tops else "top: there is no module that no other uses")
    return tops[0]


def listed(names: Iterable[str]) -> str:
    return shown(", ".join(joined(names)))
