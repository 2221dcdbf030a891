"""Circuits as AIGER files: read in either form, written in either form, and played.

A literal is twice a variable, and one more for its negation; variable 0 is false. `docs/FORMATS.md` has the texts.
"""
import graphlib
import io
import re
from collections.abc import Iterable, Iterator, Sequence
from dataclasses import dataclass, field
from pathlib import Path
from typing import BinaryIO

from himarelou.faults import Broken, Fault

MOST_VARIABLES = 1 << 20
MOST_BYTES = 1 << 26


@dataclass
class Latch:
    """A register: its reset is 0, 1, or its own literal where it starts with either value."""

    literal: int
    next: int = 0
    reset: int = 0

    @property
    def is_either(self) -> bool:
        return self.reset == self.literal


@dataclass
class Circuit:
    """A circuit; `names` has a name by kind (`i`, `l`, `o`) and place, `ands` come behind what they use."""

    most: int = 0
    inputs: list[int] = field(default_factory=list)
    latches: list[Latch] = field(default_factory=list)
    outputs: list[int] = field(default_factory=list)
    ands: list[tuple[int, int, int]] = field(default_factory=list)
    constraints: list[int] = field(default_factory=list)
    fairness: list[int] = field(default_factory=list)
    names: dict[tuple[str, int], str] = field(default_factory=dict)

    def signals(self) -> Iterator[tuple[str, str, int]]:
        """Each named input, output and latch, in this order: kind, name, literal."""
        for kind, literals in (("i", self.inputs), ("o", self.outputs), ("l", [it.literal for it in self.latches])):
            yield from ((kind, self.names[kind, at], it) for at, it in enumerate(literals) if (kind, at) in self.names)

    @property
    def literals(self) -> dict[str, int]:
        """The literal of each name."""
        return {name: literal for _, name, literal in self.signals()}

    def read_variables(self) -> set[int]:
        """The variables that something uses."""
        used = [it for made in self.ands for it in made[1:]] + [it.next for it in self.latches]
        return {it >> 1 for it in used + self.outputs + self.constraints + self.fairness}

    def play(self, first: Sequence[int], rows: Iterable[Sequence[int]]) -> Iterator[bytearray]:
        """The value of each variable at each step, from the latches' first values and the inputs of each step."""
        state, held = list(first), [it.literal for it in self.latches]
        for row in rows:
            values = bytearray(self.most + 1)
            for literal, value in (*zip(self.inputs, row, strict=True), *zip(held, state, strict=True)):
                values[literal >> 1] = value
            for made, left, right in self.ands:
                values[made >> 1] = (values[left >> 1] ^ left & 1) & (values[right >> 1] ^ right & 1)
            yield values
            state = [value_of(values, it.next) for it in self.latches]


def value_of(values: bytearray, literal: int) -> int:
    return values[literal >> 1] ^ literal & 1


def read_circuit(path: Path) -> Circuit:
    return parse(read_bytes(path), str(path))


def read_bytes(path: Path) -> bytes:
    if path.is_fifo() and path.parts[:2] != ("/", "dev"):  # which would be waited for; the shell's <(..) is in /dev
        raise Fault(f"{path}: a pipe, and no file")
    try:
        with open(path, "rb") as file:
            return bounded(file, str(path))
    except OSError as error:
        raise Broken(f"{path}: {error.strerror}") from error


def bounded(file: BinaryIO, name: str) -> bytes:
    """The bytes that are left of an open file, where they are not too many."""
    data = file.read(MOST_BYTES + 1)
    if len(data) > MOST_BYTES:
        raise Fault(f"{name}: more than {MOST_BYTES} bytes")
    return data


def parse(data: bytes, name: str) -> Circuit:
    """The circuit of the bytes of an AIGER file; `name` stands in what is told."""
    file = io.BytesIO(data)
    try:
        made = _read(file)
        symbols = "\n" + file.read().decode("utf-8", "surrogateescape")
        for line in symbols.split("\nc\n")[0].split("\n"):
            if match := re.fullmatch(r"([ilo])(\d{1,10}) (.+)", line, re.S):
                made.names[match[1], int(match[2])] = match[3].removesuffix("\r")
        check_literals(made)
        return made
    except (ValueError, IndexError, TypeError, RecursionError) as error:
        raise Fault(f"{name}: no AIGER file, or one without bounds: {error}") from error


def _read(file: io.BytesIO) -> Circuit:
    """The circuit without its names."""
    def rows(count: int) -> list[list[int]]:
        return [[int(it) for it in file.readline().split()] for _ in range(count)]

    def difference() -> int:
        """A number of the binary form, seven bits a byte, the lowest first."""
        byte = file.read(1)[0]
        return byte if byte < 128 else byte & 127 | difference() << 7

    form, *numbers = file.readline().split()
    most, inputs, latches, outputs, ands, bads, constraints, justice, fairness = [*map(int, numbers), 0, 0, 0, 0][:9]
    if form not in (b"aag", b"aig"):
        raise ValueError("its first line is no header")
    if not 0 <= most <= MOST_VARIABLES or not all(0 <= it <= most for it in (inputs, latches, ands)) or justice:
        raise ValueError(f"more than {MOST_VARIABLES} variables, fewer than it counts, or justice properties")
    made, is_ascii = Circuit(most), form == b"aag"
    made.inputs = [it[0] for it in rows(inputs)] if is_ascii else [2 * it + 2 for it in range(inputs)]
    made.latches = [Latch(*[2 * at + 2] * (not is_ascii), *row) for at, row in enumerate(rows(latches), inputs)]
    made.outputs, _, made.constraints, made.fairness = (
        [it[0] for it in rows(count)] for count in (outputs, bads, constraints, fairness))
    if is_ascii:
        given = {literal >> 1: (literal, left, right) for literal, left, right in rows(ands)}
        uses = {variable: [it >> 1 for it in row[1:] if it >> 1 in given] for variable, row in given.items()}
        made.ands = [given[it] for it in graphlib.TopologicalSorter(uses).static_order()]
    else:
        for literal in range(2 * (most - ands) + 2, 2 * most + 2, 2):
            left = literal - difference()
            made.ands.append((literal, left, left - difference()))
    return made


def check_literals(made: Circuit) -> None:
    """Refuses what would be played beyond its variables."""
    used = made.inputs + made.outputs + made.constraints + made.fairness + [it for row in made.ands for it in row]
    used += [it for latch in made.latches for it in (latch.literal, latch.next, latch.reset)]
    if used and not 0 <= min(used) <= max(used) <= 2 * made.most + 1:
        raise ValueError("a literal is past its variables")


def written(circuit: Circuit, is_ascii: bool = True) -> bytes:
    """The bytes of the circuit, in the binary form with its variables numbered as that wants them."""
    made = circuit if is_ascii else renumbered(circuit)
    counts = [made.most, len(made.inputs), len(made.latches), len(made.outputs), len(made.ands)]
    if made.constraints or made.fairness:
        counts += [0, len(made.constraints), 0, len(made.fairness)]
    rows = [("aag" if is_ascii else "aig", *counts), *((it,) for it in made.inputs if is_ascii)]
    rows += [(it.literal, it.next, it.reset)[not is_ascii:] for it in made.latches]
    rows += [(it,) for it in made.outputs + made.constraints + made.fairness] + made.ands * is_ascii
    head = "".join(" ".join(map(str, row)) + "\n" for row in rows).encode()
    packed = b"" if is_ascii else b"".join(_packed(it - left) + _packed(left - right) for it, left, right in made.ands)
    names = "".join(f"{kind}{place} {name}\n" for (kind, place), name in sorted(made.names.items()))
    return head + packed + names.encode("utf-8", "surrogateescape")


def renumbered(circuit: Circuit) -> Circuit:
    """The circuit with the variables of inputs, registers and ands one after another."""
    order = circuit.inputs + [it.literal for it in circuit.latches] + [it[0] for it in circuit.ands]
    new = {0: 0} | {literal >> 1: 2 * place for place, literal in enumerate(order, 1)}

    def of(literals: Iterable[int]) -> list[int]:
        return [new[it >> 1] ^ it & 1 for it in literals]

    latches = [Latch(*of((it.literal, it.next, it.reset))) for it in circuit.latches]
    ands = [(made, max(parts), min(parts)) for made, *parts in map(of, circuit.ands)]
    inputs, outputs, *others = map(of, (circuit.inputs, circuit.outputs, circuit.constraints, circuit.fairness))
    return Circuit(len(order), inputs, latches, outputs, ands, *others, circuit.names)


def _packed(value: int) -> bytes:
    return (bytes([value & 127 | 128]) + _packed(value >> 7)) if value > 127 else bytes([value])
