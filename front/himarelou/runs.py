"""Runs of a circuit, as an answer of `mchyper --proof` has them: read, played, and judged, with which part of a formula fails
where."""
import itertools
import math
import re
from collections.abc import Callable, Sequence
from dataclasses import dataclass, field

from himarelou.aiger import Circuit, value_of
from himarelou.faults import Fault
from himarelou.formula import Formula, Tree

Rows = list[list[int]]
Letters = tuple[list[set[str]], list[set[str]]]
MOST_KEPT = 1 << 26
PLAIN = {"!": lambda it: not it, "&": lambda *parts: all(parts), "|": lambda left, right: left or right,
         "->": lambda left, right: not left or right, "<->": lambda left, right: left == right}
# What a part says of a position, from what it says of the next one; it is the least such row, or the greatest one.
LATER = {"F": (False, lambda later, part: part or later), "G": (True, lambda later, part: part and later),
         "U": (False, lambda later, left, right: right or left and later),
         "W": (True, lambda later, left, right: right or left and later),
         "R": (True, lambda later, left, right: right and (left or later))}


def unrolled(stem: list, cycle: list, steps: int) -> list:
    """So many of what a lasso has, or of a stem alone."""
    return list(itertools.islice(itertools.chain(stem, itertools.cycle(cycle)), steps))


@dataclass
class Run:
    """A run that goes on for ever: first values of the registers, inputs of the stem's steps and of the cycle's."""

    first: list[int]
    stem: Rows
    cycle: Rows
    label: str = ""
    seen: list[bytearray] = field(default_factory=list)

    @property
    def length(self) -> int:
        return len(self.stem) + len(self.cycle)

    def fits(self, circuit: Circuit) -> bool:
        rows = self.stem + self.cycle
        return bool(self.cycle) and len(self.first) == len(circuit.latches) and all(len(it) == len(circuit.inputs) for it in rows)

    def play(self, circuit: Circuit, steps: int) -> None:
        """Sets what is seen: the value of each variable at each step."""
        self.seen = list(circuit.play(self.first, unrolled(self.stem, self.cycle, steps)))

    def is_right(self, circuit: Circuit) -> bool:
        """Whether it is a run of the circuit: its starts, its way round, constraints and fairness."""
        self.play(circuit, self.length + 1)
        begin, end = ([self.seen[at][it.literal >> 1] for it in circuit.latches] for at in (len(self.stem), self.length))
        starts = all(it.is_either or it.reset == value for it, value in zip(circuit.latches, self.first))
        kept = all(value_of(row, it) for row in self.seen for it in circuit.constraints)
        fair = all(any(value_of(row, it) for row in self.seen[len(self.stem):-1]) for it in circuit.fairness)
        return starts and begin == end and kept and fair


def runs_of(answer: str) -> list[Run]:
    """The runs behind an answer."""
    lines = answer.split("\n")
    head = next((place for place, line in enumerate(lines) if line.startswith("proof runs ")), None)
    if head is None:
        raise Fault("the answer has no runs: it wants `violated` (or `holds` of an exists formula) with --proof")
    try:
        count = int(lines[head].split()[2])
        return [_run(line, place) for place, line in enumerate(lines[head + 1:head + 1 + count])]
    except (ValueError, IndexError) as error:
        raise Fault("the answer is cut, or its runs were changed") from error


def _run(line: str, place: int) -> Run:
    first, word = line.split(" ")
    stem, cycle = word.split("|")
    return Run(_bits(first), [_bits(it) for it in stem.split(";") if it], [_bits(it) for it in cycle.split(";")], str(place))


def _bits(text: str) -> list[int]:
    if not re.fullmatch("-|[01]+", text):
        raise ValueError(text)
    return [] if text == "-" else [int(it) for it in text]


def played(circuit: Circuit, answer: str) -> list[Run]:
    """The runs of an answer, which must be runs of this circuit and what the answer says of them."""
    runs = runs_of(answer)
    if not all(it.fits(circuit) for it in runs):
        raise Fault("the runs are of another circuit")
    for run in runs:
        run.play(circuit, run.length)
    if not agree(circuit, runs, letters_of(answer)):
        raise Fault("the runs are of another circuit: what is seen of them is not what the answer says")
    return runs


def letters_of(answer: str) -> list[Letters]:
    """What the answer says is seen of each run: the sets of its stem and of its cycle."""
    found = []
    for line in answer.split("\nproof runs ")[0].split("\n")[1:]:
        words = re.findall(r"\||\{(?:[^\"}]|\"[^\"]*\")*\}", line)
        if "|" in words:
            sets = [{it.strip('"') for it in re.findall(r'"[^"]*"|[^",{}\s]+', word)} for word in words]
            found.append((sets[:words.index("|")], sets[words.index("|") + 1:]))
    return found


def agree(circuit: Circuit, runs: Sequence[Run], said: Sequence[Letters]) -> bool:
    """Whether the named signals of each run, as it was played, are high where the answer says so, and no others of its names."""
    literals = circuit.literals
    names = {name for stem, cycle in said for letter in stem + cycle for name in letter}
    return names <= literals.keys() and all(
        {it for it in names if value_of(values, literals[it])} == letter
        for run, letters in zip(runs, said) for values, letter in zip(run.seen, unrolled(*letters, len(run.seen))))


def runs_with_strategy(circuit: Circuit, strategy: Circuit, formula: Formula, answer: str, most: int) -> list[Run]:
    """The runs of all quantifiers, played. What the answer does not show of an input or a first value is taken for 0, and
    where that makes other runs than it shows they are refused."""
    said = letters_of(answer)
    if not said or not answer.startswith("strategy fails\n"):
        raise Fault("the answer is not `strategy fails`")
    steps = min(most, max(len(stem) + 2 * len(cycle) for stem, cycle in said))
    names, chosen = formula.runs("forall"), formula.runs("exists")
    given = [_run_of(circuit, letters, name) for letters, name in zip(said, names)]
    for run in given:
        run.play(circuit, steps)
    if not agree(circuit, given, said):
        raise Fault("the answer does not show what the runs' inputs are: name them all in the formula, as by (a_p | !a_p)")
    rows = [[value_of(run.seen[step], it) for it in circuit.inputs for run in given] for step in range(steps)]
    answers = list(strategy.play([it.reset & 1 for it in strategy.latches], rows))
    made = []
    for place, name in enumerate(chosen):
        inputs = [[value_of(values, it) for it in strategy.outputs[place::len(chosen)]] for values in answers]
        made.append(Run([0 if it.is_either else it.reset for it in circuit.latches], inputs, [], name))
        made[-1].play(circuit, steps)
    by_name = {it.label: it for it in given + made}
    return [by_name[variable] for _, variable in formula.quantifiers]


def _run_of(circuit: Circuit, letters: Letters, name: str) -> Run:
    def row(kind: str, count: int, letter: set[str]) -> list[int]:
        return [int(circuit.names.get((kind, place)) in letter) for place in range(count)]

    stem, cycle = ([row("i", len(circuit.inputs), letter) for letter in side] for side in letters)
    starts = row("l", len(circuit.latches), (letters[0] + letters[1])[0])
    return Run([own if it.is_either else it.reset for it, own in zip(circuit.latches, starts)], stem, cycle, name)


class Judge:
    """Judges parts at all positions of words that repeat from `stem` on, `length` positions in all."""

    def __init__(self, holds: Callable[[str, str, int], bool], stem: int, length: int):
        self.holds, self.stem, self.length = holds, stem, length
        self.known: dict[int, list[bool]] = {}

    def row(self, tree: Tree) -> list[bool]:
        """Whether the part holds, at each position."""
        if id(tree) not in self.known:
            self.known[id(tree)] = self._row(tree)
        return self.known[id(tree)]

    def _row(self, tree: Tree) -> list[bool]:
        if tree.sign == "atom":
            return [self.holds(tree.name, tree.run, it) for it in range(self.length)]
        if not tree.parts:
            return [tree.sign == "true"] * self.length
        rows = [self.row(it) for it in tree.parts]
        if tree.sign == "X":
            return [rows[0][self._next(it)] for it in range(self.length)]
        if tree.sign in PLAIN:
            return [PLAIN[tree.sign](*values) for values in zip(*rows)]
        begun, step = LATER[tree.sign]
        row = [begun] * self.length
        for at in 2 * [*reversed(range(self.length))]:
            row[at] = step(row[self._next(at)], *(it[at] for it in rows))
        return row

    def _next(self, position: int) -> int:
        return position + 1 if position + 1 < self.length else self.stem

    def failing(self, tree: Tree, at: int = 0) -> tuple[Tree, int]:
        """The smallest part that the failure of a part at a position comes down to, and where it fails."""
        if tree.sign == "!":
            return self.holding(tree.parts[0], at)
        if tree.sign == "&":
            return self.failing(next(it for it in tree.parts if not self.row(it)[at]), at)
        if tree.sign in ("->", "|"):
            return self.failing(tree.parts[1], at)
        if tree.sign == "X":
            return self.failing(tree.parts[0], self._next(at))
        if tree.sign == "G":
            while self.row(tree.parts[0])[at]:
                at = self._next(at)
            return self.failing(tree.parts[0], at)
        return tree, at

    def holding(self, tree: Tree, at: int) -> tuple[Tree, int]:
        """The same of a part that holds and is not to hold."""
        if tree.sign in ("U", "F"):
            while not self.row(tree.parts[-1])[at]:
                at = self._next(at)
        if tree.sign in ("U", "F", "&"):
            return self.holding(tree.parts[-1], at)
        return self.failing(tree.parts[0], at) if tree.sign == "!" else (tree, at)


def failing_part(formula: Formula, circuit: Circuit, runs: Sequence[Run]) -> tuple[int, str] | None:
    """In which cycle which part fails, in words; nothing where the runs do not break the formula, or where it is too much to
    judge here."""
    if len(formula.quantifiers) != len(runs) or not all(it.cycle for it in runs):
        return None
    stem = max(len(it.stem) for it in runs)
    length = min(stem + math.lcm(*(len(it.cycle) for it in runs)), MOST_KEPT // (circuit.most + 1) + 1)
    for run in runs:
        run.play(circuit, length)
    literals = circuit.literals
    seen = {variable: run.seen for (_, variable), run in zip(formula.quantifiers, runs)}
    judge = Judge(lambda name, variable, at: bool(value_of(seen[variable][at], literals[name])), stem, length)
    try:
        if judge.row(formula.body)[0]:
            return None
        part, at = judge.failing(formula.body)
    except (KeyError, RecursionError):
        return None
    text = " ".join(part.text().split())
    return at, f"{text if len(text) <= 80 else text[:77] + '...'} {'holds' if judge.row(part)[at] else 'fails'} in cycle {at}"
