"""Gates are added to a circuit: ands, what is made of them, copies, parts of formulas, and what is assumed."""
import copy
from collections.abc import Callable, Iterable, Sequence
from functools import reduce

from himarelou.aiger import Circuit, Latch
from himarelou.faults import Fault
from himarelou.formula import Text, Tree, parse_body
from himarelou.names import Names

FALSE, TRUE = 0, 1


class Builder:
    """Adds to a circuit; an and that is there is not made again."""

    def __init__(self, circuit: Circuit):
        self.circuit = circuit
        self.made = {(left, right): literal for literal, left, right in circuit.ands}

    def fresh(self) -> int:
        self.circuit.most += 1
        return 2 * self.circuit.most

    def input(self, name: str | None = None) -> int:
        literal = self.fresh()
        if name is not None:
            self.circuit.names["i", len(self.circuit.inputs)] = name
        self.circuit.inputs.append(literal)
        return literal

    def latch(self, name: str | None = None, reset: int | None = 0) -> Latch:
        """A register without its next value; without a reset it starts with either value."""
        literal = self.fresh()
        if name is not None:
            self.circuit.names["l", len(self.circuit.latches)] = name
        self.circuit.latches.append(Latch(literal, literal, literal if reset is None else reset))
        return self.circuit.latches[-1]

    def output(self, name: str, literal: int) -> None:
        self.circuit.names["o", len(self.circuit.outputs)] = name
        self.circuit.outputs.append(literal)

    def both(self, left: int, right: int) -> int:
        left, right = max(left, right), min(left, right)
        if right == FALSE or left == right ^ 1:
            return FALSE
        if right == TRUE or left == right:
            return left
        if (left, right) not in self.made:
            self.made[left, right] = self.fresh()
            self.circuit.ands.append((self.made[left, right], left, right))
        return self.made[left, right]

    def either(self, left: int, right: int) -> int:
        return self.both(left ^ 1, right ^ 1) ^ 1

    def same(self, left: int, right: int) -> int:
        return self.both(self.both(left, right ^ 1) ^ 1, self.both(left ^ 1, right) ^ 1)

    def every(self, literals: Iterable[int]) -> int:
        return reduce(self.both, literals, TRUE)

    def some(self, literals: Iterable[int]) -> int:
        return self.every(it ^ 1 for it in literals) ^ 1

    def copy(self, other: Circuit, prefix: str) -> Callable[[int], int]:
        """Adds a copy of another circuit but its outputs, and says what each of its literals is here."""
        place = {0: 0}
        names = {(kind, at): prefix + name for (kind, at), name in other.names.items()}
        for at, literal in enumerate(other.inputs):
            place[literal >> 1] = self.input(names.get(("i", at)))
        copies = [self.latch(names.get(("l", at)), None if it.is_either else it.reset) for at, it in enumerate(other.latches)]
        place |= {it.literal >> 1: copy.literal for it, copy in zip(other.latches, copies)}

        def here(literal: int) -> int:
            return place[literal >> 1] ^ literal & 1

        for made, left, right in other.ands:
            place[made >> 1] = self.both(here(left), here(right))
        for latch, copy in zip(other.latches, copies):
            copy.next = here(latch.next)
        self.circuit.constraints += [here(it) for it in other.constraints]
        self.circuit.fairness += [here(it) for it in other.fairness]
        return here

    def of(self, tree: Tree, literal_of: Callable[[str, str], int]) -> int:
        """The literal of a part without temporal operators, from that of each name and run."""
        ways = {"true": lambda: TRUE, "false": lambda: FALSE, "!": lambda it: it ^ 1, "|": self.either, "<->": self.same,
                "&": lambda *parts: self.every(parts), "->": lambda left, right: self.either(left ^ 1, right)}
        if tree.sign == "atom":
            return literal_of(tree.name, tree.run)
        if tree.sign not in ways:
            raise Fault(f"{tree.sign} speaks of other cycles, and what is assumed is so in each")
        return ways[tree.sign](*(self.of(it, literal_of) for it in tree.parts))


def with_assumed(circuit: Circuit, assumed: Sequence[str]) -> Circuit:
    """The circuit whose runs are those in which each of the texts holds in each cycle."""
    if not assumed:
        return circuit
    made, literals = copy.deepcopy(circuit), circuit.literals
    builder = Builder(made)
    for text in assumed:
        tree = parse_body(Text("assume", text), Names(literals))
        made.constraints.append(builder.of(tree, lambda name, _: literals[name]))
    return made
