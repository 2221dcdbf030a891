"""What a check without a formula of its own asks, as a formula over two runs and as two copies of the circuit; and a strategy's
ports, put by their names into the order that `mchyper --strategy` wants.

With P saying that the reset, the `equal` inputs and, outside reset, the `given` signals agree, and S that outside reset
the `same` signals do, two runs that begin with a reset never part in S while P has held: `reset_p -> !(P U (P & !S))`.

Each of two copies has inputs of its own, so a formula of one run does. P is a constraint up to the cycle in which the output
is on, and all is free behind it: so the pair has a run with that output exactly where two runs of the circuit meet P up to a
cycle and there do what is asked for. While the output was never on, the copies are equal where they are found to be, which is
what proofs by induction live on.
"""
from collections.abc import Callable, Sequence
from dataclasses import dataclass, field, replace

from himarelou.aiger import Circuit, check_literals
from himarelou.faults import Fault, did_you_mean, shown
from himarelou.formula import MOST_NAMES, Formula, Tree, all_of, opposite, signal
from himarelou.gates import FALSE, TRUE, Builder
from himarelou.names import split_place
from himarelou.runs import Run

PARTED, MET = "parted", "met"
FORMULAS = {PARTED: f"forall p. G !{PARTED}_p\n", MET: f"exists p. F {MET}_p\n"}


@dataclass(frozen=True)
class Reset:
    """The signal that resets, which is low where it does if `is_low`."""

    name: str
    is_low: bool = False

    def tree(self) -> Tree:
        """That the run p is reset."""
        high = signal(self.name, "p")
        return opposite(high) if self.is_low else high


@dataclass
class Statement:
    """The bits that two runs are compared by, and the secret inputs and registers. Where the user did not name them they are
    the inputs that are left, and the starts of all registers."""

    reset: Reset | None
    equal: Sequence[str]
    given: Sequence[str]
    same: Sequence[str]
    secret: Sequence[str] = field(default_factory=list)
    is_named: bool = False

    def premise(self) -> Tree:
        resets = [self.reset.name] if self.reset else []
        return all_of([*map(equality, [*resets, *self.equal]), *([self.outside(self.given)] if self.given else [])])

    def outside(self, names: Sequence[str]) -> Tree:
        """That both runs agree in these where no reset is on."""
        agree = all_of([equality(it) for it in names])
        return Tree("|", (self.reset.tree(), agree)) if self.reset else agree

    def formula(self) -> Formula:
        premise = self.premise()
        never = opposite(Tree("U", (premise, all_of([premise, opposite(self.outside(self.same))]))))
        return Formula((("forall", "p"), ("forall", "q")), Tree("->", (self.reset.tree(), never)) if self.reset else never)


def equality(name: str) -> Tree:
    return Tree("<->", (signal(name, "p"), signal(name, "q")))


def pair_of(circuit: Circuit, statement: Statement, asked: str) -> Circuit:
    """Two copies with the output PARTED or MET."""
    made = Circuit()
    builder, literals = Builder(made), circuit.literals
    copies = {run: builder.copy(circuit, f"{run}.") for run in "pq"}

    def gates_of(tree: Tree) -> int:
        return builder.of(tree, lambda name, run: copies[run](literals[name]))

    def differ(literal: int) -> int:
        return builder.same(*(it(literal) for it in copies.values())) ^ 1

    started, done = builder.latch(), builder.latch()
    started.next = TRUE
    reset = gates_of(statement.reset.tree()) if statement.reset else FALSE
    premise = builder.both(gates_of(statement.premise()), builder.either(started.literal, reset) if statement.reset else TRUE)
    if asked == PARTED:
        target = gates_of(statement.outside(statement.same)) ^ 1
    else:
        target = builder.both(reset ^ 1, met(circuit, statement, builder, differ, started.literal))
    made.constraints.append(builder.either(done.literal, premise))
    shown = builder.every([done.literal ^ 1, premise, target])
    done.next = builder.either(done.literal, shown)
    builder.output(asked, shown)
    return made


def met(circuit: Circuit, statement: Statement, builder: Builder, differ: Callable[[int], int], started: int) -> int:
    """That the copies have differed in a secret, and where secrets are named still do in one of its inputs or in some register:
    a secret that the reset sets is none."""
    secret = set(statement.secret)
    inputs = [differ(literal) for kind, name, literal in circuit.signals() if name in secret and kind == "i"]
    starts = [literal for kind, name, literal in circuit.signals() if name in secret and kind != "i"]
    if not statement.is_named:
        starts = [it.literal for it in circuit.latches if it.is_either]
    was = builder.latch()
    was.next = builder.some([was.literal, *inputs, *(builder.both(started ^ 1, differ(it)) for it in starts)])
    still = [*inputs, *(differ(it.literal) for it in circuit.latches)] if statement.is_named else [TRUE]
    return builder.both(was.next, builder.some(still))


def split(run: Run, circuit: Circuit) -> list[Run]:
    """The runs of both copies in a run of the pair."""
    latches, inputs = len(circuit.latches), len(circuit.inputs)
    return [Run(run.first[at * latches:(at + 1) * latches], [row[at * inputs:(at + 1) * inputs] for row in run.stem],
                [row[at * inputs:(at + 1) * inputs] for row in run.cycle], str(at)) for at in (0, 1)]


def ports_of(circuit: Circuit, variables: Sequence[str]) -> list[tuple[str, bool]]:
    """The names that ports for these runs have, in order, and whether something reads that input of the circuit."""
    read = circuit.read_variables()
    return [(f"{circuit.names.get(('i', place), f'input#{place}')}_{variable}", literal >> 1 in read)
            for place, literal in enumerate(circuit.inputs) for variable in variables]


def in_order_of_ports(strategy: Circuit, circuit: Circuit, formula: Formula) -> Circuit:
    """The strategy with its inputs and outputs in order. One without names is taken as it stands."""
    if not any(kind in "io" for kind, _ in strategy.names):
        return strategy
    made = replace(strategy, inputs=[], outputs=[], names={key: it for key, it in strategy.names.items() if key[0] == "l"})
    inputs, outputs = ({_port(strategy.names.get((kind, at), f"port#{at}")): it for at, it in enumerate(literals)}
                       for kind, literals in (("i", strategy.inputs), ("o", strategy.outputs)))
    builder, given = Builder(made), ports_of(circuit, formula.runs("forall"))
    for name, _ in given:
        made.names["i", len(made.inputs)] = name
        made.inputs.append(inputs.pop(name) if name in inputs else builder.fresh())
    for name, is_read in ports_of(circuit, formula.runs("exists")):
        if name not in outputs and is_read:
            raise Fault(f"the strategy has no output {shown(name)}{did_you_mean(name, outputs)}")
        builder.output(name, outputs.pop(name, FALSE))
    read = strategy.read_variables()
    for name, literal in inputs.items():
        if literal >> 1 in read:
            hint = did_you_mean(name, [known for known, _ in given])
            raise Fault(f"the strategy's input {shown(name)} is no NAME_RUN of an input{hint}")
    check_literals(made)
    return made


def shows_all(formula: Formula, circuit: Circuit) -> Formula:
    """The formula, which as long as it has room for them also names all inputs and free starts of the runs that are given: so
    an answer shows which runs they are. What is added is true of all."""
    read, names = circuit.read_variables(), formula.body.names()
    more = [circuit.names.get(("i", at)) for at, it in enumerate(circuit.inputs) if it >> 1 in read]
    more += [circuit.names.get(("l", at)) for at, it in enumerate(circuit.latches) if it.is_either]
    atoms = [signal(name, run) for name in dict.fromkeys(more) if name for run in formula.runs("forall")]
    if len(atoms) + 1 + (len(names) + len(circuit.fairness)) * len(formula.quantifiers) > MOST_NAMES:
        return formula
    return Formula(formula.quantifiers, all_of([formula.body, *(Tree("|", (it, opposite(it))) for it in atoms)]))


def _port(name: str) -> str:
    """The name of a port as of its bit: `digit_p[0]` is `digit[0]_p`."""
    vector, place = split_place(name)
    base, line, variable = vector.rpartition("_")
    return f"{base}[{place}]_{variable}" if place is not None and line else name
