"""One question of a project, from its keys to its result: a check of a circuit, or a monitor of recorded runs."""
import dataclasses
import re
from pathlib import Path

from himarelou.aiger import MOST_BYTES, Circuit, read_bytes, value_of, written
from himarelou.design import files_of
from himarelou.faults import Fault, shown
from himarelou.formula import MOST_NAMES, Formula
from himarelou.gates import with_assumed
from himarelou.names import Names, joined
from himarelou.picture import STEPS, scene_of, svg, vcd
from himarelou.result import IS_MET, OPEN, UNKNOWN, VACUOUS, Asked
from himarelou.runs import Run, failing_part, runs_of, runs_with_strategy
from himarelou.schema import Stage
from himarelou.statement import FORMULAS, MET, PARTED, Statement, in_order_of_ports, pair_of, shows_all, split
from himarelou.task import Files, Task, text_of

VACUITY_BUDGET = 120
NAME = re.compile(rb'"[^"\n]*"|[A-Za-z][A-Za-z0-9_]*')


class Check(Task):
    """One check of a circuit."""

    statement: Statement | None = None

    def work_on(self) -> None:
        self.tell("circuit")
        self.design, self.missing = self.circuits.project.circuits[self.question.circuit], []
        self.ready = self.circuits.of(self.design)
        self.tell(self.ready.size())
        self.circuit = self.assumed()
        files = self.posed()
        self.result.take(self.decided(files, self.question.stages, self.question.budget))
        self.result.files = {"circuit": str(files.first), "formula": str(files.second), "answer": str(files.answer)}
        self.show(files)
        self.judge_premise()

    def assumed(self) -> Circuit:
        """The circuit under what is assumed, which is told."""
        notes = [*self.ready.findings, *(f"assumed: {it}" for it in self.ready.assumptions)]
        circuit = self.ready.circuit
        for texts, where in ((self.design.assume, self.design.where), (self.question.assume, self.question.where)):
            try:
                circuit = with_assumed(circuit, texts)
            except Fault as fault:
                raise self.circuits.project.fault(str(fault), *where, "assume") from fault
            notes += [f"assumed in each cycle: {shown(it)}" for it in texts]
        self.result.notes += notes
        return circuit

    def posed(self) -> Files:
        """The files that are asked about."""
        self.file = self.ready.file if self.circuit is self.ready.circuit else self.write("circuit.aag", written(self.circuit))
        if self.question.formula or self.question.file:
            self.formula = self.one_formula("formula" if self.question.formula else "file")
            strategy = self.ordered_strategy() if self.question.strategy else None
            formula = shows_all(self.formula, self.circuit) if strategy else self.formula
            return self.files(self.file, formula.text(), strategy=strategy)
        self.statement = self.stated()
        self.formula = self.statement.formula()
        count = len(self.formula.body.names())
        if count <= MOST_NAMES:
            return self.files(self.file, self.formula.text())
        self.result.notes.append(f"{count} names, so it is asked of two copies with an output `{PARTED}`")
        return self.of_pair(PARTED)

    def files(self, circuit: Path, formula: str, answer: str = "answer", strategy: Path | None = None) -> Files:
        name = "formula" if answer == "answer" else f"{answer}.formula"
        return Files("mchyper", circuit, self.write(name, formula), self.room / answer, strategy)

    def of_pair(self, asked: str, answer: str = "answer") -> Files:
        return self.files(self.write(f"{asked}.aag", written(pair_of(self.circuit, self.statement, asked))), FORMULAS[asked], answer)

    def one_formula(self, key: str) -> Formula:
        """The user's formula."""
        found = self.formulas(key, self.ready.names)
        count = len(found[0].body.names())
        if len(found) > 1 or count > MOST_NAMES:
            raise self.fault(f"one formula with at most {MOST_NAMES} names is wanted, not {len(found)} with {count}", key)
        return found[0]

    def ordered_strategy(self) -> Path:
        """The strategy with its ports in the order that the tool wants."""
        try:
            self.strategy = in_order_of_ports(self.circuits.of(self.question.strategy).circuit, self.circuit, self.formula)
        except Fault as fault:
            raise self.fault(fault, "strategy") from fault
        return self.write("strategy.aag", written(self.strategy))

    def stated(self) -> Statement:
        """The statement that the keys make."""
        reset, names, question = self.reset(), self.ready.names, self.question
        read, inputs = self.circuit.read_variables(), {name: it for kind, name, it in self.circuit.signals() if kind == "i"}
        given, own = self.bits("given"), {reset.name} if reset else set()
        same = self.bits("same") if question.same else [it for word in self.ready.outputs for it in names.bits(word)]
        same = [it for it in same if it not in given]
        if not same:
            raise self.fault("no output is left that is to be the same", "same")
        named = self.bits("equal") if question.equal is not None else self.secrets()
        others = [it for it, literal in inputs.items() if it not in named and literal >> 1 in read]
        equal, secret = (others, named) if question.equal is None else (named, others)
        unread = [it for it in secret if it in inputs and inputs[it] >> 1 not in read]
        self.result.notes += [f"nothing reads {shown(', '.join(joined(unread)))}"] if unread else []
        return Statement(reset, [it for it in equal if it not in own], given, same, [it for it in secret if it not in own],
                         question.equal is None)

    def reset(self):
        """The reset by the name of its bit."""
        said, names = self.design.reset, self.ready.names
        bits = names.bits(said.name) if said else []
        if said and len(bits) != 1:
            words = f"no signal of one bit is named {shown(said.name)}{names.hint(said.name)}"
            raise self.circuits.project.fault(words, *self.design.where, "reset")
        return dataclasses.replace(said, name=bits[0]) if said else None

    def bits(self, key: str) -> list[str]:
        """The bits that the words of a key name."""
        try:
            return list(dict.fromkeys(it for word in getattr(self.question, key) or () for it in self.ready.names.wanted(word)))
        except Fault as fault:
            raise self.fault(fault, key) from fault

    def secrets(self) -> list[str]:
        """The secret bits; what the circuit does not have is told with the premise."""
        found: dict[str, None] = {}
        own = {it for word in self.ready.outputs for it in self.ready.names.bits(word)}
        own -= {name for kind, name, _ in self.circuit.signals() if kind != "o"}
        for word in self.question.secret:
            bits = self.ready.names.bits(word)
            if not bits:
                self.missing.append(f"the circuit has no input or register {shown(word)}{self.ready.names.hint(word)}")
            if own & set(bits):
                raise self.fault(f"{shown(word)} is an output, and a secret is an input or a register", "secret")
            found |= dict.fromkeys(bits)
        return list(found)

    def judge_premise(self) -> None:
        """Whether any runs meet the premise with different secrets, asked behind an answer that says so of all."""
        if self.missing:
            asked, why = Asked("violated"), "; ".join(self.missing)
        elif self.question.met:
            asked, why = self.asked_of_premise(self.files(self.file, self.one_formula("met").text(), "premise")), "no runs satisfy met"
        elif self.statement and self.result.answer == "holds":
            asked = self.asked_of_premise(self.of_pair(MET, "premise"))
            secret = shown(", ".join(joined(self.statement.secret)) or "the start of a register")
            why = f"no two runs that differ in {secret} meet the premise up to a cycle that is compared"
        else:
            return
        self.result.vacuity = {"holds": IS_MET, "violated": VACUOUS}.get(asked.answer, UNKNOWN)
        if self.result.vacuity != IS_MET:
            self.result.notes.append(f"vacuous: {why}" if asked.answer == "violated" else "whether runs meet the premise is unknown")

    def asked_of_premise(self, files: Files) -> Asked:
        self.tell("premise")
        return self.decided(files, self.question.stages, min(self.question.budget, VACUITY_BUDGET))

    def show(self, files: Files) -> None:
        """The picture of the runs behind an answer, played on the circuit itself, and what is to be seen there."""
        answer, why = text_of(files.answer).content, ""
        for name in ("picture.svg", "picture.vcd"):
            (self.room / name).unlink(missing_ok=True)
        if self.result.answer == "strategy fails":
            runs = runs_with_strategy(self.circuit, self.strategy, self.formula, answer, STEPS)
        elif "\nproof runs " in answer:
            runs = runs_of(answer) if files.first == self.file else split(runs_of(answer)[0], self.circuit)
            why = self.seen_of(runs)
        else:
            return
        scene = scene_of(self.circuit, runs, STEPS)
        scene.title = [f"{self.question.name}: {files.first.name}, {self.result.answer}", *([why] if why else [])]
        self.result.notes += [why] if why else []
        self.result.files |= {"picture": str(self.write("picture.svg", svg(scene))), "changes": str(self.write("picture.vcd", vcd(scene)))}

    def seen_of(self, runs: list[Run]) -> str:
        """Which part fails where. The two runs behind a leak must be runs of the circuit itself, and break the statement there."""
        are_right = all(it.is_right(self.circuit) for it in runs)
        found = failing_part(self.formula, self.circuit, runs)
        if not self.statement:
            return found[1] if found else ""
        if not found or not are_right:
            raise Fault("the runs behind the answer are no leak of the circuit itself")
        literals, both = self.circuit.literals, [it.seen[found[0]] for it in runs]
        names = [it for it in self.statement.same if len({value_of(values, literals[it]) for values in both}) > 1]
        return f"{shown(', '.join(joined(names)))} differs in cycle {found[0]}"


class Monitor(Task):
    """One monitor of recorded runs."""

    def work_on(self) -> None:
        self.tell("traces")
        joined, question = self.traces(), self.question
        self.names = Names(sorted(it.decode("utf-8", "surrogateescape").strip('"') for it in set(NAME.findall(joined))))
        formulas = [self.stated().formula()] if question.same else self.formulas("formula" if question.formula else "file", None)
        unseen = {it: None for formula in formulas for it in formula.body.names() if it not in self.names.known}
        if unseen:
            self.result.notes.append(f"no trace has {shown(', '.join(unseen))}, so it is never high")
        files = Files("rvhyper", self.write("formula", ";\n".join(it.text() for it in formulas)), self.write("traces", joined), self.room / "answer")
        stage = Stage((*["--drop"] * question.drop, "--lengths", question.lengths), question.budget)
        self.result.take(self.decided(files, [stage], question.budget))
        self.result.files = {"formula": str(files.first), "traces": str(files.second), "answer": str(files.answer)}
        if self.result.answer != OPEN:
            self.result.notes.append(shown(text_of(files.answer).content.split("\n")[0]))

    def traces(self) -> bytes:
        """The files joined, each ending in a line feed."""
        try:
            files = files_of(self.question.traces, self.circuits.project.folder)
        except Fault as fault:
            raise self.fault(fault, "traces") from fault
        parts = [read_bytes(self.circuits.project.folder / it) for it in files]
        joined = b"".join(it if it.endswith(b"\n") or not it else it + b"\n" for it in parts)
        if len(joined) > MOST_BYTES:
            raise self.fault(f"more than {MOST_BYTES} bytes in all", "traces")
        return joined

    def stated(self) -> Statement:
        """The statement that the keys make; a name that no trace has stands for itself."""
        words = (getattr(self.question, key) or () for key in ("equal", "given", "same"))
        return Statement(None, *(list(dict.fromkeys(it for word in said for it in self.names.bits(word) or [word])) for said in words))
