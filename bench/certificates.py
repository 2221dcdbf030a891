"""Certificates that no tool prints, for bench/hycheck, made by what docs/FORMATS.md says of them alone.

Each maker yields a name, the first word for hycheck, the texts of the files before the certificate, that of the
certificate, the right answer (OUT in place of the certificate's file), and a target in seconds where it is not one for
each 10 MB. Texts are given in pieces, so that none stands in memory whole.
"""
import itertools

BYTES = 67108864


def times(piece, count):
    """the piece so many times, in parts of some size"""
    part = max(1, 65536 // len(piece))
    for _ in range(count // part):
        yield piece * part
    yield piece * (count % part)


def joined(numbers):
    return ",".join(map(str, numbers))


class Choices:
    """A formula that waits for what never comes, with some free choices at each position, and more names that hold at
    each. Its rank proof has one rank and two branches for each way to choose: one of the roots, and one of the only
    next set."""

    def __init__(self, choices, names):
        self.choices = choices
        self.always = 6 + 3 * choices  # the first part that is none of a choice, and in each branch
        self.globally = self.always + names + (choices + names - 1)
        parts = [f"(b{i}_p | !b{i}_p)" for i in range(choices)] + [f"e{i}_p" for i in range(names)]
        self.formula = f"exists p. (w_p U d_p) & (G !d_p) & (G ({' & '.join(parts)}))"

    def branches(self, last):
        """a line for each way to choose, last the greatest part that holds"""
        ways = [(f"{at},{at + 2},", f"{at + 1},{at + 2},") for at in range(6, self.always, 3)]
        rest = joined(range(self.always, last + 1))
        for way in itertools.product(*ways):
            yield f"b 0 0,2,4,5,{''.join(way)}{rest} 2,5,{self.globally}\n"

    def proof(self, more=(), entries=0, reasons=("u 2\n",), ranks=1):
        """the proof, with more entries and further reasons"""
        yield f"unsat\nproof rank {2 * 2 ** self.choices + entries} {ranks}\n"
        yield from self.branches(self.globally + 2)
        yield from self.branches(self.globally)
        yield from more
        yield from reasons

    def dead_entries(self, count):
        """entries of rank 1 with different next sets, none of which has a branch: 1 and 4 are opposites"""
        free = range(5, self.globally)
        for number in range(count):
            members = [it for place, it in enumerate(free) if number >> place & 1]
            yield f"b 1 - {joined([1, 4, *members])}\n"


class Cone:
    """A circuit of ands that nothing asks for, and of which `true` holds. Its safe net has the latches `saved`,
    `started` and the copy of `started`. No step leads from its start, since the root of what is looked for is false;
    so each query but the base query of no step is refuted within its first frame."""

    def __init__(self, ands):
        self.frame = 38 + 3 * ands  # the clauses of a frame that is not the last
        self.last = 31 + 3 * ands
        self.width = 17 + ands  # the variables of a frame
        self.root = 4 + 3 * ands  # of the and that the constraint negates: not it, or started, or the constant
        self.constraint = 32 + 3 * ands
        self.circuit = [f"aag {ands + 2} 2 0 0 {ands}\n2\n4\n"]
        self.circuit += [f"{2 * v} {2 * v - 2} {2 * v - 3}\n" for v in range(3, ands + 3)]

    def refuted(self, started):
        """the learned clause of a query, whose clause of that number says that no frame 0 has started"""
        return f"c 0 1 {self.constraint} {started} {self.root} 0\n"

    def keep(self):
        return self.refuted(self.frame + self.last + 1)

    def base(self, steps):
        if steps == 0:  # bad, not saved, and bad only if saved
            return f"c 0 {self.last + 1} {self.last + 4} {self.last - 1} 0\n"
        return self.refuted(steps * self.frame + self.last + 2)

    def step(self, depth):
        return self.refuted((depth + 1) * self.frame + self.last + 1)

    def proof(self, depth, before=(), count=0, step=None, clause=None):
        """a proof of this depth with the fact that nothing has started, maybe as a clause; in the last log more clauses
        stand before"""
        yield f"holds\nproof {'clauses' if clause else 'induction'} {depth} 1\n"
        yield from clause or ["f 0 1\n"]
        yield f"log 1\n{self.keep()}"
        for steps in range(depth + 1):
            yield f"log 1\n{self.base(steps)}"
        yield f"log {count + 1}\n"
        yield from before
        yield from step or [self.step(depth)]

    def many_facts(self, count):
        """a proof at no depth with the fact so many times"""
        yield f"holds\nproof induction 0 {count}\n"
        yield from times("f 0 1\n", count)
        yield from times(f"log 1\n{self.keep()}", (count + 63) // 64)
        yield f"log 1\n{self.base(0)}log 1\n{self.step(0)}"

    def long_fact(self, count):
        """the fact as a clause that says it so many times"""
        yield "f |"
        yield from times(" 3", count)
        yield "\n"

    def long_chain(self, count):
        """the refutation of the step query at no depth, with the constant's clause so many times more"""
        yield "c 0 "
        yield from times("1 ", count)
        yield self.step(0)[4:]

    def clauses(self, count):
        """learned clauses that follow from the constant's, each with another variable"""
        for number in range(count):
            yield f"c -1 {number % (2 * self.width - 1) + 2} 0 1 0\n"

    def long_clause(self, count):
        yield "c -1 "
        for number in range(count):
            yield f"{number % (2 * self.width - 1) + 2} "
        yield "0 1 0\n"


ONE_INPUT = ["aag 1 1 0 0 0\n2\ni0 i\n"]
NEVER = ["forall p. G !i_p"]


def inputs(count):
    """a circuit of so many inputs, the first one named"""
    return [f"aag {count} {count} 0 0 0\n"] + [f"{2 * v}\n" for v in range(1, count + 1)] + ["i0 i\n"]


def run_of(steps, row):
    """a run in which the input is 1 at the last step of the stem alone, and what is seen of it"""
    yield "violated\n"
    yield from times("{};", steps - 1)
    yield "{i}|{}\nproof runs 1\n- "
    yield from times(f"0{row};", steps - 1)
    yield f"1{row}|0{row}\n"


def rank_proofs():
    ten, thirty, many = Choices(15, 2), Choices(16, 10), Choices(30, 0)
    small = Choices(4, 20)
    yield "rank proof, 65,536 branches", "ea", [[ten.formula]], ten.proof(), "accepted", None
    yield "rank proof, 131,072 branches", "ea", [[thirty.formula]], thirty.proof(), "accepted", 10
    entry = next(small.branches(small.globally))
    yield "rank proof, 100,000 equal entries", "ea", [[small.formula]], small.proof(
        times(entry, 100000), 100000), "accepted", None
    yield "rank proof, 100,000 sets without a branch", "ea", [[small.formula]], small.proof(
        small.dead_entries(100000), 100000, ("u 2\n", "n\n"), 2), "accepted", None
    yield "rank proof, 5,000,000 reasons", "ea", [[small.formula]], small.proof(
        (), 0, itertools.chain(["u 2\n"], times("n\n", 5000000)), 5000001), "accepted", None
    yield "rank proof, one entry of 1,000,000 ranks", "ea", [[small.formula]], small.proof(
        (f"b {rank} - 1,4\n" for rank in range(1, 1000001)), 1000000,
        itertools.chain(["u 2\n"], times("n\n", 1000000)), 1000001), "accepted", None
    yield "rank proof, a set of 1,000,000 numbers", "ea", [[small.formula]], small.proof(
        itertools.chain(["b 0 - 0"], (f",{number}" for number in range(1, 1000000)), ["\n"]), 1), "rejected", None
    yield "rank proof, one branch of 2^30", "ea", [[many.formula]], [
        "unsat\nproof rank 1 1\n", next(many.branches(many.globally + 2)), "u 2\n"], "rejected", None
    yield "rank proof, a last line of another", "ea", [[ten.formula]], ten.proof(reasons=("n\n",)), "rejected", None


def logs():
    small, wide = Cone(0), Cone(30000)
    asked = ["forall p. true"]
    yield "log, 1,000,000 lines, few variables", "mc", [small.circuit, asked], small.proof(
        0, small.clauses(1000000), 1000000), "accepted", None
    yield "log, 1,000,000 lines, 60,034 variables", "mc", [wide.circuit, asked], wide.proof(
        0, wide.clauses(1000000), 1000000), "accepted", None
    yield "log, a chain of 5,000,000", "mc", [wide.circuit, asked], wide.proof(
        0, step=wide.long_chain(5000000)), "accepted", None
    yield "log, a clause of 2,000,000", "mc", [wide.circuit, asked], wide.proof(
        0, wide.long_clause(2000000), 1), "accepted", None
    yield "log, a last clause that is not empty", "mc", [wide.circuit, asked], wide.proof(
        0, wide.clauses(1000000), 1000000, ["c -1 0 1 0\n"]), "rejected", None
    yield "proof with a clause of 5,000,000 literals", "mc", [small.circuit, asked], small.proof(
        0, clause=small.long_fact(5000000)), "accepted", None
    yield "proof of 1,000,000 facts, 60,034 variables", "mc", [wide.circuit, asked], wide.many_facts(
        1000000), "accepted", None
    yield "proof of depth 300", "mc", [small.circuit, asked], small.proof(300), "accepted", 10
    yield "proof of depth 1,000", "mc", [small.circuit, asked], small.proof(1000), "accepted", 10
    yield "proof of depth 100,000", "mc", [small.circuit, asked], small.proof(
        100000), "error E5: cnf-variables 16777216", None


def runs():
    yield "run of 2,000,000 steps", "mc", [ONE_INPUT, NEVER], run_of(2000000, ""), "accepted", None
    yield "run of 10,000 steps, 1,000 inputs", "mc", [inputs(1000), NEVER], run_of(
        10000, "0" * 999), "accepted", None
    yield "run of 2,000,000 steps that satisfies", "mc", [ONE_INPUT, ["forall p. F i_p"]], run_of(
        2000000, ""), "rejected", None


def lassos():
    ends = ["exists p. F G a_p"]
    for count, line in ((1000000, "{};{}|{a}\n"), (30, "|" + "{};" * 110000 + "{a}\n")):
        yield f"{count:,} lassos, forall", "ea", [["forall p. F a_p"]], itertools.chain(
            ["sat\n"], times(line, count)), "accepted", None
    yield "1,000,000 lassos, exists, the last alone", "ea", [ends], itertools.chain(
        ["sat\n"], times("{};{}|{}\n", 1000000), ["|{a}\n"]), "accepted", None
    yield "one lasso of 3,300,000 positions", "ea", [ends], itertools.chain(
        ["sat\n"], times("{};", 3300000), ["{}|{a}\n"]), "accepted", None
    yield "lassos without a common period", "ea", [ends], itertools.chain(["sat\n"], *(
        ("|", "{};" * (cycle - 1), "{a}\n") for cycle in (1009, 1013, 1019))), "error E5: joint 4194304", None


def no_texts():
    asked = [["exists p. a_p"]]
    yield "64 MiB of sat", "ea", asked, times("sat\n", BYTES // 4), "error E14 OUT: line 2", None
    yield "64 MiB of line feeds", "ea", asked, times("\n", BYTES), "error E14 OUT: line 1", None
    yield "64 MiB in one set", "ea", asked, itertools.chain(
        ["sat\n|{"], times("a,", (BYTES - 8) // 2)), "error E14 OUT: line 2", None
    yield "64 MiB of one number", "ea", asked, itertools.chain(
        ["unsat\nproof rank "], times("9", BYTES - 17)), "error E14 OUT: line 2", None
    yield "counts that nothing follows", "ea", asked, [
        "unsat\nproof rank 9999999999 9999999999\n"], "error E14 OUT: line 3", None
    yield "a byte past 64 MiB", "ea", asked, times("\n", BYTES + 1), "error E5: bytes 67108864", None


def all_made():
    return itertools.chain(rank_proofs(), logs(), runs(), lassos(), no_texts())
