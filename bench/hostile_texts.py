"""Hostile commands for bench/hostile: texts of 64 MiB of each sort, and for each the right answer, made by what
docs/FORMATS.md says alone.

Texts are given in pieces, so that none stands in memory whole.
"""
import itertools
from functools import lru_cache

from certificates import BYTES, Choices, Cone, ONE_INPUT, inputs, times

QUICK = (10, 1536)  # the most seconds and megabytes: one quantifier
LARGE = (60, 4096)  # four quantifiers, or a body of 20 million nodes
ATOM = "forall p. a_p"
INPUT = "aag 1 1 0 0 0\n2\ni0 a\n"
LIST = "sat\n|{a}\n"
VARIABLES = 1048576
FORMS = ("aag", ""), ("aig", "binary: ")
LONG = 100  # from which length on a text is the front of what is said


class Command:
    """a command, its files by name, its right answers, and the most that it may take

    An answer is the status and how the first line of what is said begins: of standard output, or else of the errors.
    """

    def __init__(self, name, tool, words, files, status, said, most=QUICK):
        self.name = name
        self.tool = tool
        self.words = words.split()
        self.files = files
        self.answers = [(status, said)]
        self.most = most

    def is_right(self, status, said):
        return any(status == number and (said == text or len(text) >= LONG and said.startswith(text))
                   for number, text in self.answers)


class Text:
    """front, then the piece as often as a file has room for, then the end"""

    def __init__(self, front, piece, end=""):
        self.count = (BYTES - len(front) - len(end)) // len(piece)
        self.length = len(front) + self.count * len(piece) + len(end)
        self.pieces = (front, piece, end)

    def __iter__(self):
        front, piece, end = self.pieces
        return itertools.chain([front], times(piece, self.count), [end])


# ---- formulas, for each tool


def refused_formulas():
    """texts with the quantifier of p that are no formulas, or none within the counts, and what is said of them"""
    head = "forall p. "
    text = Text(head, "(")
    yield "parentheses", text, f"token {3 + text.count} byte {text.length}"
    text = Text(head, "!")
    yield "negations", text, f"token {3 + text.count} byte {text.length}"
    text = Text(head, "a_p & ")
    yield "a_p &", text, f"token {3 + 2 * text.count} byte {text.length}"
    text = Text("", "forall p. ")
    yield "forall p.", text, f"token {3 * text.count} byte {text.length}"
    text = Text("", " ")
    yield "blanks", text, f"token 0 byte {text.length}"
    yield "semicolons", Text("", ";"), "token 0 byte 0"
    yield "quotes", Text(head, '"'), "token 3 byte 10"
    yield "an open quote", Text(head + '"', "a"), "token 3 byte 10"
    yield "NULs", Text("", "\0"), "token 0 byte 0"
    yield "closing parentheses", Text(ATOM, ")"), "token 4 byte 13"
    yield "a_p & .. a_p", Text(head, "a_p & ", "a_p"), "height 200"
    yield "X", Text(head, "X ", "a_p"), "height 200"
    yield "groups of 100 parentheses", Text(head, "(" * 100 + "a_p" + ")" * 100 + " & ", "a_p"), "height 200"
    yield "groups of 201 parentheses", Text(head, "(" * 201 + "a_p" + ")" * 201 + " & ", "a_p"), "parens 200"
    yield "forall p. .. a_p", Text("", "forall p. ", "a_p"), "quantifiers"


def of_formula(tool, text):
    """the words and the files of a command of the tool with this text as its formula"""
    if tool == "rvhyper":
        return "formula traces", {"formula": text, "traces": ["{a}"]}
    if tool == "mchyper":
        return "circuit formula", {"circuit": [INPUT], "formula": text}
    if tool == "hycheck":
        return "ea formula out", {"formula": text, "out": [LIST]}
    return "formula", {"formula": text}


def refusal_of_formula(tool, said):
    """status and error line"""
    if said.startswith("token"):
        return 2, f"error E2 formula: {said}"
    if said == "quantifiers":
        said = f"quantifiers {8 if tool in ('eahyper', 'hycheck') else 4}"
    return 5, f"error E5: {said}"


LONG_ATOM = {
    "rvhyper": (1, "violation of spec 0 at trace 0 by 0"),
    "eahyper": (0, "sat"),
    "mchyper": (2, "error E12: " + "a" * 100),
    "hycheck": (1, "rejected"),
}
BLANKS = {
    "rvhyper": (0, "no violation in 1 traces"),
    "eahyper": (0, "sat"),
    "mchyper": (1, "violated"),
    "hycheck": (0, "accepted"),
}


def formulas():
    for tool in ("rvhyper", "eahyper", "mchyper", "hycheck"):
        for name, text, said in refused_formulas():
            yield Command(f"formula: {name}", tool, *of_formula(tool, text), *refusal_of_formula(tool, said))
        name = "formula: one long atom"
        yield Command(name, tool, *of_formula(tool, Text("forall p. a", "a", "_p")), *LONG_ATOM[tool])
        yield Command("formula: blanks at its end", tool, *of_formula(tool, Text(ATOM, " ")), *BLANKS[tool])
    text = Text("exists p. ", "(")
    yield Command("second formula: parentheses", "eahyper", "--implies second first", {
        "first": ["exists p. a_p"], "second": text}, 2, f"error E2 second: token {3 + text.count} byte {text.length}")
    yield Command("specs: one formula again and again", "rvhyper", "specs traces", {
        "specs": Text(ATOM, ";" + ATOM), "traces": ["{a}"]}, 5, "error E5: specs 16")


@lru_cache(maxsize=None)
def small_body(leaves):
    if leaves == 1:
        return "a_p"
    half = leaves // 2
    return f"({small_body(leaves - half)}&{small_body(half)})"


def body(leaves):
    """a conjunction of so many atoms, grouped so that its height is the least, in pieces"""
    if leaves <= 1024:
        yield small_body(leaves)
        return
    half = leaves // 2
    yield "("
    yield from body(leaves - half)
    yield "&"
    yield from body(half)
    yield ")"


def large_bodies():
    """a body of 20,000,001 nodes, one of whose names holds"""
    def text():
        return itertools.chain(["forall p. "], body(10000001))

    name = "body of 20 million nodes"
    for tool, (status, said) in BLANKS.items():
        yield Command(name, tool, *of_formula(tool, text()), status, said, LARGE)
    yield Command(f"{name}, on a list", "eahyper", "--on list formula", {"list": ["|{a}"], "formula": text()}, 0, "true",
                  LARGE)
    yield Command(f"{name}, twice", "eahyper", "--equivalent second first", {"first": text(), "second": text()}, 0,
                  "equivalent", LARGE)
    yield Command(f"{name}, within a bound", "eahyper", "--bound 1,0,1 formula", {"formula": text()}, 0, "sat", LARGE)
    yield Command(f"{name}, its negation", "mchyper", "circuit formula", {"circuit": [INPUT], "formula": itertools.chain(
        ["exists p. !"], body(10000001))}, 0, "holds", LARGE)
    yield played(name, ["aag 1 1 0 1 0\n2\n1\n"], *WINS, formula=itertools.chain(
        ["forall q. exists p. "], body(10000001)), most=LARGE)


# ---- traces


def traced(name, traces, status, said, formula=ATOM, words="", most=QUICK):
    return Command(f"traces: {name}", "rvhyper", f"{words} formula traces", {"formula": [formula], "traces": traces},
                   status, said, most)


def traces():
    bad = 2, "error E9 traces: line 1"
    too_long = 5, "error E5: length 1024"
    yield traced("one of {a}", Text("", "{a};", "{a}"), *too_long)
    text = Text("", "{}\n")
    yield traced("{} again and again", text, 0, f"no violation in {text.count} traces", "forall p. true")
    text = Text("", "{a}\n")
    yield traced("{a} again and again", text, 0, f"no violation in {text.count} traces")
    text = Text("", "{a}\n")
    yield traced("{a}, dropping", text, 0, f"no violation in {text.count} traces, kept 1", words="--drop")
    text = Text("", "{a}\n")
    yield traced("{a}, padding", text, 0, f"no violation in {text.count} traces", words="--lengths pad")
    text = Text("", "{a}\n")
    yield traced("{a}, pairs", text, 0, f"no violation in {text.count} traces", "forall p. forall q. a_p <-> a_q",
                 most=LARGE)
    yield traced("a session's letters", Text("", "@1 {a}\n"), *too_long)
    text = Text("", "@1 {a}\n@1 end\n")
    yield traced("a session and its end", text, 0, f"no violation in {text.count} traces")
    yield traced("more and more sessions", (f"@{number} {{a}}\n" for number in range(4000000)), 5, "error E5: sessions 1024")
    yield traced("saves", Text("", "!save\n"), 5, "error E5: saves 64")
    yield traced("saves and returns", Text("", "!save\n!back\n"), 0, "no violation in 0 traces")
    yield traced("one set of many names", Text("{", "a,", "a}"), 0, "no violation in 1 traces")
    yield traced("one long name", Text('{a,"', "x", '"}'), 0, "no violation in 1 traces")
    yield traced("one comment", Text("#", " "), 0, "no violation in 0 traces")
    yield traced("line feeds", Text("", "\n"), 0, "no violation in 0 traces")
    text = Text("", "{a}\n", "{")
    yield traced("a last line that is none", text, 2, f"error E9 traces: line {text.count + 1}")
    for name, text in (("digits", Text("@", "1")), ("braces", Text("", "{")), ("quotes", Text("{", '"')),
                       ("NULs", Text("", "\0")), ("blanks in a set", Text("{", " "))):
        yield traced(name, text, *bad)


# ---- lassos


def listed(name, text, status, said, formula=ATOM):
    return Command(f"lassos: {name}", "eahyper", "--on list formula", {"list": text, "formula": [formula]}, status, said)


def lassos():
    joint = 5, "error E5: joint 4194304"
    bad = 2, "error E9 list: line 1"
    yield listed("|{a} again and again, forall", Text("", "|{a}\n"), 0, "true")
    yield listed("|{a} again and again, exists", Text("", "|{a}\n"), 1, "false", "exists p. !a_p")
    yield listed("|{} again and again", Text("", "|{}\n"), 0, "true", "forall p. !a_p")
    yield listed("{}|{a} again and again", Text("", "{}|{a}\n"), 0, "true", "forall p. X G a_p")
    yield listed("one of {a}", Text("|", "{a};", "{a}"), *joint)
    yield listed("one long stem", Text("", "{};", "{}|{a}"), *joint)
    yield listed("a cycle as long as may be", itertools.chain(["|{b}"], times(";{}", 4194303)), 0, "true",
                 "forall p. G F b_p")
    yield listed("a stem as long as may be", itertools.chain(["{}"], times(";{}", 4194302), ["|{a}"]), 0, "true",
                 "forall p. F G a_p")
    yield listed("cycles without a common period", itertools.chain.from_iterable(
        itertools.chain(["|{a}"], times(";{}", count - 1), ["\n"]) for count in (1009, 1013, 1019)), *joint)
    yield listed("one set of many names", Text("|{", "a,", "a}"), 0, "true")
    yield listed("bars", Text("", "|"), *bad)
    yield listed("braces", Text("|", "{"), *bad)
    yield listed("quotes", Text("|{", '"'), *bad)
    yield listed("NULs", Text("", "\0"), *bad)
    yield listed("line feeds", Text("", "\n"), 2, "error E9 list: line 0")
    yield listed("one comment", Text("#", "|{a}"), 2, "error E9 list: line 0")
    text = Text("", "|{a}\n", "|")
    yield listed("a last line that is none", text, 2, f"error E9 list: line {text.count + 1}")


# ---- circuits


def read(name, text, status, said, formula="forall p. true", most=QUICK):
    return Command(f"circuit: {name}", "mchyper", "circuit formula", {"circuit": text, "formula": [formula]}, status, said,
                   most)


def counted(header, line, end=""):
    """a header with a last count (N in its place), so many lines, and the end: as many as a file has room for"""
    count = (BYTES - len(header) - len(end) - 12) // len(line)
    return itertools.chain([header.replace("N", str(count))], times(line, count), [end])


def faults():
    """circuits of both forms that are none, and their faults"""
    many = VARIABLES
    text = Text("aag ", "7")
    yield "digits", text, f"truncated byte {text.length}"
    text = Text("", "aag ")
    yield "headers on one line", text, f"truncated byte {text.length}"
    yield "headers", Text("", "aag 1 1 0 0 0\n"), "literal byte 14"
    yield "line feeds", Text("", "\n"), "header byte 0"
    yield "line feeds behind a header", Text("aag 1 1 0 0 0\n", "\n"), "literal byte 14"
    text = Text("aag 1 1 0 0 0\n", "2 ")
    yield "one line of numbers", text, f"truncated byte {text.length}"
    header = f"aag {many} {many} 0 0 0\n"
    yield "an input again and again", Text(header, "2\n"), f"redefined byte {len(header) + 2}"
    yield "NULs", Text("aag 1 1 0 0 0\n2\n", "\0", "\n"), "symbol byte 16"
    yield "a symbol again and again", Text("aag 0 0 0 1 0\n0\n", "o0 x\n"), "symbol byte 21"
    yield "a name that does not end", Text("aag 0 0 0 1 0\n0\no0 ", "x"), "symbol byte 16"
    header = f"aig {many} 0 0 0 {many}\n"
    yield "binary: deltas of zeros", Text(header, "\0"), f"delta byte {len(header)}"
    yield "binary: a delta that does not end", Text(header, "\x80"), f"delta byte {len(header)}"
    header = f"aig {many} {many} 0 9999999999 0 9999999999\n"
    yield "binary: a header that promises", [header], f"truncated byte {len(header)}"
    header = f"aag {many} {many} 0 {many} 0 {many} {many} {many} {many}\n"
    yield "a header that promises", [header], f"truncated byte {len(header)}"
    yield "binary: one line of blanks", Text("aig 0 0 0 1 0\n", " ", "\n"), "literal byte 14"


def input_line(form):
    """the line of the one input, which the binary form leaves out"""
    return "2\n" if form == "aag" else ""


def chain_of_ands(form, outputs=""):
    """an input, lines of outputs, and ands of which each is that of the one before it and the input, as many as there may
    be"""
    yield f"{form} {VARIABLES} 1 0 {len(outputs.splitlines())} {VARIABLES - 1}\n{input_line(form)}{outputs}"
    if form == "aag":
        yield from (f"{2 * v} {2 * v - 2} 2\n" for v in range(2, VARIABLES + 1))
    else:
        yield from ("\x02" + seven_bits(2 * v - 4) for v in range(2, VARIABLES + 1))
    yield "i0 a\n"


def seven_bits(number):
    """a number in groups of seven bits, the least first"""
    groups = []
    while number >= 128:
        groups.append(chr(128 + number % 128))
        number //= 128
    return "".join([*groups, chr(number)])


def of_list(form, counts, line, outputs=""):
    """a circuit of one input with a list (N of its counts behind the latches) that is as long as there is room for"""
    return counted(f"{form} 1 1 0 {counts}\n{input_line(form)}{outputs}", line, "i0 a\n")


def of_inputs(named, copies):
    """as many inputs as there may be, one of them named, and so many outputs for each"""
    yield f"aag {VARIABLES} {VARIABLES} 0 {copies * VARIABLES} 0\n"
    yield from (f"{2 * v}\n" for v in range(1, VARIABLES + 1))
    yield from (f"{2 * v}\n" * copies for v in range(1, VARIABLES + 1))
    yield f"i{named} a\n"


def many_names():
    """an output with a name again and again"""
    names = 4000000
    return itertools.chain([f"aag 1 1 0 {names} 0\n2\n"], times("2\n", names), (
        f"o{n} x\n" for n in range(names)), ["i0 a\n"])


def circuits():
    for name, text, said in faults():
        yield read(name, text, 2, f"error E11 circuit: {said}")
    for form, what in FORMS:
        yield read(f"{what}a chain of ands", chain_of_ands(form), 1, "violated", ATOM)
        yield read(f"{what}outputs", of_list(form, "N 0", "2\n"), 1, "violated", ATOM)
        yield read(f"{what}bad literals", of_list(form, "0 0 N", "2\n"), 1, "violated", ATOM)
        yield read(f"{what}constraints", of_list(form, "0 0 0 N", "2\n"), 0, "holds", ATOM)
        yield read(f"{what}justice sizes", of_list(form, "0 0 0 0 N", "0\n"), 1, "violated", ATOM)
        yield read(f"{what}fairness literals", of_list(form, "0 0 0 0 0 N", "2\n"), 5, "error E5: cnf-variables 16777216",
                   "forall p. G !a_p")
    yield read("a long name", Text("aag 1 1 0 0 0\n2\ni0 ", "x", "\n"), 2, "error E12: a none", ATOM)
    yield read("a long comment", Text(INPUT + "c\n", "i0 b\n"), 1, "violated", ATOM)
    yield read("names", many_names(), 1, "violated", ATOM)


def constraints(count):
    """so many constraints, each of which is the input"""
    return itertools.chain([f"aag 1 1 0 0 0 0 {count}\n2\n"], times("2\n", count), ["i0 a\n"])


def four_copies():
    """constraints under four quantifiers: each is four literals of a query, as many as a query may have, or fewer"""
    four = "forall p. forall q. forall r. forall s. a_s"
    for form, what in FORMS:
        yield read(f"{what}constraints, four quantifiers", of_list(form, "0 0 0 N", "2\n"), 5,
                   "error E5: cnf-literals 134217728", four, LARGE)
    yield read("30,000,000 constraints, four quantifiers", constraints(30000000), 0, "holds", four, LARGE)


# ---- strategies

SAME = "forall p. exists q. G (a_p <-> a_q)"
ALL_SAME = "forall p. exists q. exists r. exists s. G (a_p <-> a_q) & G (a_p <-> a_r) & G (a_p <-> a_s)"
COPIES = "aag 1 1 0 1 0\n2\n2\n"
WINS = 0, "holds with strategy"
PAST = 5, "error E5: cnf-variables 16777216"


def played(name, strategy, status, said, circuit=(INPUT,), formula=(SAME,), most=QUICK):
    return Command(f"strategy: {name}", "mchyper", "--strategy strategy circuit formula", {
        "circuit": circuit, "formula": formula, "strategy": strategy}, status, said, most)


def filled(pieces):
    """a circuit, and a comment that is as long as there is room for"""
    length = 0
    for piece in pieces:
        length += len(piece)
        yield piece
    yield "c\n"
    yield from times(" ", BYTES - length - 2)


def chain_of_latches(is_free):
    """an input, which is put out, and latches of which each takes the value of the one before it, as many as there may be"""
    yield f"aag {VARIABLES} 1 {VARIABLES - 1} 1 0\n2\n"
    yield from (f"{2 * v} {2 * v - 2} {2 * v if is_free else 0}\n" for v in range(2, VARIABLES + 1))
    yield "2\n"


def misshapen():
    """circuits that have not one input and one output, or that have what a strategy may not have"""
    for form, what in FORMS:
        yield f"{what}outputs", of_list(form, "N 0", "2\n")
        yield f"{what}constraints", of_list(form, "1 0 0 N", "2\n", "2\n")
        yield f"{what}fairness literals", of_list(form, "1 0 0 0 0 N", "2\n", "2\n")
        yield f"{what}a chain of ands, no output", chain_of_ands(form)
    yield "names", many_names()
    yield "inputs, an output for each", of_inputs(0, 1)
    yield "a chain of uninitialised latches", chain_of_latches(True)


def well_shaped():
    last = 2 * VARIABLES
    for form, what in FORMS:
        yield played(f"{what}a chain of ands, a comment", filled(chain_of_ands(form, f"{last}\n")), *WINS)
        yield played(f"{what}a chain of ands, negated", chain_of_ands(form, f"{last + 1}\n"), 1, "strategy fails")
        yield played(f"{what}bad literals", of_list(form, "1 0 N", "2\n", "2\n"), *WINS)
        yield played(f"{what}justice sizes", of_list(form, "1 0 0 0 N", "0\n", "2\n"), *WINS)
    yield played("a long name", Text("aag 1 1 0 1 0\n2\n2\ni0 ", "x", "\n"), *WINS)
    yield played("a long comment", Text(COPIES + "c\n", "i0 b\n"), *WINS)
    yield played("inputs, three outputs for each", of_inputs(0, 3), *WINS, of_inputs(VARIABLES - 1, 0), [ALL_SAME])
    # a safe net has nine variables a latch, and a query that asks for a step has two frames of them
    yield played("a chain of latches", chain_of_latches(False), *PAST)


def beside_formulas():
    """a small strategy, and formulas that are none, that are past a count, or that are long"""
    head = "forall p. exists q. "
    text = Text(head, "(")
    yield played("beside parentheses", [COPIES], 2, f"error E2 formula: token {6 + text.count} byte {text.length}",
                 formula=text)
    yield played("beside exists q. .. a_q", [COPIES], 5, "error E5: quantifiers 4",
                 formula=Text(head, "exists q. ", "a_q"))
    yield played("beside a_q & .. a_q", [COPIES], 5, "error E5: height 200", formula=Text(head, "a_q & ", "a_q"))
    yield played("beside one long atom", [COPIES], *LONG_ATOM["mchyper"], formula=Text(head + "a", "a", "_q"))
    yield played("beside blanks", [COPIES], *WINS, formula=Text(SAME, " "))


def beside_circuits():
    """a small strategy, and circuits that are none, that want another strategy, or that make much work"""
    header = f"aag {VARIABLES} {VARIABLES} 0 0 0\n"
    yield played("beside an input again and again", [COPIES], 2, f"error E11 circuit: redefined byte {len(header) + 2}",
                 Text(header, "2\n"))
    yield played("beside inputs", [COPIES], 2, f"error E15 strategy: inputs {VARIABLES} outputs {3 * VARIABLES}",
                 of_inputs(0, 0), [ALL_SAME])
    yield played("beside fairness literals", [COPIES], 5, "error E5: strategy-names 64",
                 of_list("aag", "0 0 0 0 0 N", "2\n"))
    # the driven copy owes the conjunction of all constraints, which has an and for each but one
    yield played("beside constraints", [COPIES], *PAST, of_list("aag", "0 0 0 N", "2\n"))
    yield played("beside a chain of ands", [COPIES], *WINS, chain_of_ands("aag"))


def strategies():
    for name, text, said in faults():
        yield played(name, text, 2, f"error E11 strategy: {said}")
    for name, text in misshapen():
        yield played(name, text, 2, "error E15 strategy: inputs 1 outputs 1")
    yield from well_shaped()
    yield from beside_formulas()
    yield from beside_circuits()


def three_driven():
    """Constraints of which three copies are driven: these owe the conjunction of three literals for each, with an and for
    each literal but one. A query has two frames of these ands and of 36 more variables, and further ones for its facts;
    so there is room for 2,796,191 constraints at most."""
    strategy, driven = ["aag 1 1 0 3 0\n2\n2\n2\n2\n"], ["forall p. exists q. exists r. exists s. a_s"]
    for form, what in FORMS:
        yield played(f"{what}three copies, constraints", strategy, *PAST, of_list(form, "0 0 0 N", "2\n"), driven, LARGE)
    for count, answer in ((30000000, PAST), (2796192, PAST), (2796180, WINS), (1500000, WINS)):
        yield played(f"three copies, {count:,} constraints", strategy, *answer, constraints(count), driven, LARGE)


# ---- certificates


def certified(name, kind, files, text, status, said, most=QUICK):
    named = {f"file{number}": pieces for number, pieces in enumerate(files)}
    return Command(f"certificate: {name}", "hycheck", f"{kind} {' '.join(named)} out", {**named, "out": text}, status, said,
                   most)


def fitting(lines, front):
    """how many lines of this length fit behind so many bytes"""
    return (BYTES - front) // lines


def certificates():
    asked = [["exists p. a_p"]]
    yield certified("lassos, forall", "ea", [[ATOM]], Text("sat\n", "|{a}\n"), 0, "accepted")
    yield certified("lassos, exists", "ea", [["exists p. !a_p"]], Text("sat\n", "|{a}\n"), 1, "rejected")
    yield certified("lassos, the shortest lines", "ea", [["forall p. !a_p"]], Text("sat\n", "|{}\n"), 0, "accepted")
    yield certified("one cycle", "ea", asked, Text("sat\n|", "{a};", "{a}\n"), 5, "error E5: joint 4194304")
    small = Choices(4, 20)
    entry = next(small.branches(small.globally))
    count = fitting(len(entry), 8192)
    yield certified("rank proof, equal entries", "ea", [[small.formula]], small.proof(times(entry, count), count), 0,
                    "accepted")
    count = fitting(2, 8192)
    yield certified("rank proof, reasons", "ea", [[small.formula]], small.proof(
        (), 0, itertools.chain(["u 2\n"], times("n\n", count)), count + 1), 0, "accepted")
    one = "exists p. !(a_p -> a_p)"
    yield certified("two rank proofs, the second cut", "equivalent", [[one], [one]], Text(
        "equivalent\nproof rank 9999999999 1\n", "b 0 - -\n"), 2, f"error E14 out: line {fitting(8, 35) + 3}")
    net, always = Cone(0), ["forall p. true"]
    count = fitting(len("c -1 10 0 1 0\n"), 8192)
    yield certified("log, short clauses", "mc", [net.circuit, always], net.proof(0, net.clauses(count), count), 0,
                    "accepted")
    count = fitting(2, 8192)
    yield certified("log, a long chain", "mc", [net.circuit, always], net.proof(0, step=net.long_chain(count)), 0,
                    "accepted")
    yield certified("log, a long clause", "mc", [net.circuit, always], net.proof(
        0, itertools.chain(["c -1 "], times("2 ", count), ["0 1 0\n"]), 1), 0, "accepted")
    yield certified("facts", "mc", [net.circuit, always], Text(
        "holds\nproof induction 0 9999999999\n", "f 0 0\n"), 2, f"error E14 out: line {fitting(6, 35) + 3}")
    count = fitting(2, 8192)
    yield certified("a clause of latches", "mc", [net.circuit, always], net.proof(0, clause=net.long_fact(count)), 0,
                    "accepted")
    count = 65000
    yield certified("runs of 1,000 inputs", "mc", [inputs(1000), ["forall p. G !i_p"]], itertools.chain(
        ["violated\n"], times("{};", count), ["{i}|{}\nproof runs 1\n- "], times("0" * 1000 + ";", count),
        [f"1{'0' * 999}|{'0' * 1000}\n"]), 0, "accepted")
    yield certified("one long run", "mc", [ONE_INPUT, ["forall p. G !i_p"]], itertools.chain(
        ["violated\n"], times("{};", 13000000), ["{i}|{}\nproof runs 1\n- "], times("0;", 13000000), ["1|0\n"]), 5,
        "error E5: joint 4194304")
    yield certified("no text: sat", "ea", asked, Text("", "sat\n"), 2, "error E14 out: line 2")
    yield certified("no text: line feeds", "ea", asked, Text("", "\n"), 2, "error E14 out: line 1")
    yield certified("no text: one set", "ea", asked, Text("sat\n|{", "a,"), 2, "error E14 out: line 2")
    yield certified("no text: one number", "ea", asked, Text("unsat\nproof rank ", "9"), 2, "error E14 out: line 2")
    for depth in (100000, 100001):
        command = certified(f"depth {depth:,}, empty logs", "mc", [net.circuit, always], itertools.chain(
            [f"holds\nproof induction {depth} 0\n"], times("log 0\n", depth + 2)), 1, "rejected", (1, 1536))
        if depth == 100000:  # a proof that may be good by its depth; its last query is past the limit of queries
            command.answers.append((5, "error E5: cnf-variables 16777216"))
        yield command


def all_commands():
    yield from formulas()
    yield from traces()
    yield from lassos()
    yield from circuits()
    yield from strategies()
    yield from certificates()


def large_commands():
    yield from four_copies()
    yield from three_driven()
    yield from large_bodies()
