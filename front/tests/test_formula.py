"""Formulas: written out, with faults at the user's own place; the statement of a check; which part fails."""
import unittest

from himarelou.faults import Fault
from himarelou.formula import Text, parse, parse_one
from himarelou.runs import Judge
from himarelou.names import Names, atom, joined
from himarelou.statement import Reset, Statement

NAMES = Names(["rst", "busy", "d[0]", "d[1]", "s[0]", "s[1]", "m[0][0]", "m[0][1]", "m[1][0]", "u.tx_data[0]", "u.tx_data[1]", "a-b"])


class Writing(unittest.TestCase):
    def written(self, text, names=NAMES):
        return " ".join(parse_one(Text("f", text), names).text().split())

    def refused(self, text, words):
        with self.assertRaises(Fault) as caught:
            self.written(text)
        self.assertEqual(str(caught.exception), f"f:{words}")

    def test_equalities(self):
        self.assertEqual(self.written("forall p. forall q. d_p = d_q"),
                         'forall p. forall q. ("d[0]"_p <-> "d[0]"_q) & ("d[1]"_p <-> "d[1]"_q)')
        self.assertEqual(self.written("forall p. d_p != 2"), 'forall p. !(!"d[0]"_p & "d[1]"_p)')
        self.assertEqual(self.written("forall p. d[1:0]_p == s_p"), 'forall p. ("d[0]"_p <-> "s[0]"_p) & ("d[1]"_p <-> "s[1]"_p)')
        self.assertEqual(self.written("forall p. busy_p=rst_p"), "forall p. busy_p <-> rst_p")
        self.assertEqual(self.written("forall p. busy_p = 1"), "forall p. busy_p")
        self.assertEqual(self.written("exists p. u.tx_data[1]_p"), 'exists p. "u.tx_data[1]"_p')

    def test_signs_and_comments(self):
        self.assertEqual(self.written('forall p. # a " b\n G (busy_p && !rst_p || "a-b"_p) # end'),
                         'forall p. G (busy_p & !rst_p | "a-b"_p)')
        self.assertEqual(self.written("forall p. (rst_p -> busy_p) -> (rst_p & (busy_p | rst_p)) U !(rst_p <-> busy_p) & X busy_p"),
                         "forall p. (rst_p -> busy_p) -> (rst_p & (busy_p | rst_p)) U !(rst_p <-> busy_p) & X busy_p")
        self.assertEqual(self.written("forall p. ((rst_p U busy_p) U rst_p) <-> (rst_p -> (busy_p -> rst_p))"),
                         "forall p. (rst_p U busy_p) U rst_p <-> rst_p -> busy_p -> rst_p")

    def test_without_names(self):
        self.assertEqual(self.written("forall p. x[1:0]_p = 1", None), 'forall p. "x[0]"_p & !"x[1]"_p')

    def test_several(self):
        self.assertEqual([it.quantifiers for it in parse(Text("f", "forall p. busy_p; forall q. busy_q"), NAMES)], [(("forall", "p"),), (("forall", "q"),)])
        self.refused("forall p. busy_p; forall q. busy_p", "1:29: no quantifier binds the run p of busy_p")
        for text in ("(" * 100_000, "!" * 100_000, "busy_p & " * 100_000):
            self.refused("forall p. " + text, " too deep")

    def test_faults(self):
        for text, words in {
            "forall p. bsy_p": "1:11: no signal is named bsy; did you mean busy?",
            "forall p.\n data[7:0]_p = 1": "2:2: no signal is named data[7:0]; did you mean u.tx_data[1:0]?",
            "forall p. tx_data[7:0]_p = 1": "1:11: no signal is named tx_data[7:0]; did you mean u.tx_data[1:0]?",
            "forall p. d[3:0]_p = 1": "1:11: no signal is named d[3:0]; did you mean d[1:0]?",
            "forall p. busy_q": "1:11: no quantifier binds the run q of busy_q",
            "forall p. d_p": "1:11: d has 2 bits: compare it by =",
            "forall p. d_p = 4": "1:17: 4 has more than 2 bits",
            "forall p. d_p = busy_p": "1:11: d has 2 bits, busy has 1",
            "forall p. (busy_p": "1:18: `)` is wanted here, not the end",
            "forall p. busy_p)": "1:17: an operator is wanted here, not )",
            "forall p. busy_p &": "1:19: an operand is wanted here, not the end",
            "forall p, q. busy_p": "1:9: , begins nothing here: quantifiers are `forall p. forall q.`",
            "forall p. GG busy_p": "1:11: GG is no NAME_RUN; put a space between two operators",
            "forall p. busy_p ^ busy_p": "1:18: ^ begins nothing here",
            "busy_p": "1:1: `forall` or `exists` is wanted here, not busy_p",
            "": "1:1: `forall` or `exists` is wanted here, not the end",
            "forall p. \x1b[31m": "1:11: \\x1b begins nothing here",
        }.items():
            with self.subTest(text):
                self.refused(text, words)

    def test_names(self):
        self.assertEqual(NAMES.bits("m"), ["m[0][0]", "m[0][1]", "m[1][0]"])
        self.assertEqual(joined(["a[0]", "b", "a[2]", "a[1]", "c[3]", "c[0]"]), ["a[2:0]", "b", "c[3]", "c[0]"])
        self.assertEqual([atom("a", "p"), atom("a[0]", "p"), atom("_a", "p")], ["a_p", '"a[0]"_p', '"_a"_p'])


class Stating(unittest.TestCase):
    def test_formula(self):
        self.assertEqual(" ".join(Statement(Reset("r"), ["i"], ["g"], ["s"]).formula().text().split()),
                         "forall p. forall q. r_p -> !(((r_p <-> r_q) & (i_p <-> i_q) & (r_p | (g_p <-> g_q))) "
                         "U ((r_p <-> r_q) & (i_p <-> i_q) & (r_p | (g_p <-> g_q)) & !(r_p | (s_p <-> s_q))))")
        self.assertEqual(" ".join(Statement(None, [], [], ["s"]).formula().text().split()),
                         "forall p. forall q. !(true U (true & !(s_p <-> s_q)))")
        self.assertIn("!n_p ->", Statement(Reset("n", True), ["i"], [], ["s"]).formula().text())


class Judging(unittest.TestCase):
    """On the word a; then b and c by turns: a holds at 0, b at 1, 3, .., c at 2, 4, .."""

    def judge(self):
        return Judge(lambda name, _, at: {0: "a", 1: "b", 2: "c"}[at] == name, 1, 3)

    def test_values(self):
        for text, value in {"a_p": 1, "b_p": 0, "X b_p": 1, "G F b_p": 1, "F G b_p": 0, "a_p U b_p": 1, "b_p R c_p": 0, "G (a_p | b_p | c_p)": 1,
                            "a_p W c_p": 0, "X (b_p W a_p)": 0, "G (b_p -> X c_p)": 1, "a_p <-> X b_p": 1, "F (c_p & X X c_p)": 1}.items():
            with self.subTest(text):
                self.assertEqual(self.judge().row(parse_one(Text("f", f"forall p. {text}"), None).body)[0], bool(value))

    def test_failing_part(self):
        for content, wanted in {"forall p. a_p -> G (a_p | X c_p) & true": ("c_p", 1), "forall p. !(a_p U (X c_p & !a_p))": ("a_p", 1)}.items():
            part, at = self.judge().failing(parse_one(Text("f", content), None).body)
            self.assertEqual((part.text(), at), wanted)
