"""Circuits: both forms of a file, playing, assumptions, ports of strategies, the pair, runs and pictures."""
import ast
import io
import sys
import tokenize
import unittest
import xml.etree.ElementTree as ET
from pathlib import Path

from himarelou.aiger import parse, value_of, written
from himarelou.faults import Fault
from himarelou.formula import Text, parse_one
from himarelou.gates import with_assumed
from himarelou.picture import scene_of, svg, vcd
from himarelou.runs import Run, failing_part, letters_of, played, runs_of
from himarelou.statement import MET, PARTED, Reset, Statement, in_order_of_ports, pair_of, ports_of, split
from tests import TOP

# Inputs r, w, d; register q: 0 where r is on, d where w is on, else as before. The output shows it.
CELL = b"""aag 8 3 1 1 4
2
4
6
8 16
8
10 6 4
12 8 5
14 13 11
16 15 3
i0 r
i1 w
i2 d
l0 q
o0 o
"""


class Files(unittest.TestCase):
    def test_both_forms(self):
        for path in (TOP / "examples").rglob("*.aag"):
            text = path.read_bytes()
            circuit = parse(text, path.name)
            self.assertEqual(parse(written(circuit), path.name), circuit)
            again = parse(written(circuit, False), path.name)
            self.assertEqual(written(again, False), written(circuit, False))
            self.assertEqual([it[:2] for it in again.signals()], [it[:2] for it in circuit.signals()])
        packed = b"aig 5 2 1 1 2 0 1 0 0\n10 0\n9\n4\n\x02\x02\x04\x01i0 a\nl0 q\n"
        self.assertEqual(written(parse(packed, "p"), False), packed)
        self.assertEqual(written(parse(packed, "p")), b"aag 5 2 1 1 2 0 1 0 0\n2\n4\n6 10 0\n9\n4\n8 6 4\n10 6 5\ni0 a\nl0 q\n")

    def test_play(self):
        circuit = parse(CELL, "cell")
        rows = [[0, 1, 1], [0, 0, 0], [1, 1, 1], [0, 0, 1], [0, 1, 1], [0, 0, 0]]
        self.assertEqual([value_of(it, 8) for it in circuit.play([0], rows)], [0, 1, 1, 0, 0, 1])

    def test_faults(self):
        for data in (b"", b"aag", b"aag 1 1 0 0 0\n", b"agg 0 0 0 0 0\n", b"aag 9999999999 0 0 0 0\n", b"aag 1 0 0 1 0\n9\n", b"aig 3 0 0 0 3\n\x00",
                     b"aag 2 0 0 0 2\n2 4 4\n4 2 2\n", b"aag 1 0 0 0 0 0 0 1 0\n1\n2\n", b"aag 1 0 1 0 0\n2 x\n"):
            with self.subTest(data), self.assertRaises(Fault):
                parse(data, "f")

    def test_assumed(self):
        circuit = with_assumed(parse(CELL, "cell"), ["w -> !(d = 1)", "!r"])
        self.assertEqual([[value_of(it, literal) for literal in circuit.constraints] for it in circuit.play([0], [[0, 1, 1], [1, 1, 0], [0, 0, 1]])],
                         [[0, 1], [1, 0], [1, 1]])
        for text, words in {"X w": "X speaks of other cycles", "v": "no signal is named v", "w &": "an operand is wanted"}.items():
            with self.assertRaisesRegex(Fault, words):
                with_assumed(parse(CELL, "cell"), [text])


class Strategies(unittest.TestCase):
    def test_order(self):
        circuit = parse(b"aag 2 2 0 0 0\n2\n4\ni0 a[0]\ni1 b\nc\n".replace(b"0 0 0\n2", b"0 2 0\n2").replace(b"4\ni0", b"4\n2\n4\ni0"), "c")
        formula = parse_one(Text("f", "forall p. forall q. exists r. b_r"), None)
        self.assertEqual([name for name, _ in ports_of(circuit, ["p", "q"])], ["a[0]_p", "a[0]_q", "b_p", "b_q"])
        strategy = parse(b"aag 3 3 0 2 0\n2\n4\n6\n4\n2\ni0 b_q\ni1 a_p[0]\ni2 clk\no0 a_r[0]\no1 b_r\n", "s")
        made = parse(written(in_order_of_ports(strategy, circuit, formula)), "m")
        self.assertEqual((made.inputs, made.outputs), ([4, 8, 10, 2], [4, 2]))
        for text, words in ((b"aag 1 1 0 1 0\n2\n2\ni0 x_p\no0 b_r\n", "no output a"), (b"aag 1 1 0 2 0\n2\n2\n2\ni0 x_p\no0 b_r\no1 a[0]_r\n", "x_p is no NAME_RUN")):
            with self.assertRaisesRegex(Fault, words):
                in_order_of_ports(parse(text, "s"), circuit, formula)


class Pairs(unittest.TestCase):
    def setUp(self):
        self.circuit = parse(CELL, "cell")
        self.statement = Statement(Reset("r"), ["w"], [], ["o"], ["d"])

    def play(self, asked, rows):
        pair = pair_of(self.circuit, self.statement, asked)
        self.assertEqual([len(pair.inputs), len(pair.outputs), len(pair.constraints)], [6, 1, 1])
        first = [0] * len(pair.latches)
        return [(value_of(it, pair.constraints[0]), value_of(it, pair.outputs[0])) for it in pair.play(first, rows)]

    def test_parted(self):
        """Both are reset, then `w` takes different secrets, and the outputs part in cycle 2; behind that all is free."""
        rows = [[1, 0, 0, 1, 0, 0], [0, 1, 1, 0, 1, 0], [0, 0, 0, 0, 0, 0], [0, 1, 0, 1, 0, 0]]
        self.assertEqual(self.play(PARTED, rows), [(1, 0), (1, 0), (1, 1), (1, 0)])

    def test_premise(self):
        self.assertEqual(self.play(PARTED, [[0, 0, 0, 0, 0, 0]])[0][0], 0, "no reset in the first cycle")
        self.assertEqual(self.play(PARTED, [[1, 0, 0, 1, 0, 0], [0, 1, 0, 0, 0, 0]])[1][0], 0, "w differs")

    def test_met(self):
        self.assertEqual([it[1] for it in self.play(MET, [[1, 0, 0, 1, 0, 1], [0, 0, 1, 0, 0, 0]])], [0, 1])

    def test_replay(self):
        run = Run([0] * 4, [[1, 0, 0, 1, 0, 0], [0, 1, 1, 0, 1, 0]], [[0, 0, 0, 0, 0, 0]])
        runs = split(run, self.circuit)
        self.assertTrue(all(it.is_right(self.circuit) for it in runs))
        self.assertEqual(failing_part(self.statement.formula(), self.circuit, runs), (2, "o_p <-> o_q fails in cycle 2"))
        self.statement.equal.append("d")
        self.assertIsNone(failing_part(self.statement.formula(), self.circuit, runs))


class Pictures(unittest.TestCase):
    ANSWER = 'violated\n|{w,d};{o,w}\n{w}|{}\nproof runs 2\n0 011;|000\n'

    def runs(self):
        runs = [Run([0], [[0, 1, 1]], [[0, 0, 0]], "0"), Run([0], [[0, 1, 0]], [[0, 0, 0]], "1")]
        self.circuit = parse(CELL, "cell")
        return runs

    def test_texts(self):
        self.assertEqual(letters_of('violated\n{a,"b c"};{}|{}\nproof runs 1\n'), [([{"a", "b c"}, set()], [set()])])
        runs = runs_of("violated\nproof runs 2\n01 0;1|1\n- |-;-\n")
        self.assertEqual((runs[0].first, runs[0].stem, runs[0].cycle, runs[1].first, runs[1].cycle), ([0, 1], [[0], [1]], [[1]], [], [[], []]))
        for text in ("holds\n", "violated\nproof runs 1\n", "violated\nproof runs 1\n01 2|1\n"):
            with self.assertRaises(Fault):
                runs_of(text)

    def test_played(self):
        circuit = parse(CELL, "cell")
        self.assertEqual(len(played(circuit, "violated\n{w}|{o}\nproof runs 1\n0 011|000\n")), 1)
        with self.assertRaisesRegex(Fault, "another circuit"):
            played(circuit, "violated\n{w,o}|{o}\nproof runs 1\n0 011|000\n")

    def test_picture(self):
        runs = self.runs()
        self.circuit.names["i", 2] = "<d>\x1b&"
        scene = scene_of(self.circuit, runs, 64)
        scene.title = ["a < b"]
        self.assertEqual([(it.label, it.parted()) for it in scene.lines], [("r", []), ("w", []), ("<d>\x1b&", [0]), ("o", [1]), ("q", [1])])
        texts = [it.text for it in ET.fromstring(svg(scene)).iter() if it.tag.endswith("text")]
        self.assertIn("<d>\\x1b&", texts)
        self.assertIn("a < b", texts)

    def test_only(self):
        scene = scene_of(parse(CELL, "cell"), self.runs(), 64)
        scene.only(["o", "d"])
        self.assertEqual([it.label for it in scene.lines], ["o", "d"])
        with self.assertRaisesRegex(Fault, "no signal of the picture is labelled x"):
            scene.only(["x"])

    def test_vcd(self):
        scene = scene_of(parse(CELL, "cell"), self.runs(), 64)
        scene.only(["o"])
        self.assertEqual(vcd(scene).split("\n")[1:], ["$scope module run_0 $end", "$var wire 1 s0.0 o $end", "$upscope $end", "$scope module run_1 $end",
                                                      '$var wire 1 s0.1 o $end', "$upscope $end", "$enddefinitions $end", "#0", "0s0.0", "0s0.1", "#1", "1s0.0", "#2", ""])


class Layout(unittest.TestCase):
    """What the house asks of the front's own files, and that it needs no other library."""

    def test_sizes(self):
        count = 0
        for path in Path(__file__).parents[1].glob("himarelou/*.py"):
            text = path.read_text(encoding="utf-8")
            self.assertLessEqual(text.count("\n"), 400, path)
            count += len(code_lines(text))
            for node in ast.walk(ast.parse(text)):
                if isinstance(node, ast.FunctionDef):
                    self.assertLessEqual(node.end_lineno - node.lineno + 1, 40, f"{path} {node.name}")
                if isinstance(node, (ast.Import, ast.ImportFrom)):
                    names = [it.name for it in node.names] if isinstance(node, ast.Import) else [node.module]
                    self.assertTrue(all(it.split(".")[0] in {"himarelou", *sys.stdlib_module_names} for it in names), path)
        self.assertLessEqual(count, 2500, "lines of code, without blank ones, comments and documentation")


def code_lines(text: str) -> set[int]:
    blank = {tokenize.COMMENT, tokenize.NL, tokenize.NEWLINE, tokenize.INDENT, tokenize.DEDENT, tokenize.ENDMARKER}
    lines = {line for it in tokenize.generate_tokens(io.StringIO(text).readline) if it.type not in blank for line in range(it.start[0], it.end[0] + 1)}
    for node in ast.walk(ast.parse(text)):
        if isinstance(node, (ast.Module, ast.ClassDef, ast.FunctionDef)) and ast.get_docstring(node) is not None:
            lines -= set(range(node.body[0].lineno, node.body[0].end_lineno + 1))
    return lines
