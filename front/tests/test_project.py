"""The project file: what it says, and faults with their line and key."""
import time

from himarelou.faults import Fault
from himarelou.project import lines_of, read_project
from himarelou.schema import DEFAULT, Stage
from himarelou.statement import Reset
from tests import Folder

WHOLE = '''[circuit]
sources = ["rtl/*.v"]
reset = "!rst_n"
define = { WIDTH = 8, FAST = true }
[check.lamp]
secret = ["code"]
same = ["busy"]
given = ["accept"]
[check.wins]
formula = "forall p. exists q. a_q"
strategy = { file = "wins.aag" }
[monitor.lamp-2]
equal = ["press"]
same = ["busy"]
traces = ["runs/*.traces"]
'''


class Reading(Folder):
    def read(self, text):
        return read_project(self.put("himarelou.toml", text))

    def refused(self, text, words):
        with self.assertRaises(Fault) as caught:
            self.read(text)
        self.assertEqual(str(caught.exception).removeprefix(f"{self.folder}/himarelou.toml:"), words)
        self.assertEqual(caught.exception.status, 2)

    def test_whole(self):
        project = self.read(WHOLE)
        design = project.circuits["circuit"]
        self.assertEqual((design.sources, design.reset, design.define), (("rtl/*.v",), Reset("rst_n", True), (("WIDTH", 8), ("FAST", True))))
        lamp, wins, monitor = project.questions
        self.assertEqual((lamp.secret, lamp.same, lamp.given, lamp.expect, lamp.circuit), (("code",), ("busy",), ("accept",), "holds", "circuit"))
        self.assertEqual((wins.strategy.file, wins.expect), ("wins.aag", "holds with strategy"))
        self.assertEqual((monitor.kind, monitor.name, monitor.expect), ("monitor", "lamp-2", "no violation"))
        self.assertEqual(lamp.stages, DEFAULT)

    def test_several_circuits(self):
        text = '[circuit.a]\nfile = "a.aag"\n[circuit.b]\nfile = "b.aag"\n[check.x]\nequal = []\n'
        self.refused(text, "5: check.x: it wants circuit, since there are several")
        self.refused(text + 'circuit = "c"', "7: check.x.circuit: no such circuit")
        self.assertEqual(self.read(text + 'circuit = "b"').questions[0].circuit, "b")

    def test_stages(self):
        text = '[circuit]\nfile = "a.aag"\n[check.x]\nequal = []\nstages = [{ depth = 3, plain = true, seconds = 9 }]\n'
        self.assertEqual(self.read(text).questions[0].stages, (Stage(("--plain", "--depth", "3"), 9),))
        self.refused(text.replace("plain = true", "ic3 = 0"), "5: check.x.stages: a list of stages is wanted")
        self.refused(text.replace("depth = 3, plain = true", "ic3 = 9"), "5: check.x.stages: a list of stages is wanted")

    def test_faults(self):
        circuit = '[circuit]\nfile = "a.aag"\n'
        for text, words in {
            "[circuits]": "1: circuits: no such table; did you mean circuit?",
            circuit + '[check.x]\n\nsecrt = ["a"]': "5: check.x.secrt: no such key; did you mean secret?",
            circuit + '[check.x]\nsecret = "a"': "4: check.x.secret: a list of texts is wanted",
            circuit + '[check.x]\nsecret = [\n  "a",\n  3]': "4: check.x.secret: a list of texts is wanted",
            circuit + '[check.x]\nsecret = ["a"]\nequal = ["b"]': "5: check.x.equal: it stands beside no secret",
            circuit + '[check.x]\nformula = "x"\nfile = "b"': "5: check.x.file: it stands beside no formula",
            circuit + '[check.x]\nfile = "b"\nsame = ["a"]': "5: check.x.same: it stands beside no file",
            circuit + "[check.x]\nbudget = 3": "3: check.x: it wants secret or equal or formula or file",
            circuit + '[check.x]\nsecret = ["a"]\nexpect = "no violation"': '5: check.x.expect: "holds" or "violated" is wanted',
            circuit + '[check.x]\nfile = "a"\nstrategy = { fil = "b" }': "5: check.x.strategy.fil: no such key; did you mean file?",
            circuit + '[check."a b"]\nsecret = ["a"]': "3: check.a b: a name is letters, digits, _ and -",
            circuit + '[check."../x"]\nsecret = ["a"]': "3: check.../x: a name is letters, digits, _ and -",
            circuit + "check = 3": "3: circuit.check: no such key",
            '[circuit]\nfile = "a"\ntop = "b"': "3: circuit.top: it stands beside no file",
            '[circuit]\nsources = ["a.v"]\ntop = "b; shell"': "3: circuit.top: an identifier is wanted",
            '[circuit]\nsources = ["a.v"]\ndefine = { A = "1; !ls" }': "3: circuit.define: a table of identifiers with numbers or words "
                                                                       "of letters, digits and _ ' . + - is wanted",
            '[circuit]\nsources = ["a.v"]\nclocks = "all"': '3: circuit.clocks: "inputs" is wanted',
            '[circuit]\nreset = "r"': "1: circuit: it wants sources or file",
            '[monitor.x]\nsame = ["a"]': "1: monitor.x: it wants traces",
            '[monitor.x]\nsecret = ["a"]': "2: monitor.x.secret: no such key",
            circuit + '[check.x]\nequal = []\n[monitor.x]\nsame = ["a"]\ntraces = "t"': "5: monitor.x: a check has this name, too",
            "[check.x]\nequal = []": "1: check.x: there is no [circuit]",
            "a = 1\na = 2": "2: Cannot overwrite a value",
            "a = [": "1: Invalid value",
        }.items():
            with self.subTest(text):
                self.refused(text, words)

    def test_no_text(self):
        self.refused(b"[circuit]\n\xff", "2: no UTF-8")
        self.refused(b"\xef\xbb\xbf[circuit]\n\xff", "2: no UTF-8")

    def test_byte_order_mark(self):
        self.assertEqual(self.read(b"\xef\xbb\xbf" + WHOLE.encode()).questions, self.read(WHOLE).questions)

    def test_lines(self):
        text = 'a = """\n[x]\nb = 1\n"""\n[t."q r"] # c\nd.e = [\n  1,\n  2]\nf = "[x]"\n\'g\' = 3\n'
        self.assertEqual(lines_of(text), {("a",): 1, ("t",): 5, ("t", "q r"): 5, ("t", "q r", "d"): 6, ("t", "q r", "d", "e"): 6,
                                          ("t", "q r", "f"): 9, ("t", "q r", "g"): 10})


class Hostile(Folder):
    def test_many_checks(self):
        text = '[circuit]\nfile = "a.aag"\n' + "".join(f'[check.c{it}]\nsecret = ["a"]\n' for it in range(10_000))
        begun = time.monotonic()
        project = read_project(self.put("himarelou.toml", text))
        self.assertEqual((len(project.questions), project.questions[-1].name), (10_000, "c9999"))
        self.assertLess(time.monotonic() - begun, 20)

    def test_large_and_deep(self):
        for text, words in (("#" * (64 << 20), "more than 4194304 bytes"), ("a = " + "[" * 100_000, "too many lists or tables in one another")):
            with self.assertRaisesRegex(Fault, words):
                read_project(self.put("himarelou.toml", text))
