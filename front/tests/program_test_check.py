"""The front with the proved programs: verdicts, evidence, what is kept, what is stopped, reports, hostile projects."""
import contextlib
import json
import os
import pty
import random
import re
import select
import shutil
import signal
import subprocess
import sys
import time
import unittest
import xml.etree.ElementTree as ET
from pathlib import Path

from himarelou.aiger import Circuit, written
from himarelou.gates import Builder
from himarelou.programs import program
from himarelou.runs import failing_part, runs_of
from himarelou.statement import FORMULAS, PARTED, Reset, Statement, pair_of, split
from tests import HIMARELOU, TOP, Folder, needs
from tests.test_circuits import CELL

PROJECT = '[circuit]\nfile = "cell.aag"\nreset = "r"\n'
LEAK = PROJECT + '[check.cell]\nsecret = ["d"]\nsame = ["o"]\n'


class Checking(Folder):
    def setUp(self):
        super().setUp()
        self.put("cell.aag", CELL)

    def results(self, text, *words, status=0):
        self.put("himarelou.toml", text)
        self.run_front("check", *words, "--json", "r.json", "--junit", "r.xml", status=status)
        return {it["name"]: it for it in json.loads((self.folder / "r.json").read_text())["checks"]}

    def test_leak(self):
        result = self.results(LEAK + 'expect = "violated"\n')["cell"]
        self.assertEqual((result["answer"], result["evidence"], result["outcome"]), ("violated", "accepted by hycheck", "as expected"))
        self.assertIn("o differs in cycle", " ".join(result["notes"]))
        ET.parse(result["files"]["picture"] if os.path.isabs(result["files"]["picture"]) else self.folder / result["files"]["picture"])
        self.assertEqual(self.results(LEAK, status=1)["cell"]["outcome"], "not as expected")

    def test_statements(self):
        """What is written is shown; if it is shown anyway it is no leak; with nothing written none shows it."""
        found = self.results(PROJECT + '[check.given]\nsecret = ["d"]\ngiven = ["q"]\nsame = ["o"]\n[check.equal]\nequal = ["w"]\nsame = ["q"]\n'
                             'assume = "!w"\n[check.all]\nequal = ["w", "d"]\n', status=1)
        self.assertEqual({name: (it["answer"], it["vacuity"]) for name, it in found.items()},
                         {"given": ("holds", "met"), "equal": ("holds", "met"), "all": ("holds", "vacuous")})
        self.assertIn("assumed in each cycle: !w", found["equal"]["notes"])

    def test_no_reset(self):
        """Two cells start with 0, so without a reset the same holds; a start that may be either is a leak."""
        self.assertEqual(self.results('[circuit]\nfile = "cell.aag"\n[check.x]\nequal = ["r", "w", "d"]\n', status=1)["x"]["vacuity"], "vacuous")
        self.put("cell.aag", CELL.replace(b"\n8 16\n", b"\n8 16 8\n"))
        self.assertEqual(self.results('[circuit]\nfile = "cell.aag"\n[check.x]\nequal = ["r", "w", "d"]\n', status=1)["x"]["answer"], "violated")
        self.assertEqual(self.results(PROJECT + '[check.x]\nequal = ["r", "w", "d"]\n')["x"]["vacuity"], "met")
        self.assertEqual(self.results(PROJECT + '[check.x]\nsecret = ["q"]\n', status=1)["x"]["vacuity"], "vacuous")

    def test_formulas(self):
        found = self.results(PROJECT + '[check.reachable]\nformula = "exists p. F o_p"\n[check.never]\nformula = "exists p. F (o_p && !q_p)"\n'
                             'expect = "violated"\n[check.met]\nformula = "forall p. G (o_p -> F o_p)"\nmet = "exists p. F o_p"\n'
                             '[check.vacuous]\nformula = "forall p. G (o_p & !q_p -> r_p)"\nmet = "exists p. F (o_p & !q_p)"\n', status=1)
        self.assertEqual({name: (it["answer"], it["vacuity"], it["outcome"]) for name, it in found.items()}, {
            "reachable": ("holds", "", "as expected"), "never": ("violated", "", "as expected"), "met": ("holds", "met", "as expected"),
            "vacuous": ("holds", "vacuous", "not as expected")})

    def test_faults(self):
        for text, words in {
            '[check.x]\nsecret = ["d"]\nsame = ["p"]': "himarelou.toml:6: check.x.same: no signal is named p",
            '[check.x]\nsecret = ["o"]\nsame = ["o"]': "himarelou.toml:5: check.x.secret: o is an output",
            '[check.x]\nformula = "forall p. G x_p"': "himarelou.toml:5: check.x.formula: formula:1:13: no signal is named x",
            '[check.x]\nfile = "none"': "none: No such file or directory",
            '[check.x]\nformula = "forall p. exists q. o_p"': "error E4 ",
            '[check.x]\nequal = []\nassume = "F w"': "himarelou.toml:6: check.x.assume: F speaks of other cycles",
        }.items():
            with self.subTest(text):
                result = self.results(PROJECT + text, status=2)["x"]
                self.assertEqual(result["answer"], "fault")
                self.assertIn(words, result["lines"][0])
        self.put("cell.aag", "none")
        self.assertIn("himarelou.toml:1: circuit: ", self.results(LEAK, status=2)["cell"]["lines"][0])

    def test_secret_that_is_gone(self):
        result = self.results(PROJECT + '[check.x]\nsecret = ["code"]\n', status=1)["x"]
        self.assertEqual(result["vacuity"], "vacuous")
        self.assertIn("vacuous: the circuit has no input or register code", result["notes"])

    def test_weights(self):
        """A fault outweighs what is not as expected, and that outweighs what is open."""
        stages = 'stages = [{ depth = 0, plain = true }]\n'
        opens = '[check.open]\nequal = ["w", "d"]\nsame = ["o"]\n' + stages
        wrong = '[check.wrong]\nformula = "exists p. F o_p"\nexpect = "violated"\n'
        self.assertEqual(self.results(PROJECT + opens, status=4)["open"]["lines"], ["--plain --depth 0: unknown depth 0"])
        self.results(PROJECT + opens + wrong, status=1)
        self.results(PROJECT + opens + wrong + '[check.fault]\nformula = "x"\n', status=2)

    def test_kept(self):
        self.assertFalse(self.results(LEAK, status=1)["cell"]["is_kept"])
        result = self.results(LEAK, status=1)["cell"]
        self.assertTrue(result["is_kept"] and result["evidence"] == "accepted by hycheck")
        self.put("cell.aag", CELL + b"c\nother\n")
        self.assertFalse(self.results(LEAK, status=1)["cell"]["is_kept"])
        answer = self.folder / ".himarelou/checks/cell/answer"
        answer.write_text(answer.read_text().replace("1", "0"))
        self.results(LEAK, status=2)

    def test_open_is_kept_for_no_larger_budget(self):
        text = PROJECT + '[check.x]\nequal = ["w", "d"]\nsame = ["o"]\nstages = [{ depth = 0, plain = true }]\nbudget = '
        self.assertEqual([self.results(text + it, status=4)["x"]["is_kept"] for it in ("10", "10", "5", "20")], [False, True, True, False])

    def test_results_of_others_are_not_believed(self):
        self.results(LEAK, status=1)
        record = self.folder / ".himarelou/checks/cell/answer.json"
        (self.folder / "state/himarelou/key").write_bytes(b"another user's")
        self.assertFalse(self.results(LEAK, status=1)["cell"]["is_kept"])
        record.write_text("[" * 100_000)
        self.assertFalse(self.results(LEAK, status=1)["cell"]["is_kept"])

    def test_reports(self):
        self.results(LEAK + '[check.x]\nformula = "y"\n[check.z]\nformula = "exists p. F o_p"\n', status=2)
        suite = ET.parse(self.folder / "r.xml").getroot()
        self.assertEqual({it: suite.get(it) for it in ("tests", "failures", "errors", "skipped")}, {"tests": "3", "failures": "1", "errors": "1", "skipped": "0"})
        self.assertEqual([[it.get("name"), it[0].tag] for it in suite], [["cell", "failure"], ["x", "error"], ["z", "system-out"]])
        self.assertEqual((self.folder / ".himarelou/.gitignore").read_text(), "*\n")

    def test_names(self):
        self.put("himarelou.toml", LEAK + '[check.z]\nformula = "exists p. F o_p"\n')
        self.assertIn("1 checks: 1 as expected", self.run_front("check", "z").stdout)
        self.assertIn("did you mean cell?", self.run_front("check", "cel", status=2).stderr)
        self.run_front("check", str(self.folder), "z", cwd="/")
        self.run_front("check", "none.toml", status=2)

    def test_monitor(self):
        self.put("runs/a b.traces", "{start};{};{done}\n{start,key};{};{done}")
        self.put("runs/c.traces", "{start,key};{done};{}\n")
        text = '[monitor.m]\nequal = ["start"]\nsame = ["done"]\ntraces = ["runs/*.traces"]\n'
        self.assertEqual(self.results(text, status=1)["m"]["notes"], ["violation of spec 0 at trace 2 by 2 0"])
        self.assertEqual(self.results(text.replace("*", "a*"))["m"]["notes"], ["no violation in 2 traces"])
        self.assertIn("no trace has dome", self.results(text.replace('"done"', '"dome"'))["m"]["notes"][0])
        self.put("runs/c.traces", "{start}\n{start\n")
        self.assertRegex(self.results(text, status=2)["m"]["lines"][0], "error E9 .*line 4")


class Examples(Folder):
    def test_all(self):
        shutil.copytree(TOP / "examples", self.folder / "examples", ignore=shutil.ignore_patterns(".himarelou"))
        for folder, count in (("examples", 6), ("examples/lock", 4)):
            self.assertIn(f"{count} checks: {count} as expected", self.run_front("check", folder, "--json", "r.json").stdout)
            for it in json.loads((self.folder / "r.json").read_text())["checks"]:
                carried = "no certificate exists" if it["kind"] == "monitor" or "strategy" in it["answer"] else "accepted by hycheck"
                self.assertTrue(it["evidence"].startswith(carried), it)


class Stopping(Folder):
    """Stopped at any line that it prints, it leaves no process, and the next call ends with the same table."""

    names = ()

    def stopped(self, folder, count, how=signal.SIGINT, interrupts=signal.SIG_DFL):
        """Stops a check of a folder at its line of this number: the lines up to it, and the status. However these tests were started,
        the check begins with SIGINT as said."""
        process = subprocess.Popen([HIMARELOU, "check", folder, *self.names, "--jobs", "1"], cwd=self.folder, stdout=subprocess.PIPE, text=True,
                                   preexec_fn=lambda: signal.signal(signal.SIGINT, interrupts))
        lines = [process.stdout.readline() for _ in range(count)]
        process.send_signal(how)
        process.communicate(timeout=60)
        self.assertEqual([it for it in Path("/proc").glob("[0-9]*/cmdline") if str(self.folder).encode() in contents_of(it)], [])
        return [it.rstrip() for it in lines if it], process.returncode

    def table(self, folder):
        self.run_front("check", folder, *self.names, "--jobs", "1", "--json", "r.json", status=None)
        return [[it[key] for key in ("name", "answer", "outcome", "stage", "evidence", "vacuity", "notes", "lines")]
                for it in json.loads((self.folder / "r.json").read_text())["checks"]]

    def stop_at_each_line(self, folder):
        whole, count = self.table(folder), 0
        shutil.rmtree(self.folder / folder / ".himarelou")
        while True:
            count += 1
            lines, status = self.stopped(folder, count)
            if status != 130:
                return
            with self.subTest(lines[-1]):
                self.assertEqual(self.table(folder), whole)
            shutil.rmtree(self.folder / folder / ".himarelou", ignore_errors=True)

    def test_small(self):
        self.put("cell/cell.aag", CELL)
        self.put("cell/himarelou.toml", PROJECT + '[check.given]\nsecret = ["d"]\ngiven = ["q"]\nsame = ["o"]\n[check.leak]\nsecret = ["d"]\n')
        self.stop_at_each_line("cell")

    @unittest.skipUnless(os.environ.get("HIMARELOU_LONG"), "takes minutes: HIMARELOU_LONG=1 runs it")
    def test_lock(self):
        shutil.copytree(TOP / "examples/lock", self.folder / "lock", ignore=shutil.ignore_patterns(".himarelou"))
        self.names = ("lamp", "opens", "bench")
        self.stop_at_each_line("lock")

    def test_stages_that_ended_are_kept(self):
        shutil.copy(TOP / "examples/lock/leaking.aag", self.folder)
        self.put("himarelou.toml", '[circuit]\nfile = "leaking.aag"\nreset = "rst"\n[check.lamp]\nsecret = ["code"]\nsame = ["busy"]\n'
                                   'given = ["accept"]\nstages = [{ depth = 1, plain = true }, { depth = 25, plain = true }]\n')
        lines = ["lamp: circuit ..", "lamp: 50 registers, 267 ands ..", "lamp: --plain --depth 1 ..", "lamp: --plain --depth 25 .."]
        self.assertEqual(self.stopped(".", 4), (lines, 130))
        for how in (signal.SIGINT, signal.SIGTERM, signal.SIGHUP):
            self.assertEqual(self.stopped(".", 3, how), (lines[:2] + lines[3:], 130))
        # as behind & of a script
        self.assertEqual(self.stopped(".", 3, signal.SIGTERM, signal.SIG_IGN), (lines[:2] + lines[3:], 130))


def contents_of(path):
    """The bytes of a file, none where it is gone."""
    with contextlib.suppress(OSError):
        return path.read_bytes()
    return b""


class Streams(Folder):
    """What can't be written is said in a line, or left out on standard error; a file that is named is written as what it is."""

    def setUp(self):
        super().setUp()
        self.put("cell.aag", CELL)
        self.put("himarelou.toml", LEAK + 'expect = "violated"\n')

    def ended(self, *words, by=HIMARELOU, in_folder=None, **streams):
        return subprocess.run([by, *words], cwd=in_folder or self.folder, env={**os.environ, "XDG_STATE_HOME": str(self.folder / "state")},
                              text=True, check=False, timeout=60, **streams)

    def test_full_output(self):
        for words in ("check",), ("--version",), ("check", "--help"):
            with self.subTest(words), open("/dev/full", "wb") as full:
                ended = self.ended(*words, stdout=full, stderr=subprocess.PIPE)
                self.assertEqual((ended.returncode, ended.stderr), (3, "himarelou: standard output: No space left on device\n"))

    def test_no_output(self):
        ended = self.ended("-c", 'exec "$0" check >&-', HIMARELOU, by="sh", capture_output=True)
        self.assertEqual((ended.returncode, ended.stderr), (3, "himarelou: there is no standard output\n"))

    def test_no_input(self):
        ended = self.ended("-c", 'exec "$0" formula - <&-', HIMARELOU, by="sh", capture_output=True)
        self.assertEqual((ended.returncode, ended.stderr), (3, "himarelou: there is no standard input\n"))

    def test_endless_input(self):
        with open("/dev/zero", "rb") as endless:
            ended = self.ended("formula", "-", stdin=endless, capture_output=True)
        self.assertEqual((ended.returncode, ended.stderr), (2, "himarelou: standard input: more than 67108864 bytes\n"))

    def test_full_error(self):
        for words, status in ((), 2), (("check",), 0), (("check", "nothing"), 2), (("check", "--jobs", "0"), 2), (("circuit", "a.v", "b.v"), 2):
            with self.subTest(words), open("/dev/full", "wb") as full:
                self.assertEqual(self.ended(*words, stdout=subprocess.DEVNULL, stderr=full).returncode, status)

    def test_reader_that_left(self):
        reader, writer = os.pipe()
        os.close(reader)
        ended = self.ended("check", stdout=writer, stderr=subprocess.PIPE)
        os.close(writer)
        self.assertEqual((ended.returncode, ended.stderr), (3, ""))

    def test_results_behind_a_link(self):
        (self.folder / "link.json").symlink_to("real.json")
        for _ in range(2):
            self.run_front("check", "--json", "link.json")
            self.assertTrue((self.folder / "link.json").is_symlink())
            self.assertEqual(len(json.loads((self.folder / "real.json").read_text())["checks"]), 1)

    def test_results_in_a_pipe(self):
        os.mkfifo(self.folder / "pipe")
        reader = os.open(self.folder / "pipe", os.O_RDONLY | os.O_NONBLOCK)
        self.run_front("check", "--json", "pipe")
        self.assertEqual(len(json.loads(os.read(reader, 1 << 16))["checks"]), 1)
        self.assertTrue((self.folder / "pipe").is_fifo())
        os.close(reader)

    def test_results_on_standard_output(self):
        """As /dev/stdout, into a pipe and into a file, behind the lines that stand there."""
        (self.folder / "output").symlink_to("/proc/self/fd/1")
        printed = self.ended("check", "--json", "output", stdout=subprocess.PIPE).stdout
        with open(self.folder / "lines", "w", encoding="utf-8") as file:
            self.ended("check", "--json", "output", stdout=file)
        for text in (printed, (self.folder / "lines").read_text()):
            lines, result = text.split("\n{", 1)
            self.assertTrue(lines.endswith("1 checks: 1 as expected"))
            self.assertEqual(len(json.loads("{" + result)["checks"]), 1)
        self.assertTrue((self.folder / "output").is_symlink())

    def test_folder_that_is_gone(self):
        gone = self.folder / "gone"
        gone.mkdir()
        ended = self.ended("-I", "-B", "-S", str(TOP / "front"), "check", "--json", "r.json", str(self.folder), by=sys.executable,
                           in_folder=gone, preexec_fn=gone.rmdir, capture_output=True)
        self.assertEqual((ended.returncode, ended.stderr), (3, "himarelou: r.json: No such file or directory\n"))


class Terminal(Folder):
    def seen(self, **environment):
        """What stands on a terminal."""
        self.put("cell.aag", CELL)
        self.put("himarelou.toml", LEAK + 'expect = "violated"\n')
        here, there = pty.openpty()
        process = subprocess.Popen([HIMARELOU, "check"], cwd=self.folder, stdin=there, stdout=there, stderr=there,
                                   env={**os.environ, "TERM": "xterm", **environment})
        os.close(there)
        said = b""
        while select.select([here], [], [], 30)[0]:
            try:
                said += os.read(here, 4096)
            except OSError:
                break
        os.close(here)
        self.assertEqual(process.wait(), 0)
        return said.decode()

    def test_colours(self):
        self.assertIn("\x1b[32m", self.seen())
        said = self.seen(NO_COLOR="1")
        self.assertNotRegex(said, r"\x1b\[\d+m")
        self.assertRegex(said, r"check +answer +seconds +by")


class Hostile(Folder):
    def test_links(self):
        self.put("cell.aag", CELL)
        self.put("himarelou.toml", LEAK)
        (self.folder / "elsewhere").mkdir()
        (self.folder / ".himarelou").symlink_to(self.folder / "elsewhere")
        self.assertIn("is a link", self.run_front("check", status=2).stderr)
        (self.folder / ".himarelou").unlink()
        (self.folder / ".himarelou").mkdir()
        (self.folder / ".himarelou/checks").symlink_to(self.folder / "elsewhere")
        self.run_front("check", status=2)
        self.assertEqual(list((self.folder / "elsewhere").iterdir()), [])

    def test_links_to_files(self):
        """What stands in the folder of results under the names of results may be links, or folders."""
        self.put("cell.aag", CELL)
        self.put("himarelou.toml", LEAK + 'expect = "violated"\n')
        dear = self.put("dear", "dear")
        self.run_front("check")
        room = self.folder / ".himarelou/checks/cell"
        names = [it.name for it in room.iterdir()]
        self.assertLessEqual({"answer", "answer.json", "formula", "picture.svg", "picture.vcd"}, set(names))
        for name in [*names, ".new-answer"]:
            (room / name).unlink(missing_ok=True)
            (room / name).symlink_to(dear)
        self.run_front("check")
        self.assertEqual(dear.read_text(), "dear")
        for name in ("answer", "picture.svg"):
            (room / name).unlink()
            (room / name).mkdir()
            self.assertIn("1 fault", self.run_front("check", status=2).stdout)
            (room / name).rmdir()

    def test_pipes(self):
        os.mkfifo(self.folder / "pipe")
        self.put("cell.aag", CELL)
        self.put("himarelou.toml", '[circuit.a]\nfile = "pipe"\n[circuit.b]\nfile = "cell.aag"\n[check.x]\ncircuit = "a"\nequal = []\n'
                                   '[check.y]\ncircuit = "b"\nfile = "pipe"\n')
        self.assertIn("2 checks: 2 fault", self.run_front("check", status=2, timeout=60).stdout)

    def test_names_of_a_circuit(self):
        """Names with escapes of a terminal, marks of XML and the like are only ever shown escaped."""
        self.put("cell.aag", CELL.replace(b"o0 o\n", b"o0 \x1b[31m<&\"]]>;$(touch x)\n"))
        self.put("himarelou.toml", PROJECT + '[check.cell]\nsecret = ["d"]\n')
        done = self.run_front("check", "--junit", "r.xml", "--json", "r.json", status=None)
        self.assertNotIn("\x1b", done.stdout + done.stderr)
        ET.parse(self.folder / "r.xml")
        self.assertNotIn("\x1b", (self.folder / "r.json").read_text())
        self.assertFalse((self.folder / "x").exists())

    def test_one_of_ten_thousand(self):
        self.put("cell.aag", CELL)
        self.put("himarelou.toml", PROJECT + "".join(f'[check.c{it}]\nsecret = ["d"]\nexpect = "violated"\n' for it in range(10_000)))
        self.assertIn("1 checks: 1 as expected", self.run_front("check", "c77").stdout)


class Random(Folder):
    """The pair and the formula over two runs say the same, and each leak of the pair is one of the circuit."""

    COUNT = int(os.environ.get("HIMARELOU_RANDOM", "60"))

    def test_agree(self):
        seed = random.Random(7)
        answers, compared = set(), 0
        for _ in range(self.COUNT):
            circuit, statement = random_question(seed)
            formula, pair = statement.formula(), pair_of(circuit, statement, PARTED)
            two, (one, answer) = self.asked(circuit, formula.text())[0], self.asked(pair, FORMULAS[PARTED])
            answers.update((one, two))
            if "open" not in (one, two):
                self.assertEqual(two, one, written(circuit).decode() + formula.text())
                compared += 1
            if one == "violated":
                runs = split(runs_of(answer)[0], circuit)
                self.assertTrue(all(it.is_right(circuit) for it in runs))
                self.assertIsNotNone(failing_part(formula, circuit, runs))
        self.assertLessEqual({"holds", "violated"}, answers)
        self.assertGreater(compared, self.COUNT * 0.9)
        print(f"front: {compared} of {self.COUNT} random circuits compared", file=sys.stderr)

    def asked(self, circuit, formula):
        files = [self.put("c.aag", written(circuit)), self.put("f", formula)]
        for words in (["--depth", "8"], ["--depth", "2", "--ic3", "10000"], ["--depth", "20"]):
            with contextlib.suppress(subprocess.TimeoutExpired):
                words = [program("mchyper"), *words, "--proof", *files]
                answer = subprocess.run(words, capture_output=True, text=True, timeout=10, check=False).stdout
                if answer.startswith(("holds", "violated")):
                    return answer.split("\n")[0], answer
        return "open", ""


def random_question(seed):
    """A circuit of up to four registers and inputs each, maybe with a constraint and a fairness literal, and a statement."""
    circuit = Circuit()
    builder = Builder(circuit)
    inputs = [builder.input(f"i{it}") for it in range(seed.randint(1, 4))]
    latches = [builder.latch(f"l{it}", seed.choice((0, 1, None))) for it in range(seed.randint(1, 4))]
    pool = inputs + [it.literal for it in latches]
    for _ in range(seed.randint(1, 8)):
        pool.append(builder.both(seed.choice(pool) ^ seed.randint(0, 1), seed.choice(pool) ^ seed.randint(0, 1)))
    for latch in latches:
        latch.next = seed.choice(pool) ^ seed.randint(0, 1)
    for place in range(3):
        builder.output(f"o{place}", seed.choice(pool) ^ seed.randint(0, 1))
    if seed.random() < 0.3:
        circuit.constraints.append(seed.choice(pool) ^ seed.randint(0, 1))
    if seed.random() < 0.3:
        circuit.fairness.append(seed.choice(pool) ^ seed.randint(0, 1))
    names = [f"i{it}" for it in range(len(inputs))]
    reset = Reset("i0", seed.random() < 0.5) if seed.random() < 0.6 else None
    equal = [it for it in names if seed.random() < 0.6 and not (reset and it == "i0")]
    given = ["o2"] if seed.random() < 0.4 else []
    return circuit, Statement(reset, equal, given, ["o0", "o1"][:seed.randint(1, 2)], [it for it in names if it not in equal])


@needs("yosys")
class Designs(Folder):
    """What a user of Verilog meets."""

    def made(self, text, *words, status=0, name="a b.v"):
        self.put(name, text)
        done = self.run_front("circuit", "o.aag", *words, name, status=status)
        return done.stderr, (self.folder / "o.aag").read_text() if not status else ""

    def test_findings(self):
        said, circuit = self.made("module m(input clk, input rst, input d, output q, output s);\nreg r, t, never;\n"
                                  "always @(posedge clk or posedge rst) if (rst) r <= 0; else r <= d;\nalways @(posedge clk) t <= r ^ never;\n"
                                  "assign q = r, s = d ? t : 1'bx;\nendmodule\n")
        self.assertEqual(said, "nothing drives (free in each cycle): never\nno start value: t, q\n"
                               "values x (free in each cycle): 1, as of a b.v:5\n2 registers, 6 ands\n".replace("6 ands", re.search(r"\d+ ands", said)[0]))
        for name in ("q", "r", "s", "t"):
            self.assertRegex(circuit, rf"(?m)^[lo]\d+ {name}$")

    def test_clocks(self):
        text = "module m(input a, input b, input d, output reg x, output reg y);\nalways @(posedge a) x <= d;\nalways @(negedge b) y <= x;\nendmodule\n"
        self.assertIn("several clocks: negedge b, posedge a", self.made(text, status=2)[0])
        self.assertIn("assumed: clocks are inputs", self.made(text, "--clocks", "inputs")[0])

    def test_memory_and_start(self):
        text = "module m(input clk, input [1:0] a, input d, input w, output q);\nreg store [0:3];\nalways @(posedge clk) if (w) store[a] <= d;\nassign q = store[a];\nendmodule\n"
        self.assertIn("the memory store has 4 bits", self.made(text, "--memory", "3", status=2)[0])
        self.assertIn("no start value: store[3:0]", self.made(text)[0])
        said = self.made(text, "--start", "zero")[0]
        self.assertIn("assumed: registers without a start value start with 0", said)
        self.assertNotIn("no start value", said)

    def test_parameters(self):
        text = "module m #(parameter W = 1) (input [W-1:0] a, output [W-1:0] b);\n`ifdef TURN\nassign b = ~a;\n`else\nassign b = a;\n`endif\nendmodule\n"
        self.assertIn("o3 b[3]", self.made(text, "--set", "W=4")[1])
        self.assertNotEqual(self.made(text)[1], self.made(text, "-D", "TURN")[1])

    def test_top(self):
        two = "module a(input i, output o); assign o = i; endmodule\nmodule b(input i, output o); a x(i, o); endmodule\n"
        self.assertIn("o0 o", self.made(two)[1])
        self.assertIn("top: say which, since no module uses b, c", self.made(two + "module c(input i); endmodule\n", status=2)[0])

    def test_hostile(self):
        for name in ("a;b.v", 'a"b.v', "-x.v", "a\nb.v", "a*b.v"):
            self.put(name, "module m(input a, output b); assign b = a; endmodule\n")
            done = self.run_front("circuit", "o.aag", "--", name, status=2)
            self.assertIn("yosys takes no path with", done.stderr)
        self.made("module m(input a); endmodule\n", "--top", "m; !touch x", status=2)
        self.made("module m(input a); endmodule\n", "--set", "a=1; !touch x", status=2)
        self.made("module m(input a); endmodule\n", "-D", "a=1 -o x", status=2)
        self.assertFalse((self.folder / "x").exists())

    def test_strategy_of_sources(self):
        """Its ports are put in order by their names, of vectors, too."""
        self.put("c.v", "module c(input clk, input [1:0] k, input [1:0] m, output reg [1:0] o);\nalways @(posedge clk) o <= k ^ m;\nendmodule\n")
        self.put("s.v", "module s(input [1:0] m_q, output [1:0] m_r, input [1:0] k_p, input [1:0] k_q, output [1:0] k_r);\n"
                        "assign m_r = m_q ^ k_q ^ k_p, k_r = k_p;\nendmodule\n")
        self.put("himarelou.toml", '[circuit]\nsources = ["c.v"]\nstart = "zero"\n[check.wins]\n'
                                   'formula = "forall p. forall q. exists r. G (k_r = k_p & o_r = o_q)"\nstrategy = { sources = ["s.v"] }\n')
        self.assertIn("holds with strategy, as expected", self.run_front("check").stdout)

    def test_fault_of_a_source(self):
        self.assertIn("a b.v:2: ERROR: syntax error", self.made("module m(\n;\n", status=2)[0])
        self.assertIn("no file is named none.v", self.run_front("circuit", "o.aag", "none.v", status=2).stderr)

    def test_project_of_sources(self):
        """A circuit is kept by its sources and what they include; a wide bus is asked of a pair."""
        self.put("rtl/size.vh", "`define W 33\n")
        self.put("rtl/top.v", '`include "size.vh"\nmodule top(input clk, input rst, input [`W-1:0] key, input [`W-1:0] d, output reg [`W-1:0] q);\n'
                              "always @(posedge clk) if (rst) q <= 0; else q <= d;\nendmodule\n")
        self.put("himarelou.toml", '[circuit]\nsources = ["rtl/*.v"]\nreset = "rst"\n[check.key]\nsecret = ["key", "d[0]"]\nsame = ["q"]\nexpect = "violated"\n'
                                   '[check.kept]\nsecret = ["key"]\n')
        done = self.run_front("check", "--json", "r.json")
        found = {it["name"]: it for it in json.loads((self.folder / "r.json").read_text())["checks"]}
        self.assertEqual((found["key"]["answer"], found["key"]["evidence"]), ("violated", "accepted by hycheck"))
        self.assertIn("of two copies", " ".join(found["key"]["notes"]))
        self.assertIn("differs in cycle", " ".join(found["key"]["notes"]))
        self.assertEqual((found["kept"]["answer"], found["kept"]["vacuity"]), ("holds", "met"))
        self.assertIn("nothing reads key[32:0]", found["kept"]["notes"])
        before = (self.folder / ".himarelou/circuits/circuit.json").read_text()
        self.run_front("check")
        self.assertEqual(before, (self.folder / ".himarelou/circuits/circuit.json").read_text())
        self.put("rtl/size.vh", "`define W 34\n")
        self.run_front("check")
        self.assertNotEqual(before, (self.folder / ".himarelou/circuits/circuit.json").read_text())
        self.assertNotIn("Traceback", done.stderr)


class Words(Folder):
    def test_help(self):
        for words in (["--help"], *([it, "--help"] for it in ("check", "circuit", "formula", "waves", "help"))):
            self.assertTrue(self.run_front(*words).stdout.startswith("usage: himarelou"))
        self.assertIn("mchyper", self.run_front("help", "mchyper", status=None).stdout + "mchyper")
        self.assertEqual([it.split()[0] for it in self.run_front("--version").stdout.splitlines()], ["himarelou", "rvhyper", "rvwatch", "eahyper", "mchyper", "hycheck"])
        self.run_front(status=2)
        self.run_front("chek", status=2)

    def test_through_links(self):
        (self.folder / "link").symlink_to(HIMARELOU)
        done = subprocess.run([self.folder / "link", "--help"], capture_output=True, text=True, check=False)
        self.assertEqual(done.returncode, 0, done.stderr)
        self.assertEqual(list((TOP / "front").rglob("__pycache__")), [])

    def test_formula(self):
        self.put("c.aag", CELL)
        self.put("f", "forall p. forall q. exists r. G (d_p == d_q && o_r) # c\n")
        self.assertEqual(self.run_front("formula", "--circuit", "c.aag", "f").stdout, "forall p. forall q. exists r.\n  G ((d_p <-> d_q) & o_r)\n")
        self.assertEqual(self.run_front("formula", "--order", "--circuit", "c.aag", "f").stdout.split("\n")[:4], ["input r_p", "input r_q", "input w_p", "input w_q"])
        self.put("f", "forall p. G x_p")
        self.assertEqual(self.run_front("formula", "--circuit", "c.aag", "f", status=2).stderr, "himarelou: f:1:13: no signal is named x\n")

    def test_waves(self):
        self.put("c.aag", CELL)
        self.put("f", "forall p. forall q. G (o_p <-> o_q)\n")
        with open(self.folder / "answer", "wb") as out:
            subprocess.run([program("mchyper"), "--proof", self.folder / "c.aag", self.folder / "f"], stdout=out, check=False)
        self.assertIn("o_p &lt;-&gt; o_q fails in cycle", self.run_front("waves", "c.aag", "answer", "--formula", "f").stdout)
        self.assertIn("$var wire 1 s0.0 o $end", self.run_front("waves", "--vcd", "--only", "o", "c.aag", "answer").stdout)
        self.assertIn("no signal of the picture", self.run_front("waves", "--only", "oo", "c.aag", "answer", status=2).stderr)


if __name__ == "__main__":
    unittest.main()
