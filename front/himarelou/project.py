"""The project file `himarelou.toml` is read. A fault names its line and key."""
import re
import tomllib
from dataclasses import dataclass, field
from pathlib import Path
from typing import Any

from himarelou.faults import Fault, did_you_mean, shown
from himarelou.schema import CHECK, CIRCUIT, MONITOR, STRATEGY, Design, Question, Schema

FILE = "himarelou.toml"
MOST_BYTES = 1 << 22
NAME = re.compile(r"[A-Za-z0-9_-]+")
KEY = r"""(?:[\w-]+|"[^"\n]*"|'[^'\n]*')"""
KEYS = rf"({KEY}(?:\s*\.\s*{KEY})*)"
LONG_TEXT = re.compile(r'''("""(?:[^\\]|\\.)*?"""+|\'\'\'.*?\'\'\'+)|"(?:[^"\\\n]|\\.)*"|'[^'\n]*'|#[^\n]*''', re.S)
Path_ = tuple[str, ...]


@dataclass
class Project:
    path: Path
    lines: dict[Path_, int]
    circuits: dict[str, Design] = field(default_factory=dict)
    questions: list[Question] = field(default_factory=list)

    @property
    def folder(self) -> Path:
        return self.path.parent

    def fault(self, words: str, *path: str) -> Fault:
        """A fault at a key, or where that has no line of its own at what has it."""
        at = path
        while at and at not in self.lines:
            at = at[:-1]
        return Fault(f"{shown(str(self.path))}:{self.lines.get(at, 1)}: {shown('.'.join(path))}: {words}")


def find(word: str | None) -> Path:
    """The project file that a word names: itself, or that of a folder."""
    path = Path(word or ".")
    return path / FILE if path.is_dir() else path


def read_project(path: Path) -> Project:
    name = shown(str(path))
    try:
        with open(path, "rb") as file:
            data = file.read(MOST_BYTES + 1)
        if len(data) > MOST_BYTES:
            raise Fault(f"{name}: more than {MOST_BYTES} bytes")
        text = data.decode("utf-8-sig")
        return _Reader(Project(path, lines_of(text)), tomllib.loads(text)).read()
    except OSError as error:
        raise Fault(f"{name}: {error.strerror}") from error
    except UnicodeDecodeError as error:
        raise Fault(f"{name}:{error.object.count(10, 0, error.start) + 1}: no UTF-8") from error
    except RecursionError as error:
        raise Fault(f"{name}: too many lists or tables in one another") from error
    except ValueError as error:
        words, line = re.fullmatch(r"(.*?)(?: \(at (?:line (\d+), column \d+|end of document)\))?", str(error), re.S).groups()
        raise Fault(f"{name}:{line or data.count(10) + 1}: {shown(words)}") from error


def lines_of(text: str) -> dict[Path_, int]:
    """The line of each table and key. tomllib says none; what stands in a text of several lines is passed over."""
    found: dict[Path_, int] = {}
    table: Path_ = ()
    bare = LONG_TEXT.sub(lambda it: '""' + "\n" * it[1].count("\n") if it[1] else it[0], text)
    for number, line in enumerate(bare.split("\n"), 1):
        head = re.match(rf"\s*\[+\s*{KEYS}\s*\]+\s*(#.*)?$", line)
        key = head or re.match(rf"\s*{KEYS}\s*=", line)
        if not key:
            continue
        path = () if head else table
        for part in re.findall(KEY, key[1]):
            path += (part.strip("\"'"),)
            found.setdefault(path, number)
        table = path if head else table
    return found


class _Reader:
    """Judges the tables of a file."""

    def __init__(self, project: Project, tables: dict[str, Any]):
        self.project, self.tables, self.fault = project, tables, project.fault

    def read(self) -> Project:
        for key in self.tables:
            if key not in ("circuit", "check", "monitor"):
                raise self.fault(f"no such table{did_you_mean(key, ('circuit', 'check', 'monitor'))}", key)
        circuits = self.table("circuit")
        are_several = all(isinstance(it, dict) for it in circuits.values())
        for path in [("circuit", name) for name in circuits] if are_several else [("circuit",)]:
            self.project.circuits[path[-1]] = self.design(path, CIRCUIT)
        for kind, schema in (("check", CHECK), ("monitor", MONITOR)):
            self.project.questions += [self.question(kind, name, schema) for name in self.table(kind)]
        twice = self.table("check").keys() & self.table("monitor").keys()
        if twice:
            raise self.fault("a check has this name, too", "monitor", min(twice))
        self.project.questions.sort(key=lambda it: self.project.lines.get(it.where, 0))
        return self.project

    def table(self, *path: str) -> dict[str, Any]:
        value = self.tables
        for key in path:
            value = value.get(key, {})
        if not isinstance(value, dict):
            raise self.fault("a table is wanted", *path)
        return value

    def values(self, path: Path_, schema: Schema) -> dict[str, Any]:
        """The values of a table by their keys, each of its kind."""
        table = self.table(*path)
        if not NAME.fullmatch(path[-1]):
            raise self.fault("a name is letters, digits, _ and -", *path)
        for key, value in table.items():
            if key not in schema.kinds:
                raise self.fault(f"no such key{did_you_mean(key, schema.kinds)}", *path, key)
            if not schema.kinds[key].fits(value):
                raise self.fault(f"{schema.kinds[key].words} is wanted", *path, key)
        for pair in schema.apart:
            if table.keys() >= set(pair):
                first, second = sorted(pair, key=list(table).index)
                raise self.fault(f"it stands beside no {first}", *path, second)
        if not table.keys() & set(schema.forms):
            raise self.fault("it wants " + " or ".join(schema.forms), *path)
        return {key: schema.kinds[key].taken(value) for key, value in table.items()}

    def design(self, path: Path_, schema: Schema) -> Design:
        return Design(name=".".join(path[1:]) or path[0], where=path, **self.values(path, schema))

    def question(self, kind: str, name: str, schema: Schema) -> Question:
        path = (kind, name)
        values, (good, bad) = self.values(path, schema), schema.answers
        if "strategy" in values:
            values["strategy"] = self.design((*path, "strategy"), STRATEGY)
            good, bad = "holds with strategy", "strategy fails"
        if kind == "monitor" and "traces" not in values:
            raise self.fault("it wants traces", *path)
        if kind == "check":
            values["circuit"] = self.circuit_of(path, values.get("circuit"))
        expect = values.pop("expect", good)
        if expect not in (good, bad):
            raise self.fault(f'"{good}" or "{bad}" is wanted', *path, "expect")
        return Question(kind=kind, name=name, expect=expect, **values)

    def circuit_of(self, path: Path_, said: str | None) -> str:
        """The circuit that a check says, or the only one."""
        known = self.project.circuits
        if said is None and len(known) != 1:
            raise self.fault("it wants circuit, since there are several" if known else "there is no [circuit]", *path)
        if said is not None and said not in known:
            raise self.fault(f"no such circuit{did_you_mean(said, known)}", *path, "circuit")
        return said or next(iter(known))
