"""What may stand in the project file: the keys of each table, what their values have to be, and what is taken of them; the stages
of a check, from cheap to dear."""
import re
from collections.abc import Callable
from dataclasses import dataclass, field, fields
from typing import Any

from himarelou.statement import Reset

IDENTIFIER = re.compile(r"[A-Za-z_][A-Za-z0-9_$]*")
WORD = re.compile(r"[A-Za-z0-9_'.+-]*")
RANGES = {"depth": (0, 100_000), "conflicts": (0, 1_000_000_000), "ic3": (1, 1_000_000), "seconds": (1, 10_000_000)}


@dataclass(frozen=True)
class Stage:
    """Words of `mchyper`, with a budget in seconds."""

    words: tuple[str, ...]
    seconds: float

    def __str__(self) -> str:
        return " ".join(self.words) or "mchyper"


# Chosen by figures (front/README.md): a leak of few steps shows before facts are looked for, most proofs are facts alone
# or clauses, and what is then left is mostly a leak of more steps.
DEFAULT = (
    Stage(("--plain", "--depth", "5"), 30),
    Stage(("--depth", "2"), 120),
    Stage(("--depth", "2", "--ic3", "10000"), 120),
    Stage(("--plain", "--depth", "40"), 120),
    Stage(("--depth", "10", "--ic3", "100000"), 510),
)


def stage_of(table: Any) -> Stage | None:
    """The stage of a table such as `{ depth = 5, plain = true, seconds = 20 }`, if it is one; beside `ic3` a depth is stated."""
    if not isinstance(table, dict) or table.keys() - {*RANGES, "plain"}:
        return None
    plain, numbers = table.get("plain", False), {key: table[key] for key in RANGES if key in table}
    are_right = all(type(it) is int and RANGES[key][0] <= it <= RANGES[key][1] for key, it in numbers.items())
    if not are_right or not isinstance(plain, bool) or "ic3" in numbers and (plain or "depth" not in numbers):
        return None
    seconds = numbers.pop("seconds", 600)
    return Stage((*["--plain"] * plain, *(word for key, it in numbers.items() for word in (f"--{key}", str(it)))), seconds)


@dataclass(frozen=True)
class Kind:
    """What is wanted, in words; whether a value is that; and the value as it is kept."""

    words: str
    fits: Callable[[Any], bool]
    taken: Callable[[Any], Any] = lambda value: value


def _are_texts(value: Any) -> bool:
    return isinstance(value, list) and bool(value) and all(map(TEXT.fits, value))


def _one_of(*words: str) -> Kind:
    return Kind(" or ".join(f'"{it}"' for it in words), lambda value: value in words)


def _number(of: str, least: int, most: int) -> Kind:
    return Kind(f"a number of {of}", lambda value: type(value) is int and least <= value <= most)


def _values(*types: type) -> Kind:
    """A table of identifiers with words that may stand in a script of yosys."""
    def fits(value: Any) -> bool:
        return isinstance(value, dict) and all(
            IDENTIFIER.fullmatch(key) and type(it) in types and WORD.fullmatch(str(it)) for key, it in value.items())

    return Kind("a table of identifiers with numbers or words of letters, digits and _ ' . + -", fits, lambda value: tuple(value.items()))


TEXT = Kind("a text", lambda value: isinstance(value, str) and bool(value))
TEXTS = Kind("a list of texts", _are_texts, tuple)
ANY_TEXTS = Kind("a list of texts", lambda value: value == [] or _are_texts(value), tuple)
ONE_OR_MORE = Kind("a text or a list of texts", lambda value: TEXT.fits(value) or _are_texts(value),
                   lambda value: (value,) if isinstance(value, str) else tuple(value))
TOP = Kind("an identifier", lambda value: isinstance(value, str) and bool(IDENTIFIER.fullmatch(value)))
FLAG = Kind("true or false", lambda value: isinstance(value, bool))
TABLE = Kind("a table", lambda value: isinstance(value, dict))
RESET = Kind("a name, or !NAME,", lambda value: TEXT.fits(value) and value != "!",
             lambda value: Reset(value.removeprefix("!"), value.startswith("!")))
STAGES = Kind("a list of stages", lambda value: isinstance(value, list) and bool(value) and all(map(stage_of, value)),
              lambda value: tuple(map(stage_of, value)))


def _key(kind: Kind, default: Any = None) -> Any:
    """A field that is a key of the project file."""
    return field(default=default, metadata={"kind": kind})


@dataclass(frozen=True)
class Design:
    """What a circuit is made of: sources, or a circuit's own file. `where` is its table."""

    name: str
    where: tuple[str, ...] = ()
    file: str | None = _key(TEXT)
    sources: tuple[str, ...] = _key(TEXTS, ())
    top: str | None = _key(TOP)
    reset: Reset | None = _key(RESET)
    define: tuple[tuple[str, str | int | bool], ...] = _key(_values(str, int, bool), ())
    parameters: tuple[tuple[str, str | int], ...] = _key(_values(str, int), ())
    include: tuple[str, ...] = _key(TEXTS, ())
    sv: bool = _key(FLAG, False)
    clocks: str | None = _key(_one_of("inputs"))
    memory: int = _key(_number("bits", 1, 1 << 30), 16_384)
    start: str = _key(_one_of("any", "zero"), "any")
    assume: tuple[str, ...] = _key(ONE_OR_MORE, ())


@dataclass(frozen=True)
class Question:
    """A check or a monitor."""

    kind: str
    name: str
    expect: str = _key(TEXT, "")
    circuit: str = _key(TEXT, "")
    secret: tuple[str, ...] | None = _key(TEXTS)
    equal: tuple[str, ...] | None = _key(ANY_TEXTS)
    same: tuple[str, ...] | None = _key(TEXTS)
    given: tuple[str, ...] = _key(TEXTS, ())
    formula: str | None = _key(TEXT)
    file: str | None = _key(TEXT)
    strategy: Design | None = _key(TABLE)
    met: str | None = _key(TEXT)
    assume: tuple[str, ...] = _key(ONE_OR_MORE, ())
    traces: tuple[str, ...] = _key(ONE_OR_MORE, ())
    lengths: str = _key(_one_of("min", "pad"), "min")
    drop: bool = _key(FLAG, False)
    budget: int = _key(_number("seconds", 0, RANGES["seconds"][1]), 900)
    stages: tuple[Stage, ...] = _key(STAGES, DEFAULT)

    @property
    def where(self) -> tuple[str, ...]:
        return self.kind, self.name


@dataclass(frozen=True)
class Schema:
    """The kinds by key, the pairs of keys that never stand together, the keys of which one is wanted, good and bad answer."""

    kinds: dict[str, Kind]
    apart: tuple[tuple[str, str], ...]
    forms: tuple[str, ...]
    answers: tuple[str, str] = ("", "")


def _kinds(of: type, but: str = "") -> dict[str, Kind]:
    return {it.name: it.metadata["kind"] for it in fields(of) if it.metadata and it.name not in but.split()}


FORMS = (("formula", "file"), *((form, key) for form in ("formula", "file") for key in ("secret", "equal", "same", "given")))
CIRCUIT = Schema(_kinds(Design), tuple(("file", key) for key in _kinds(Design, "file reset assume")), ("sources", "file"))
STRATEGY = Schema(_kinds(Design, "reset define parameters include sv clocks memory start assume"), CIRCUIT.apart, CIRCUIT.forms)
CHECK = Schema(
    _kinds(Question, "traces lengths drop"),
    (*FORMS, ("secret", "equal"), ("secret", "met"), ("equal", "met"), ("secret", "strategy"), ("equal", "strategy")),
    ("secret", "equal", "formula", "file"), ("holds", "violated"))
MONITOR = Schema(_kinds(Question, "circuit secret strategy met assume stages"), FORMS, ("same", "formula", "file"), ("no violation", "violation"))
