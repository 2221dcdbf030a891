"""Formulas as a user writes them, with vectors, `=` and comments, read as trees of what the tools read, and printed."""
import re
from collections.abc import Callable, Iterable, Iterator
from dataclasses import dataclass
from typing import Any, NoReturn

from himarelou.faults import Fault, shown
from himarelou.names import Names, atom, said_bits

MOST_NAMES = 64
RESERVED = {"exists", "forall", "true", "false", "X", "F", "G", "U", "R", "W"}
QUANTIFIERS = {"forall", "exists"}
SIGNS = {"&&": "&", "||": "|", "==": "="}
RANKS = {"<->": 0, "->": 1, "|": 2, "&": 3, "U": 4, "W": 4, "R": 4}
UNARY = {"!": "!", "X": "X ", "F": "F ", "G": "G "}
TIGHTEST = 5
WIDE = 100
BLANK = r"(?P<blank>[ \t\r\n]+|\#[^\n]*)"
RUN = re.compile(rf"(?P<word>[A-Za-z][A-Za-z0-9]*)|{BLANK}")
TOKEN = re.compile(rf"""{BLANK}
  | (?P<quoted>"[^"\n]+"_[A-Za-z][A-Za-z0-9]*)
  | (?P<sign><->|->|&&|\|\||==|!=|[()!&|.;=])
  | (?P<number>0x[0-9A-Fa-f]+|0b[01]+|\d+)
  | (?P<word>[A-Za-z_](?:[\w$]|\.[\w$]|\[\d+(?::\d+)?\])*)
""", re.X | re.A)


@dataclass(frozen=True)
class Token:
    """`kind` is sign, word (reserved, or a run behind its quantifier), atom, number, or end."""

    kind: str
    text: str
    at: int
    name: str = ""
    run: str = ""


@dataclass(frozen=True)
class Text:
    """A text and what names it."""

    name: str
    content: str

    def fault(self, at: int, words: str) -> Fault:
        """A fault at a place of the text."""
        line, column = self.content.count("\n", 0, at) + 1, at - self.content.rfind("\n", 0, at)
        return Fault(f"{shown(self.name)}:{line}:{column}: {words}")

    def tokens(self, run: str) -> Iterator[Token]:
        """The tokens and the end; where a run is given an atom is a name alone, of that run."""
        at, before = 0, ""
        while at < len(self.content):
            match = (RUN if before in QUANTIFIERS else TOKEN).match(self.content, at)
            if not match:
                hint = ": quantifiers are `forall p. forall q.`" if self.content[at] == "," else ""
                raise self.fault(at, f"{shown(self.content[at])} begins nothing here{hint}")
            kind, text = match.lastgroup, match[0]
            if kind in ("sign", "number") or kind == "word" and (before in QUANTIFIERS or text in RESERVED):
                yield Token(kind, SIGNS.get(text, text), at)
            elif kind != "blank":
                yield Token("atom", text, at, *((text, run) if run else self.parts(text, at)))
            before = before if kind == "blank" else text
            at = match.end()
        yield Token("end", "the end", at)

    def parts(self, text: str, at: int) -> tuple[str, str]:
        """The name and the run of an atom."""
        name, _, run = text.rpartition("_")
        if not name or not re.fullmatch(r"[A-Za-z][A-Za-z0-9]*", run):
            hint = "; put a space between two operators" if re.fullmatch("[XFGURW]+", text) else ""
            raise self.fault(at, f"{shown(text)} is no NAME_RUN{hint}")
        return name.strip('"'), run


@dataclass(frozen=True)
class Tree:
    """A part of a body: `atom` with a name and a run, `true`, `false`, or an operator and its operands, of `&` two or
    more."""

    sign: str
    parts: tuple["Tree", ...] = ()
    name: str = ""
    run: str = ""

    def text(self, least: int = 0) -> str:
        """As the tools read it, in parentheses where it binds weaker than is wanted."""
        if not self.parts:
            return atom(self.name, self.run) if self.sign == "atom" else self.sign
        if self.sign in UNARY:
            return UNARY[self.sign] + self.parts[0].text(TIGHTEST)
        rank, *before, last = RANKS[self.sign], *self.parts
        texts = [*(it.text(rank + 1) for it in before), last.text(rank)]
        whole = f"{'' if sum(map(len, texts)) < WIDE else chr(10) + '   '} {self.sign} ".join(texts)
        return f"({whole})" if rank < least else whole

    def names(self) -> dict[str, None]:
        return {self.name: None} if self.sign == "atom" else {name: None for it in self.parts for name in it.names()}


def signal(name: str, run: str) -> Tree:
    return Tree("atom", (), name, run)


def opposite(tree: Tree) -> Tree:
    return Tree("!", (tree,))


def all_of(parts: Iterable[Tree]) -> Tree:
    """That all of the parts hold, also those of a part that says so of several."""
    flat = [it for part in parts for it in (part.parts if part.sign == "&" else (part,))]
    return Tree("&", tuple(flat)) if len(flat) > 1 else flat[0] if flat else Tree("true")


@dataclass(frozen=True)
class Formula:
    quantifiers: tuple[tuple[str, str], ...]
    body: Tree

    def text(self) -> str:
        return " ".join(f"{kind} {run}." for kind, run in self.quantifiers) + f"\n  {self.body.text()}\n"

    def runs(self, kind: str) -> list[str]:
        """The runs of the quantifiers of a kind."""
        return [run for own, run in self.quantifiers if own == kind]


def parse(source: Text, names: Names | None) -> list[Formula]:
    """The formulas of a text, `;` between two. Without names a vector is written as it says its own places."""
    return _Parser(source, names).whole(_Parser.formulas)


def parse_one(source: Text, names: Names | None) -> Formula:
    formula, *others = parse(source, names)
    if others:
        raise Fault(f"{shown(source.name)}: one formula is wanted, not {len(others) + 1}")
    return formula


def parse_body(source: Text, names: Names, run: str = "p") -> Tree:
    """A body on signals of one run, which it does not say."""
    return _Parser(source, names, run).whole(_Parser.binary)


class _Parser:
    """By descent, the operators by their ranks; all binary ones group to the right."""

    def __init__(self, source: Text, names: Names | None, run: str = ""):
        self.source, self.names, self.bound = source, names, {run}
        self.tokens, self.at = list(source.tokens(run)), 0

    @property
    def token(self) -> Token:
        return self.tokens[self.at]

    def take(self, words: str = "", *wanted: str) -> Token:
        """Goes past a token, which is of one of the wanted kinds or texts."""
        token = self.token
        if wanted and not {token.kind, token.text} & set(wanted):
            self.fault(token, f"{words} is wanted here, not {shown(token.text)}")
        self.at += 1
        return token

    def fault(self, token: Token, words: str) -> NoReturn:
        raise self.source.fault(token.at, words)

    def whole(self, way: Callable[["_Parser"], Any]) -> Any:
        """What is read in a way, which is all of the text."""
        try:
            found = way(self)
        except RecursionError as error:
            raise Fault(f"{shown(self.source.name)}: too deep") from error
        self.take("an operator", "the end")
        return found

    def formulas(self) -> list[Formula]:
        found = []
        while not found or self.token.text == ";" and self.take():
            quantifiers = []
            while not quantifiers or self.token.text in QUANTIFIERS:
                kind = self.take("`forall` or `exists`", *QUANTIFIERS).text
                quantifiers.append((kind, self.take("the name of a run", "word").text))
                self.take("`.`", ".")
            self.bound = {run for _, run in quantifiers}
            found.append(Formula(tuple(quantifiers), self.binary()))
            found[-1].text()  # what is too deep to be printed is too deep
        return found

    def binary(self, least: int = 0) -> Tree:
        left = self.unary()
        while RANKS.get(self.token.text, -1) >= least:
            sign = self.take().text
            parts = left, self.binary(RANKS[sign])
            left = all_of(parts) if sign == "&" else Tree(sign, parts)
        return left

    def unary(self) -> Tree:
        if self.token.kind == "atom":
            return self.equality()
        sign = self.take("an operand", "(", "true", "false", *UNARY).text
        if sign != "(":
            return Tree(sign, (self.unary(),) if sign in UNARY else ())
        inner = self.binary()
        self.take("`)`" if self.token.kind == "end" else "an operator", ")")
        return inner

    def equality(self) -> Tree:
        """An atom, or `=` or `!=` between it and another or a number."""
        token = self.take()
        left = self.bits(token)
        if self.token.text not in ("=", "!="):
            if len(left) > 1:
                self.fault(token, f"{shown(token.name)} has {len(left)} bits: compare it by =")
            return left[0]
        sign, other = self.take().text, self.take("a name or a number", "atom", "number")
        if other.kind == "number":
            value = int(other.text, 0) if other.text[:2] in ("0x", "0b") else int(other.text[:40])
            if value >> len(left):
                self.fault(other, f"{other.text} has more than {len(left)} bits")
            parts = [it if value >> place & 1 else opposite(it) for place, it in enumerate(left)]
        else:
            right = self.bits(other)
            if len(left) != len(right):
                self.fault(token, f"{shown(token.name)} has {len(left)} bits, {shown(other.name)} has {len(right)}")
            parts = [Tree("<->", it) for it in zip(left, right)]
        return all_of(parts) if sign == "=" else opposite(all_of(parts))

    def bits(self, token: Token) -> list[Tree]:
        """The atoms of a token's bits, whose run is bound."""
        if token.run not in self.bound:
            self.fault(token, f"no quantifier binds the run {token.run} of {shown(token.text)}")
        found = said_bits(token.name) if self.names is None else self.names.bits(token.name)
        if not found:
            hint = self.names.hint(token.name) if self.names else ""
            self.fault(token, f"no signal is named {shown(token.name)}{hint}")
        return [signal(it, token.run) for it in found]
