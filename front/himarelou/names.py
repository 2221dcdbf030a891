"""Names of signals: vectors and their bits, and what a user may have meant."""
import difflib
import re
from collections.abc import Iterable

from himarelou.faults import Fault, shown

PLAIN = re.compile(r"[A-Za-z][A-Za-z0-9_]*")
PART = re.compile(r"(.*)\[(\d+):(\d+)\]", re.S)
BRACKETS = re.compile(r"(\[\d+(:\d+)?\])+$")
LAST_PLACE = re.compile(r"(.*)\[(\d+)\]", re.S)
WIDEST = 1 << 16


def split_place(name: str) -> tuple[str, int | None]:
    """`a[3]` as `a` and 3, `a` as `a` and None."""
    match = LAST_PLACE.fullmatch(name)
    return (match[1], int(match[2])) if match else (name, None)


def ranges(names: Iterable[str]) -> list[tuple[str, list[str]]]:
    """Bits as vectors, each once, with their bits, the highest first: `a[0]`, `a[1]`, `b` as `a[1:0]`, `b`."""
    vectors: dict[str, dict[int | None, str]] = {}
    for name in names:
        vector, place = split_place(name)
        vectors.setdefault(vector, {})[place] = name
    found = []
    for vector, places in vectors.items():
        found += [(vector, [places.pop(None)])] if None in places else []
        while places:
            low = high = max(places)
            while low - 1 in places:
                low -= 1
            label = f"{vector}[{high}:{low}]" if low < high else f"{vector}[{high}]"
            found.append((label, [places.pop(it) for it in range(high, low - 1, -1)]))
    return found


def joined(names: Iterable[str]) -> list[str]:
    return [label for label, _ in ranges(names)]


class Names:
    """The names that a user may say of a circuit, or of traces."""

    def __init__(self, known: Iterable[str]):
        self.known = dict.fromkeys(known)
        self.vectors: dict[str, list[str]] = {}
        for name in self.known:
            vector, place = split_place(name)
            while place is not None:
                self.vectors.setdefault(vector, []).append(name)
                vector, place = split_place(vector)

    def bits(self, word: str) -> list[str]:
        """The bits that a word names, the lowest first: a name, a vector, or a part `a[7:4]` of one; none if unknown."""
        if word in self.known:
            return [word]
        part = PART.fullmatch(word)
        if not part:
            return sorted(self.vectors.get(word, []), key=lambda it: [int(place) for place in re.findall(r"\[(\d+)\]", it)])
        rows = [self.bits(it) for it in places_of(part)]
        return [name for row in rows for name in row] if all(rows) else []

    def wanted(self, word: str) -> list[str]:
        """The bits that a word names, of which there must be some."""
        found = self.bits(word)
        if not found:
            raise Fault(f"no signal is named {shown(word)}{self.hint(word)}")
        return found

    def hint(self, word: str) -> str:
        """What may have been meant by a word that names nothing."""
        vector = BRACKETS.sub("", word)
        whole = {BRACKETS.sub("", it): it for it in joined(self.known)}
        ends = [it for it in whole if it.endswith((f".{vector}", f"_{vector}"))]
        near = [vector] if vector in whole else ends or difflib.get_close_matches(vector, whole, 1, 0.6)
        return f"; did you mean {shown(whole[near[0]])}?" if near else ""


def places_of(part: re.Match) -> list[str]:
    """The bits of `a[3:0]`, the lowest first; none of more than anyone has."""
    low, high = sorted((int(part[2][:9]), int(part[3][:9])))
    return [f"{part[1]}[{it}]" for it in range(low, high + 1)] if high - low < WIDEST else []


def said_bits(word: str) -> list[str]:
    """The bits that a word says by itself, where nothing else is known of it."""
    part = PART.fullmatch(word)
    return places_of(part) if part else [word]


def atom(name: str, variable: str) -> str:
    """The atom of a formula that says a name of a run."""
    return f"{name}_{variable}" if PLAIN.fullmatch(name) else f'"{name}"_{variable}'
