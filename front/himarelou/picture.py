"""What is drawn of runs of a circuit: as a timing diagram in SVG, and as a value change dump, which GTKWave and other viewers
read."""
import html
import re
from collections.abc import Iterator, Sequence
from dataclasses import dataclass, field

from himarelou.aiger import Circuit, value_of
from himarelou.faults import Fault, did_you_mean, shown
from himarelou.names import ranges
from himarelou.runs import Run

STEPS = 64
TALL, CHARACTER, LEAST_STEP = 20, 6.5, 34
STYLE = ("text{font:12px monospace;fill:#222}.s{font-size:10px;fill:#666}.n{text-anchor:middle;font-size:10px}"
         ".e{text-anchor:end}.b{font-weight:bold}path{fill:none;stroke:#124;stroke-width:1.4}.d{fill:#fbd9a8}"
         ".m{stroke:#c22;stroke-width:2}.c{fill:#69a}.h{fill:#246;fill-opacity:.18}.g{stroke:#e4e4e4;stroke-width:1}")


@dataclass
class Line:
    """A signal: its label, its width, and its values in each run, step by step."""

    label: str
    width: int
    values: list[list[int]]

    def parted(self) -> list[int]:
        """The steps at which runs differ."""
        return [step for step, row in enumerate(zip(*self.values)) if len(set(row)) > 1]


@dataclass
class Scene:
    """The lines of some runs; a run's stem and the length of its cycle, which is 0 where it is not known."""

    labels: list[str]
    shapes: list[tuple[int, int]]
    lines: list[Line]
    steps: int
    title: list[str] = field(default_factory=list)

    def only(self, labels: Sequence[str]) -> None:
        """Keeps these lines, by the labels of the picture, or by a vector's name alone."""
        found = {it.label.split("[")[0]: it for it in reversed(self.lines)} | {it.label: it for it in self.lines}
        for label in labels:
            if label not in found:
                raise Fault(f"no signal of the picture is labelled {shown(label)}{did_you_mean(label, found)}")
        self.lines = [found[it] for it in dict.fromkeys(labels)]


def scene_of(circuit: Circuit, runs: Sequence[Run], most: int) -> Scene:
    """The scene of runs: as far as each goes once round its cycle, or as far as it was made."""
    steps = min(most, max(it.length for it in runs))
    for run in runs:
        if run.cycle:
            run.play(circuit, steps)
    lines = [_line(label, bits, runs) for label, bits in signals(circuit)]
    read, named = circuit.read_variables(), set(circuit.literals.values())
    nameless = [_line(f"input#{place}", [it], runs) for place, it in enumerate(circuit.inputs) if it >> 1 in read and it not in named]
    lines += [it for it in nameless if it.parted()]
    lines += [_line(f"register#{place}", [it.literal], runs) for place, it in enumerate(circuit.latches) if it.literal not in named]
    return Scene([it.label for it in runs], [(len(it.stem), len(it.cycle)) for it in runs], lines, steps)


def signals(circuit: Circuit) -> list[tuple[str, list[int]]]:
    """The named signals as vectors, inputs first, but for inputs that nothing reads."""
    read, literals = circuit.read_variables(), {}
    for kind, name, literal in circuit.signals():
        if name not in literals and (kind != "i" or literal >> 1 in read):
            literals[name] = literal
    return [(label, [literals[it] for it in bits]) for label, bits in ranges(literals)]


def _line(label: str, bits: Sequence[int], runs: Sequence[Run]) -> Line:
    values = [[int("".join(str(value_of(values, it)) for it in bits), 2) for values in run.seen] for run in runs]
    return Line(label, len(bits), values)


def svg(scene: Scene) -> str:
    return "\n".join(_Drawing(scene).lines()) + "\n"


def _text(x: float, y: float, words: str, style: str = "") -> str:
    return f'<text x="{x:g}" y="{y:g}" {style}>{html.escape(shown(words))}</text>'


def _path(points: list[tuple[float, float]]) -> str:
    return '<path d="M' + " L".join(f"{x:g},{y:g}" for x, y in points) + '"/>'


class _Drawing:
    def __init__(self, scene: Scene):
        self.scene = scene
        digits = max((len(_digits(it, value)) for it in scene.lines for row in it.values for value in row), default=1)
        self.step = max(LEAST_STEP, int(digits * CHARACTER) + 12)
        self.left = 60 + int(max((len(shown(it.label)) for it in scene.lines), default=0) * 7.5)
        self.top = 18 * len(scene.title)

    def x(self, step: float) -> float:
        return self.left + step * self.step

    def lines(self) -> Iterator[str]:
        scene, y = self.scene, self.top + 54 + 12 * len(self.scene.labels)
        drawn = []
        for line in scene.lines:
            drawn += self.signal(line, y)
            y += TALL * len(line.values) + 8
        wide = max(self.x(scene.steps) + 20, 20 + 7.5 * max((len(shown(it)) for it in scene.title), default=0))
        yield f'<svg xmlns="http://www.w3.org/2000/svg" width="{wide:g}" height="{y:g}">'
        yield f"<style>{STYLE}</style>"
        yield '<rect width="100%" height="100%" fill="white"/>'
        for step in range(scene.steps + 1):
            yield f'<path class="g" d="M{self.x(step):g},{self.top + 30} V{y - 12:g}"/>'
        for place, words in enumerate(scene.title):
            yield _text(10, 16 + 18 * place, words, 'class="b"' if place == 0 else "")
        for place, (label, (stem, cycle)) in enumerate(zip(scene.labels, scene.shapes)):
            row, end = self.top + 30 + 12 * place, min(stem + cycle, scene.steps)
            yield _text(self.left - 12, row + 3, f"run {label} repeats" if cycle else f"run {label}", 'class="e s"')
            if stem < end:
                yield f'<rect x="{self.x(stem) + 2:g}" y="{row - 2}" width="{(end - stem) * self.step - 4}" height="4" class="c"/>'
        for step in range(scene.steps):
            yield _text(self.x(step + 0.5), self.top + 16, str(step), 'class="n s"')
        yield from drawn
        yield "</svg>"

    def signal(self, line: Line, y: float) -> Iterator[str]:
        parted, high, tall = line.parted(), y - TALL + 5, TALL * len(line.values)
        for step in parted:
            yield f'<rect x="{self.x(step):g}" y="{high:g}" width="{self.step}" height="{tall}" class="d"/>'
        if parted:
            yield f'<path class="m" d="M{self.x(parted[0]):g},{high:g} v{tall}"/>'
        yield _text(10, y, line.label, 'class="b"')
        for place, row in enumerate(line.values):
            yield _text(self.left - 12, y + TALL * place, self.scene.labels[place], 'class="e s"')
            yield from (self.bit if line.width == 1 else self.boxes)(line, row, y + TALL * place)

    def bit(self, line: Line, row: list[int], low: float) -> Iterator[str]:
        """A level for each value."""
        high, points = low - TALL + 7, []
        for step, value in enumerate(row):
            level = high if value else low
            points += [(self.x(step), level), (self.x(step + 1), level)]
            if value:
                yield f'<rect x="{self.x(step):g}" y="{high:g}" width="{self.step}" height="{low - high:g}" class="h"/>'
        yield _path(points)

    def boxes(self, line: Line, row: list[int], low: float) -> Iterator[str]:
        """A box with a number for each value that stays."""
        high, begun = low - TALL + 7, 0
        middle = (high + low) / 2
        for step in range(1, len(row) + 1):
            if step < len(row) and row[step] == row[begun]:
                continue
            x, end = self.x(begun), self.x(step)
            yield _path([(x + 3, high), (end - 3, high), (end, middle), (end - 3, low), (x + 3, low), (x, middle), (x + 3, high)])
            yield _text((x + end) / 2, low - 3, _digits(line, row[begun]), 'class="n"')
            begun = step


def _digits(line: Line, value: int) -> str:
    return f"{value:0{(line.width + 3) // 4}x}" if line.width > 1 else ""


def vcd(scene: Scene) -> str:
    return "\n".join(_lines(scene)) + "\n"


def _lines(scene: Scene) -> Iterator[str]:
    yield "$timescale 1 ns $end"
    for place, label in enumerate(scene.labels):
        yield f"$scope module run_{_word(label)} $end"
        yield from (f"$var wire {line.width} s{number}.{place} {_name(line)} $end" for number, line in enumerate(scene.lines))
        yield "$upscope $end"
    yield "$enddefinitions $end"
    for step in range(scene.steps):
        yield f"#{step}"
        for number, line in enumerate(scene.lines):
            for place, row in enumerate(line.values):
                if step == 0 or row[step] != row[step - 1]:
                    yield f"{row[step]}s{number}.{place}" if line.width == 1 else f"b{row[step]:b} s{number}.{place}"
    yield f"#{scene.steps}"


def _name(line: Line) -> str:
    """The label as the form wants it: one word, and the places of a vector behind a blank."""
    match = re.fullmatch(r"(.*)(\[\d+:\d+\])", line.label, re.S)
    return f"{_word(match[1])} {match[2]}" if match and line.width > 1 else _word(line.label)


def _word(text: str) -> str:
    return "".join(it if it.isprintable() and not it.isspace() and it != "$" else "_" for it in text)
