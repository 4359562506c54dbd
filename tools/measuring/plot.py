"""A picture in SVG of time and memory by rows: two panels with logarithmic axes, and a legend."""
import math
from collections.abc import Callable, Iterable, Iterator
from dataclasses import dataclass
from html import escape

from measuring.costs import Cost
from measuring.figures import Run, cost
from measuring.steps import TOOLS, VERBS

WIDTH, HEIGHT = 940, 480
PLOT_WIDTH, PLOT_HEIGHT, TOP, LEFTS = 370, 300, 40, (66, 540)
LEGEND_TOP, LEGEND_COLUMNS = 412, 4
# Colours that are told apart without red or green. A verb has a full line, a public tool a grey one with dashes.
COLOURS = ["#000000", "#0072B2", "#D55E00", "#009E73", "#CC79A7", "#B8860B"]
GREY = "#707070"
MARKS = ["circle", "square", "triangle", "diamond", "cross", "plus"]


@dataclass(frozen=True)
class Style:
    colour: str
    dashes: str
    mark: str


STYLES = {name: Style(colour, "", mark) for name, colour, mark in zip(VERBS, COLOURS, MARKS)}
STYLES |= {name: Style(GREY, "5 3", mark) for name, mark in zip(TOOLS, MARKS)}


@dataclass(frozen=True)
class Axis:
    """A logarithmic axis from one place of the picture to another."""

    least: float
    most: float
    begin: float
    end: float

    def at(self, value: float) -> float:
        part = math.log10(value / self.least) / math.log10(self.most / self.least)
        return self.begin + part * (self.end - self.begin)

    def ticks(self) -> list[float]:
        """1, 2 and 5 times each power of ten."""
        powers = range(math.floor(math.log10(self.least)) - 1, math.ceil(math.log10(self.most)) + 1)
        return [it for power in powers for digit in (1, 2, 5) if self.least * 0.999 <= (it := digit * 10.0**power) <= self.most * 1.001]


def axis(values: list[float], begin: float, end: float, whole_decades: bool = False) -> Axis:
    """An axis with room for all values, from a tick to a tick."""
    low, high = min(values), max(values)
    powers = range(math.floor(math.log10(low)) - 1, math.ceil(math.log10(high)) + 2)
    ticks = [digit * 10.0**power for power in powers for digit in (1, 2, 5)]
    least = max(it for it in ticks if it <= low * (1.001 if whole_decades else 0.95) and (is_power(it) or not whole_decades))
    most = min(it for it in ticks if it >= high * 0.999 and it > least)
    return Axis(least, most, begin, end)


def is_power(value: float) -> bool:
    return abs(math.log10(value) - round(math.log10(value))) < 1e-9


def rows_text(value: float) -> str:
    return f"{value:,.0f}"


def time_text(value: float) -> str:
    return f"{value:g} s"


def bytes_text(value: float) -> str:
    return f"{value / 1e6:g} MB" if value < 1e9 else f"{value / 1e9:g} GB"


def text(x: float, y: float, words: str, anchor: str = "middle", size: int = 12, **more: str) -> str:
    extra = "".join(f' {name.replace("_", "-")}="{value}"' for name, value in more.items())
    return f'<text x="{x:.1f}" y="{y:.1f}" text-anchor="{anchor}" font-size="{size}"{extra}>{escape(words)}</text>'


def line(x1: float, y1: float, x2: float, y2: float, colour: str, width: float = 1.0) -> str:
    return f'<line x1="{x1:.1f}" y1="{y1:.1f}" x2="{x2:.1f}" y2="{y2:.1f}" stroke="{colour}" stroke-width="{width}"/>'


def mark(kind: str, x: float, y: float, colour: str) -> str:
    """A mark of about eight points around a place."""
    if kind == "circle":
        return f'<circle cx="{x:.1f}" cy="{y:.1f}" r="4" fill="{colour}"/>'
    if kind in ("cross", "plus"):
        step = 4 if kind == "cross" else 0
        ends = [(-4, -4, 4, 4), (-4, 4, 4, -4)] if step else [(-5, 0, 5, 0), (0, -5, 0, 5)]
        return "".join(line(x + a, y + b, x + c, y + d, colour, 2) for a, b, c, d in ends)
    corners = {"square": [(-4, -4), (4, -4), (4, 4), (-4, 4)], "triangle": [(0, -5), (5, 4), (-5, 4)], "diamond": [(0, -5), (5, 0), (0, 5), (-5, 0)]}
    return f'<polygon points="{" ".join(f"{x + a:.1f},{y + b:.1f}" for a, b in corners[kind])}" fill="{colour}"/>'


def curve(points: list[tuple[float, float]], style: Style) -> Iterator[str]:
    dashes = f' stroke-dasharray="{style.dashes}"' if style.dashes else ""
    path = " ".join(f"{x:.1f},{y:.1f}" for x, y in points)
    yield f'<polyline points="{path}" fill="none" stroke="{style.colour}" stroke-width="2"{dashes}/>'
    yield from (mark(style.mark, x, y, style.colour) for x, y in points)


def grid(across: Axis, up: Axis, tick_text: Callable[[float], str]) -> Iterator[str]:
    """The lines of a panel with what they stand for."""
    for value in across.ticks():
        x = across.at(value)
        yield line(x, up.begin, x, up.end, "#d8d8d8")
        # the last tick has room for its number if it is not right behind a power
        if is_power(value) or value > across.most * 0.999 and is_power(value / 5):
            yield text(x, up.begin + 18, rows_text(value))
    for value in up.ticks():
        y = up.at(value)
        yield line(across.begin, y, across.end, y, "#d8d8d8")
        yield text(across.begin - 6, y + 4, tick_text(value), "end")
    yield line(across.begin, up.begin, across.end, up.begin, "#000000")
    yield line(across.begin, up.begin, across.begin, up.end, "#000000")


def panel(title: str, left: float, series: dict[str, dict[int, float]], tick_text: Callable[[float], str]) -> Iterator[str]:
    """A panel: a curve for each step, of its values by rows."""
    across = axis([rows for it in series.values() for rows in it], left, left + PLOT_WIDTH, whole_decades=True)
    up = axis([value for it in series.values() for value in it.values()], TOP + PLOT_HEIGHT, TOP)
    yield text(left + PLOT_WIDTH / 2, TOP - 14, title, size=14, font_weight="bold")
    yield from grid(across, up, tick_text)
    for name, values in series.items():
        yield from curve([(across.at(rows), up.at(value)) for rows, value in values.items()], STYLES[name])
    yield text(left + PLOT_WIDTH / 2, TOP + PLOT_HEIGHT + 38, "rows")


def legend(names: Iterable[str]) -> Iterator[str]:
    width = (WIDTH - 60) / LEGEND_COLUMNS
    for at, name in enumerate(names):
        x, y, style = 40 + at % LEGEND_COLUMNS * width, LEGEND_TOP + at // LEGEND_COLUMNS * 22, STYLES[name]
        yield from curve([(x, y)], style)
        dashes = f' stroke-dasharray="{style.dashes}"' if style.dashes else ""
        yield f'<line x1="{x - 18:.1f}" y1="{y}" x2="{x + 18:.1f}" y2="{y}" stroke="{style.colour}" stroke-width="2"{dashes}/>'
        yield text(x + 26, y + 4, name if name in TOOLS else f"pinepolo {name}", "start", 13)


def values(runs: dict[int, Run], of: Callable[[Cost], float]) -> dict[str, dict[int, float]]:
    """What each step took, by rows, if it was measured at all."""
    found = {name: {rows: of(it) for rows, run in runs.items() if (it := cost(run, name))} for name in STYLES}
    return {name: it for name, it in found.items() if it}


def picture(runs: dict[int, Run]) -> str:
    times, memory = values(runs, lambda it: it.seconds), values(runs, lambda it: it.memory)
    parts = [*panel("Time by the clock", LEFTS[0], times, time_text), *panel("Largest memory", LEFTS[1], memory, bytes_text), *legend(times)]
    body = "\n".join(parts)
    return f'''<svg xmlns="http://www.w3.org/2000/svg" width="{WIDTH}" height="{HEIGHT}" viewBox="0 0 {WIDTH} {HEIGHT}" font-family="sans-serif">
<title>Time and memory of Pinepolo's verbs and of public tools, by rows</title>
<rect width="{WIDTH}" height="{HEIGHT}" fill="#ffffff"/>
{body}
</svg>
'''
