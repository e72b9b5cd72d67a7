"""Nyquist and Bode plots by matplotlib, where it is there. A picture shows answers; it changes none."""

from __future__ import annotations

import cmath
import io
import math
from pathlib import Path
from typing import Any, Dict, List, NamedTuple, Optional, Sequence, Tuple

from .errors import TulipcricketError
from .formula import Formula, Run

UNITS = {"f": "Hz", "w": "rad/s", "ω": "rad/s", "Z": "Ω", "Y": "S"}
COLOURS = ("#1f4e8c", "#c2571a", "#2e7d4f", "#7b3f98", "#8c6d1f")
FEW = 150
"""So many points are drawn one by one; of more only the line is."""
SETTINGS = {
    "svg.hashsalt": "tulipcricket", "svg.fonttype": "path", "font.family": "DejaVu Sans", "font.size": 9.0, "axes.grid": True,
    "grid.color": "#d9d9d9", "grid.linewidth": 0.6, "axes.edgecolor": "#666666", "axes.linewidth": 0.8, "axes.axisbelow": True,
}


class NoPlots(TulipcricketError):
    """matplotlib is not there, or nothing can be drawn."""


class Curve(NamedTuple):
    """A name's answers over a given column."""

    name: str
    over: str
    x: List[float]
    z: List[complex]


def matplotlib() -> Any:
    """The module, or NoPlots."""
    try:
        import matplotlib as module
        import matplotlib.figure
        import matplotlib.ticker
    except ImportError:
        raise NoPlots("plots need matplotlib, which is not here (Debian: python3-matplotlib); all else works without it") from None
    return module


def curves(formula: Formula, given: Dict[str, List[float]], run: Run, over: Optional[str] = None) -> List[Curve]:
    """The complex answers, over a real given column with positive numbers."""
    reals = [one.name for one in formula.program.givens if not one.is_complex]
    if over is not None and over not in reals:
        raise NoPlots(f"a plot is drawn over a real given name: {', '.join(reals) or 'there is none'}")
    if not reals:
        raise NoPlots("a plot needs a real column that is given, as f")
    over = over or reals[0]
    names = [name for name in formula.shows if not formula.is_real(name)]
    if not names:
        raise NoPlots("a plot needs a complex answer")
    x = given[over]
    return [Curve(name, over, x, [complex(value) for value in run.values(name)]) for name in names]


def label(text: str, names: Sequence[str]) -> str:
    """An axis: what is drawn, in the unit of the name where that is known; of several names, what is drawn alone."""
    if len(names) > 1:
        return text.format("").strip()
    unit = f" / {UNITS[names[0]]}" if names[0] in UNITS else ""
    return text.format(names[0]) + unit


def finite(curve: Curve) -> List[Tuple[float, complex]]:
    """The points that can be drawn."""
    return [(x, z) for x, z in zip(curve.x, curve.z) if math.isfinite(x) and cmath.isfinite(z)]


def decades(points: Sequence[Tuple[float, complex]]) -> List[Tuple[int, int]]:
    """For each power of ten within the range the index of the nearest point, if it is within a tenth of a decade."""
    places = [(math.log10(x), i) for i, (x, _) in enumerate(points) if x > 0]
    if not places:
        return []
    low, high = min(places)[0], max(places)[0]
    found = []
    for k in range(math.ceil(low - 0.05), math.floor(high + 0.05) + 1):
        place, i = min(places, key=lambda one: abs(one[0] - k))
        if abs(place - k) <= 0.1:
            found.append((k, i))
    return found


def style(count: int) -> Dict[str, Any]:
    """Points where there are few, else the line alone."""
    return {"marker": "o", "markersize": 2.5, "linewidth": 1.0} if count <= FEW else {"linewidth": 1.2}


def nyquist(axes: Any, drawn: Sequence[Curve]) -> None:
    """-Im over Re with equal axes, decades marked."""
    for curve, colour in zip(drawn, COLOURS * len(drawn)):
        points = finite(curve)
        axes.plot([z.real for _, z in points], [-z.imag for _, z in points], color=colour, label=curve.name, **style(len(points)))
    axes.margins(0.12)
    axes.set_aspect("equal", adjustable=adjustable(drawn))
    first, names = drawn[0], [curve.name for curve in drawn]
    axes.set_xlabel(label("Re {}", names))
    axes.set_ylabel(label("−Im {}", names))
    axes.xaxis.set_major_locator(matplotlib().ticker.MaxNLocator(6))
    axes.set_title(f"Nyquist, powers of ten of {first.over}{' in ' + UNITS[first.over] if first.over in UNITS else ''} marked")
    if len(drawn) > 1:
        axes.legend()
    axes.figure.draw_without_rendering()
    named: List[Tuple[float, float]] = []
    for curve, colour in zip(drawn, COLOURS * len(drawn)):
        mark(axes, finite(curve), colour, named)


def adjustable(drawn: Sequence[Curve]) -> str:
    """What gives way to equal axes: the box, or for a flat or a steep curve its limits."""
    answers = [z for curve in drawn for _, z in finite(curve)]
    if not answers:
        return "datalim"
    wide = max(z.real for z in answers) - min(z.real for z in answers)
    high = max(z.imag for z in answers) - min(z.imag for z in answers)
    return "box" if 0 < wide <= 4 * high and high <= 2 * wide else "datalim"


def scale_of_sizes(axes: Any, sizes: Sequence[float]) -> None:
    """A logarithmic scale; over less than three decades 1, 2 and 5 have their numbers."""
    axes.set_yscale("log")
    if sizes and max(sizes) < 1000 * min(sizes):
        ticker = matplotlib().ticker
        axes.yaxis.set_major_locator(ticker.LogLocator(subs=(1, 2, 5)))
        axes.yaxis.set_major_formatter(ticker.StrMethodFormatter("{x:g}"))
        axes.yaxis.set_minor_formatter(ticker.NullFormatter())


def falls(points: Sequence[Tuple[float, complex]], i: int) -> bool:
    """Whether the drawn curve falls towards the right at a point."""
    way = points[min(i + 1, len(points) - 1)][1] - points[max(i - 1, 0)][1]
    return way.real * -way.imag < 0


def mark(axes: Any, points: Sequence[Tuple[float, complex]], colour: str, named: List[Tuple[float, float]]) -> None:
    """Rings at the decades, with names inside an arc, where they do not lie upon each other; `named` is where names stand."""
    for k, i in decades(points):
        z = points[i][1]
        axes.plot([z.real], [-z.imag], marker="o", markersize=6, markerfacecolor="white", markeredgecolor=colour, linestyle="none")
        x, y = axes.transData.transform((z.real, -z.imag))
        if all(math.hypot(x - u, y - v) > 26 for u, v in named):
            named.append((x, y))
            side = (-4, "right") if falls(points, i) else (5, "left")
            axes.annotate(f"$10^{{{k}}}$", (z.real, -z.imag), textcoords="offset points", xytext=(side[0], -11), ha=side[1], fontsize=8,
                          color=colour)


def bode(upper: Any, lower: Any, drawn: Sequence[Curve]) -> None:
    """Size and phase over the given column."""
    for curve, colour in zip(drawn, COLOURS * len(drawn)):
        points = [(x, z) for x, z in finite(curve) if x > 0 and z != 0]
        x = [x for x, _ in points]
        upper.plot(x, [abs(z) for _, z in points], color=colour, label=curve.name, **style(len(points)))
        lower.plot(x, [math.degrees(cmath.phase(z)) for _, z in points], color=colour, **style(len(points)))
    first = drawn[0]
    for axes in (upper, lower):
        axes.set_xscale("log")
    scale_of_sizes(upper, [abs(z) for curve in drawn for x, z in finite(curve) if x > 0 and z != 0])
    upper.set_ylabel(label("|{}|", [curve.name for curve in drawn]) if len(drawn) == 1 else "size")
    lower.set_ylabel("phase / °")
    lower.set_xlabel(label("{}", [first.over]))
    upper.set_title("Bode")
    if len(drawn) > 1:
        upper.legend()


def figure(drawn: Sequence[Curve], kind: str = "both") -> Any:
    """A figure with both plots, or with one of them."""
    module = matplotlib()
    with module.rc_context(SETTINGS):
        made = module.figure.Figure(figsize={"both": (11, 5), "nyquist": (6.6, 4.6), "bode": (6.6, 4.6)}[kind], layout="constrained")
        if kind == "both":
            panes = made.subplot_mosaic("ns;np")
            panes["s"].sharex(panes["p"])
            panes["s"].tick_params(labelbottom=False)
            bode(panes["s"], panes["p"], drawn)
            nyquist(panes["n"], drawn)
        elif kind == "nyquist":
            nyquist(made.subplots(), drawn)
        else:
            upper, lower = made.subplots(2, 1, sharex=True)
            bode(upper, lower, drawn)
    return made


def saved(made: Any, form: str) -> bytes:
    """The bytes of a picture: svg, png or pdf. The same answers give the same bytes."""
    out = io.BytesIO()
    dates: Dict[str, Optional[str]] = {
        "svg": {"Date": None, "Creator": None}, "pdf": {"CreationDate": None, "Creator": None, "Producer": None}, "png": {"Software": None},
    }[form]  # type: ignore[assignment]
    with matplotlib().rc_context(SETTINGS):
        made.savefig(out, format=form, dpi=160, metadata=dates, bbox_inches="tight", pad_inches=0.08)
    return out.getvalue()


def picture(drawn: Sequence[Curve], name: str) -> bytes:
    """The file that is asked for, by its ending."""
    return saved(figure(drawn), Path(name).suffix[1:].lower())
