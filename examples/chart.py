"""A line chart as SVG text, drawn with the standard library alone: the examples and bench/run share it."""

from __future__ import annotations

import math
from html import escape
from typing import Dict, List, Sequence, Tuple

Points = Sequence[Tuple[float, float]]

COLOURS = ("#1f6fb2", "#c8501e", "#3a8f4d", "#7a4fa3", "#8a6d1d", "#444444")
WIDTH, HEIGHT, LEFT, RIGHT, TOP, BOTTOM = 760, 420, 90, 170, 46, 56


def line_chart(title: str, across: str, up: str, series: Dict[str, Points]) -> str:
    """One line for each series, by name, of points (x, y) with y above 0. The x axis is even, the y axis by powers of ten."""
    if not any(series.values()):
        raise ValueError("a chart wants a point")
    xs = sorted({x for points in series.values() for x, _ in points})
    ys = [y for points in series.values() for _, y in points]
    low, high = math.floor(math.log10(min(ys))), max(math.ceil(math.log10(max(ys))), math.floor(math.log10(min(ys))) + 1)

    def place(x: float, y: float) -> Tuple[float, float]:
        share = (x - xs[0]) / (xs[-1] - xs[0] or 1)
        height = (math.log10(y) - low) / (high - low)
        return LEFT + share * (WIDTH - LEFT - RIGHT), HEIGHT - BOTTOM - height * (HEIGHT - TOP - BOTTOM)

    parts = [
        f'<svg xmlns="http://www.w3.org/2000/svg" width="{WIDTH}" height="{HEIGHT}" font-family="sans-serif" font-size="12">',
        f'<rect width="{WIDTH}" height="{HEIGHT}" fill="white"/>',
        _text(LEFT, 24, title, size=15),
        _text((LEFT + WIDTH - RIGHT) / 2, HEIGHT - 14, across, anchor="middle"),
        f'<g transform="translate(20 {HEIGHT / 2}) rotate(-90)">{_text(0, 0, up, anchor="middle")}</g>',
    ]
    for power in range(low, high + 1):
        _, y = place(xs[0], 10.0**power)
        parts.append(f'<line x1="{LEFT}" x2="{WIDTH - RIGHT}" y1="{y:.1f}" y2="{y:.1f}" stroke="#dddddd"/>')
        parts.append(_text(LEFT - 8, y + 4, f"{10.0**power:,.10g}", anchor="end"))
    for x in xs:
        parts.append(_text(place(x, 10.0**low)[0], HEIGHT - BOTTOM + 18, f"{x:g}", anchor="middle"))
    for at, (name, points) in enumerate(series.items()):
        parts += _line(name, at, [place(x, y) for x, y in points])
    return "\n".join([*parts, "</svg>", ""])


def column(charts: Sequence[str]) -> str:
    """The charts below each other, as one picture."""
    placed = [f'<g transform="translate(0 {HEIGHT * at})">\n{chart}</g>' for at, chart in enumerate(charts)]
    opening = f'<svg xmlns="http://www.w3.org/2000/svg" width="{WIDTH}" height="{HEIGHT * len(charts)}">'
    return "\n".join([opening, *placed, "</svg>", ""])


def _text(x: float, y: float, text: str, anchor: str = "start", size: int = 12) -> str:
    return f'<text x="{x:.1f}" y="{y:.1f}" text-anchor="{anchor}" font-size="{size}">{escape(text)}</text>'


def _line(name: str, at: int, places: List[Tuple[float, float]]) -> List[str]:
    """A line through the places with a dot at each, and its name in the legend."""
    colour = COLOURS[at % len(COLOURS)]
    dash = "6 4" if at >= len(COLOURS) else "none"
    path = " ".join(f"{x:.1f},{y:.1f}" for x, y in places)
    y = TOP + 10 + 20 * at
    return [
        f'<polyline points="{path}" fill="none" stroke="{colour}" stroke-width="2" stroke-dasharray="{dash}"/>',
        *(f'<circle cx="{x:.1f}" cy="{y:.1f}" r="3" fill="{colour}"/>' for x, y in places),
        f'<line x1="{WIDTH - RIGHT + 14}" x2="{WIDTH - RIGHT + 38}" y1="{y}" y2="{y}" stroke="{colour}" stroke-width="2"'
        f' stroke-dasharray="{dash}"/>',
        _text(WIDTH - RIGHT + 44, y + 4, name),
    ]
