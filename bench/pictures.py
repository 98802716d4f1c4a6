"""Pictures of docs/PERFORMANCE.md, as SVG."""
from __future__ import annotations

import math
from dataclasses import dataclass, field
from typing import Callable

WIDTH, HEIGHT = 640, 320
LEFT, RIGHT, TOP, BOTTOM = 48, 150, 30, 42
COLOURS = ['#1b5e9e', '#d1495b', '#3a8f5c', '#8a6bbe', '#b07a1e', '#555555']
Point = tuple[float, float]


@dataclass
class Axis:
    """Where numbers lie on an axis, with the marks that are written at it."""

    low: float
    high: float
    marks: list[float]
    is_log: bool = False
    label: str = ''

    def share(self, value: float) -> float:
        scale: Callable[[float], float] = math.log if self.is_log else float
        return (scale(value) - scale(self.low)) / (scale(self.high) - scale(self.low))


@dataclass
class Chart:
    """Lines over two axes; each has its name behind its end."""

    title: str
    across: Axis
    upward: Axis
    lines: dict[str, list[Point]] = field(default_factory=dict)
    stepped: bool = False

    def x(self, value: float) -> float:
        return LEFT + self.across.share(value) * (WIDTH - LEFT - RIGHT)

    def y(self, value: float) -> float:
        return HEIGHT - BOTTOM - self.upward.share(value) * (HEIGHT - TOP - BOTTOM)

    def svg(self) -> str:
        parts = [
            f'<svg xmlns="http://www.w3.org/2000/svg" viewBox="0 0 {WIDTH} {HEIGHT}" '
            f'width="{WIDTH}" height="{HEIGHT}" font-family="sans-serif" font-size="12">',
            f'<rect width="{WIDTH}" height="{HEIGHT}" fill="white"/>',
            text(LEFT, 18, self.title, 'start'),
            *self.grid(),
            *self.drawn(),
            '</svg>',
        ]
        return '\n'.join(parts) + '\n'

    def grid(self) -> list[str]:
        parts = []
        right, bottom = WIDTH - RIGHT, HEIGHT - BOTTOM
        for value in self.across.marks:
            x = self.x(value)
            parts.append(f'<path d="M{x:.1f} {TOP}V{bottom}" stroke="#ddd"/>')
            parts.append(text(x, bottom + 16, f'{value:g}', 'middle'))
        for value in self.upward.marks:
            y = self.y(value)
            parts.append(f'<path d="M{LEFT} {y:.1f}H{right}" stroke="#ddd"/>')
            parts.append(text(LEFT - 6, y + 4, f'{value:g}', 'end'))
        parts.append(text((LEFT + right) / 2, HEIGHT - 8, self.across.label, 'middle'))
        return parts

    def drawn(self) -> list[str]:
        parts = []
        ends = self.apart({it: self.y(points[-1][1]) for it, points in self.lines.items()})
        for (name, points), colour in zip(self.lines.items(), COLOURS):
            path = f'M{self.x(points[0][0]):.1f} {self.y(points[0][1]):.1f}'
            for x, y in points[1:]:
                if self.stepped:
                    path += f'H{self.x(x):.1f}V{self.y(y):.1f}'
                else:
                    path += f'L{self.x(x):.1f} {self.y(y):.1f}'
            parts.append(f'<path d="{path}" fill="none" stroke="{colour}" stroke-width="2"/>')
            parts.append(text(WIDTH - RIGHT + 8, ends[name] + 4, name, 'start', colour))
        return parts

    def apart(self, ends: dict[str, float]) -> dict[str, float]:
        """Places of the names, so far from each other that they can be read."""
        placed: dict[str, float] = {}
        last = -math.inf
        for name in sorted(ends, key=lambda it: ends[it]):
            last = max(ends[name], last + 14)
            placed[name] = last
        return placed


def text(x: float, y: float, words: str, anchor: str, colour: str = '#222') -> str:
    return f'<text x="{x:.1f}" y="{y:.1f}" text-anchor="{anchor}" fill="{colour}">{words}</text>'


def cactus(seconds: dict[str, list[float]], count: int, limit: float) -> str:
    """How many of the scripts each solver has solved within each time."""
    least = 0.001
    top = 10 * math.ceil(count / 10)
    chart = Chart(
        f'Scripts solved, of {count}, by processor seconds',
        Axis(least, limit, [0.001, 0.01, 0.1, 1, 10, limit], True, 'seconds'),
        Axis(0, top, [float(it) for it in range(0, top + 1, 10)]),
        stepped=True,
    )
    for name, values in seconds.items():
        points: list[Point] = [(least, 0.0)]
        for number, value in enumerate(sorted(values), 1):
            points.append((min(max(value, least), limit), float(number)))
        points.append((limit, float(len(values))))
        chart.lines[name] = points
    return chart.svg()


def speedups(lines: dict[str, list[Point]]) -> str:
    """How many times as fast as one worker, by the number of workers."""
    top = math.ceil(max(y for points in lines.values() for _, y in points))
    chart = Chart(
        'Times as fast as one worker',
        Axis(1, 64, [1, 2, 4, 8, 16, 32, 64], True, 'workers'),
        Axis(0, top, [float(it) for it in range(0, top + 1)]),
        lines,
    )
    return chart.svg()
