"""A picture of a net as SVG."""

from __future__ import annotations

import html

import numpy as np

from .text import PALETTE, misty, mixed
from .view import View

SIZE, MARGIN = 400, 26
RIM_WIDTH = 4          # around the ends of edges that leave
EDGE, LEAVING, OUTLINE, RIM = "#5b6672", "#a3acb5", "#1b1f24", "#20262c"
LEVELS = 5             # of mist on balls
HALO = 2.4             # white beside an edge, where it passes in front of another


def picture(view: View, label: str) -> str:
    return Drawing(view).text(label)


def number(x: float) -> str:
    """With one digit after the point, where it is not 0."""
    text = f"{x:.1f}".removesuffix(".0")
    return "0" if text == "-0" else text


class Drawing:
    """Parts of a picture, which are painted from the back to the front."""

    def __init__(self, view: View) -> None:
        self.view, self.shape, self.window = view, view.shape, view.window
        self.in_space = view.shape.dimension == 3
        self.parts: list[tuple[float, str]] = []
        self.balls: set[tuple[int, int]] = set()  # colour and mist of those that are drawn
        self.lens = Lens(view)
        self.radius = min(10.0, max(2.2, view.ball * self.lens.scale))
        self.width = max(1.3, self.radius * 0.52)

    def text(self, label: str) -> str:
        self._edges()
        self._outline()
        self._vertices()
        self.parts.sort(key=lambda part: part[0])
        return (f'<svg xmlns="http://www.w3.org/2000/svg" viewBox="0 0 {SIZE} {SIZE}" role="img">'
                f'<title>{html.escape(label)}</title>'
                f'<defs>{"".join(map(gradient, sorted(self.balls)))}</defs>'
                f'<rect width="{SIZE}" height="{SIZE}" fill="#fff"/>'
                f'<g fill="none" stroke-linecap="round" stroke-width=".6">{"".join(p for _, p in self.parts)}</g>'
                '<g font-family="Helvetica,Arial,sans-serif" font-size="13" font-style="italic" '
                'text-anchor="middle" fill="#1b1f24" stroke="#fff" stroke-width="3" paint-order="stroke">'
                f'{"".join(self._letters())}</g></svg>\n')

    def _edges(self) -> None:
        points = self.lens.seen(self.window.spots)
        tails, heads = np.array(self.window.whole, int).reshape(-1, 2).T
        colours = [EDGE] * len(tails)
        self._lines(self._surfaces(points[tails], points[heads]), self._surfaces(points[heads], points[tails]), colours,
                    self.width)
        starts, ends = points[[tail for tail, _ in self.window.leaving]], self.lens.seen(self.view.stubs)
        self._lines(self._surfaces(starts, ends), ends, [LEAVING] * len(ends), self.width * 0.8)

    def _surfaces(self, starts: np.ndarray, ends: np.ndarray) -> np.ndarray:
        """Where each way leaves the ball of its start, so that nothing is drawn over it."""
        if not self.in_space:
            return starts
        pull = 0.8 * self.radius / self.lens.scale
        ways = ends - starts
        return starts + ways * np.minimum(0.45, pull / np.maximum(1e-9, np.linalg.norm(ways, axis=1)))[:, None]

    def _outline(self) -> None:
        corners = self.view.corners
        cuts = np.linspace(0, 1, 7 if self.in_space else 2)[:, None]
        for m, n in self.view.outline:
            points = self.lens.seen(corners[m] * (1 - cuts) + corners[n] * cuts)
            self._lines(points[:-1], points[1:], [OUTLINE] * (len(points) - 1), 1.1,
                        in_front=1e-4 if self.in_space else 5.0, has_halo=False)

    def _lines(self, starts: np.ndarray, ends: np.ndarray, colours: list[str], width: float, in_front: float = 0.0,
               has_halo: bool = True) -> None:
        """Lines between points as `Lens.seen` gives them."""
        heights = ((starts[:, 2] + ends[:, 2]) / 2).tolist()
        for p, q, z, colour in zip(self.lens.to_page(starts), self.lens.to_page(ends), heights, colours):
            depth = self.lens.depth(z)
            wide = width * (1 - 0.35 * depth)
            path = "M%s %sL%s %s" % (*map(number, p), *map(number, q))
            text = f'<path d="{path}" stroke="{misty(colour, depth)}" stroke-width="{wide:.1f}"/>'
            if has_halo and self.in_space:
                text = f'<path d="{path}" stroke="#fff" stroke-width="{wide + HALO:.1f}"/>' + text
            self.parts.append((z + in_front, text))

    def _vertices(self) -> None:
        points = self.lens.seen(self.window.spots)
        for (x, y), z, c in zip(self.lens.to_page(points), points[:, 2].tolist(), self.window.classes):
            depth, kind = self.lens.depth(z), self.shape.kind[c]
            colour, level = kind % len(PALETTE), round(depth * LEVELS)
            self.balls.add((colour, level))
            radius, place = self.radius * self.lens.grow(z), f'cx="{number(x)}" cy="{number(y)}"'
            text = (f'<circle {place} r="{radius:.1f}" fill="url(#k{colour}l{level})" '
                    f'stroke="{misty(RIM, min(1, depth + 0.15))}"/>')
            if kind >= len(PALETTE):
                text += f'<circle {place} r="{radius * 0.4:.1f}" fill="#fff"/>'
            self.parts.append((z + (2e-4 if self.in_space else 9.0), text))

    def _letters(self) -> list[str]:
        """The names of the axes at the ends of those that are long enough in the picture."""
        dimension = self.shape.dimension
        (u, v), *tips = self.lens.to_page(self.lens.seen(np.vstack([np.zeros(dimension), np.eye(dimension)])))
        letters = []
        for (x, y), letter in zip(tips, "abc"):
            length = float(np.hypot(x - u, y - v))
            if length < 30:
                continue
            x, y = x + (x - u) / length * 13, y + (y - v) / length * 13 + 4
            x, y = min(SIZE - 8, max(8, x)), min(SIZE - 6, max(10, y))
            letters.append(f'<text x="{number(x)}" y="{number(y)}">{letter}</text>')
        return letters


class Lens:
    """From places in the cell to points of the page: x, y, and a depth by which parts are sorted."""

    def __init__(self, view: View) -> None:
        self.view = view
        self.in_space = view.shape.dimension == 3
        shown = [np.atleast_2d(view.window.spots), view.corners]
        if self.in_space:
            points = np.vstack([self._turned(rows) for rows in shown])
            self.middle = (points.max(axis=0) + points.min(axis=0)) / 2
            self.near, self.far = float(points[:, 2].max()), float(points[:, 2].min())
            self.eye = self.near + 3.2 * float(np.ptp(points, axis=0).max())  # a mild perspective
            seen = np.vstack([self.seen(rows) for rows in shown])[:, :2]
            self.shift = (seen.max(axis=0) + seen.min(axis=0)) / 2
            stubs = np.abs(self.seen(view.stubs)[:, :2] - self.shift).max(initial=0)
            self.scale = min((SIZE - 2 * MARGIN) / float(np.ptp(seen, axis=0).max()),
                             (SIZE / 2 - RIM_WIDTH) / max(float(stubs), 1e-9))
        else:
            self.middle = self._turned(np.full((1, 2), 0.5))[0]
            self.shift = np.zeros(2)
            self.scale = SIZE / 2.02 / view.half

    def _turned(self, rows: np.ndarray) -> np.ndarray:
        return np.atleast_2d(rows) @ self.view.shape.axes @ self.view.frame.T

    def seen(self, rows: np.ndarray) -> np.ndarray:
        points = self._turned(rows)
        flat = points[:, :2] - self.middle[:2]
        if not self.in_space:
            return np.column_stack([flat, -np.abs(flat).max(axis=1) / self.view.half])
        grow = (self.eye - self.middle[2]) / (self.eye - points[:, 2])
        return np.column_stack([flat * grow[:, None], points[:, 2]])

    def grow(self, z: float) -> float:
        """How much larger than in the middle a thing at this depth is seen."""
        return (self.eye - self.middle[2]) / (self.eye - z) if self.in_space else 1.0

    def depth(self, z: float) -> float:
        """0 in front, 1 behind; a layer fades towards the border of its window."""
        if self.in_space:
            return (self.near - z) / (self.near - self.far) if self.near > self.far + 1e-9 else 0.0
        return 0.8 * min(1.0, max(0.0, (-z - 0.62) / 0.38))

    def to_page(self, points: np.ndarray) -> list[tuple[float, float]]:
        """Where points that are seen stand on the page."""
        rows: list[list[float]] = ((points[:, :2] - self.shift) * self.scale).tolist()
        return [(SIZE / 2 + x, SIZE / 2 - y) for x, y in rows]


def gradient(ball: tuple[int, int]) -> str:
    """The light on a ball of a colour and a level of mist."""
    colour, level = ball
    base, depth = PALETTE[colour], level / LEVELS
    stops = ((0, mixed(base, 255, 0.55)), (0.45, base), (1, mixed(base, 0, 0.28)))
    text = "".join(f'<stop offset="{at}" stop-color="{misty(part, depth)}"/>' for at, part in stops)
    return f'<radialGradient id="k{colour}l{level}" cx=".35" cy=".32" r=".75">{text}</radialGradient>'
