"""From which side a net is seen, and how much of it is shown."""

from __future__ import annotations

from dataclasses import dataclass
from itertools import combinations, product

import numpy as np

from ..embedding.placed import marks
from .shape import Shape, Window

FEWEST_EDGES = {"cubic": 15}  # that are shown whole, where more cells can do it
OTHER_FEWEST = 24
MANY_EDGES = 160
FEW_SITES = 6      # in a hexagonal cell, of which one more is shown where it stands in single sheets
YAWS, PITCHES = (9, 14, 17, 22, 28, 35), (7, 11, 16, 22, 28)  # of the frames that are tried, in degrees
CLEARER = 0.12     # by so much less has to be hidden in another frame
LAYER_HALF = 2.7   # half of the side of the square that is shown of a layer, in lengths of edges
STUB = {2: 0.42, 3: 0.27}  # how much is shown of an edge that leaves
LAYER_CELLS = 1.1  # the same in lengths of the longer axis, where that is more


@dataclass
class View:
    """A net as it is shown: what stands in the window, one cell, and the frame of the reader."""

    shape: Shape
    window: Window
    frame: np.ndarray    # rows: to the right, up, and towards the reader
    half: float = 0.0    # of a layer, half of the side of the window

    @property
    def corners(self) -> np.ndarray:
        """Of the cell whose outline is drawn."""
        return np.array(list(product((0, 1), repeat=self.shape.dimension)))

    @property
    def outline(self) -> list[tuple[int, int]]:
        """The edges of that cell, by numbers of corners."""
        corners = self.corners
        return [(m, n) for m, n in combinations(range(len(corners)), 2)
                if abs(corners[m] - corners[n]).sum() == 1]

    @property
    def stubs(self) -> np.ndarray:
        """Where the shown parts of the edges that leave end, in the order of `window.leaving`."""
        share, dimension = STUB[self.shape.dimension], self.shape.dimension
        ends = [self.window.spots[i] + share * vector for i, vector in self.window.leaving]
        return np.array(ends).reshape(-1, dimension)

    @property
    def ball(self) -> float:
        """The radius of the balls, in lengths of edges."""
        lengths = self.shape.edge_lengths()
        return 0.155 * min(float(np.median(lengths)), 1.6 * float(lengths.min()))


def view_of(shape: Shape) -> View:
    if shape.dimension == 2:
        return _view_of_layer(shape)
    window = _around_axis(shape) if shape.system == "hexagonal" else _cells(shape)
    return View(shape, window, _clearest_frame(shape, window))


def _view_of_layer(shape: Shape) -> View:
    """A square of the layer, with a cell in its middle."""
    half = max(LAYER_HALF, LAYER_CELLS * float(shape.lengths.max()))
    centre = np.full(2, 0.5) @ shape.axes
    reach = np.ceil(1.9 * half * np.abs(np.linalg.inv(shape.axes)).sum(axis=0)) + 1
    window = shape.window(-reach, reach, lambda spots: np.all(np.abs(spots @ shape.axes - centre) < half, axis=1))
    return View(shape, window, np.eye(2), half)


def _around_axis(shape: Shape) -> Window:
    """All within a circle around the axis: a rhomb alone shows no channel whole."""
    lengths = shape.lengths
    height = max(1, round(0.5 * lengths[0] / lengths[2]))
    circle = lengths[0] * (1.02 if len(shape.sites) <= 60 else 0.78) + 1e-6
    least = 2.3 if len(shape.sites) <= 6 else 0.0

    def inside(spots: np.ndarray) -> np.ndarray:
        return np.linalg.norm(spots[:, :2] @ shape.axes[:2, :2], axis=1) <= max(circle, least)

    window = shape.window(np.array([-4, -4, 0]), np.array([4, 4, height]), inside)
    if len(shape.sites) <= FEW_SITES and not _shows_all_edges(shape, window):
        more = shape.window(np.array([-4, -4, 0]), np.array([4, 4, height + 1]), inside)
        window = more if len(more.whole) <= MANY_EDGES else window
    return window


def _shows_all_edges(shape: Shape, window: Window) -> bool:
    """Whether each edge of the net, up to translations, is whole somewhere: not so of one sheet."""
    shown = {(window.classes[tail], *marks(window.spots[head] - window.spots[tail]).tolist())
             for i, j in window.whole for tail, head in ((i, j), (j, i))}
    return all((c, *marks(vector).tolist()) in shown for c, arcs in enumerate(shape.arcs) for vector in arcs)


def _cells(shape: Shape) -> Window:
    """One cell, or more where it has few edges or is much longer than wide; axes that are alike
    grow together."""
    count = np.ones(3, int)
    lengths = shape.lengths
    while True:
        window = shape.window(np.zeros(3), count)
        sides = count * lengths
        edges = len(window.whole)
        is_enough = edges >= FEWEST_EDGES.get(shape.system, OTHER_FEWEST)
        if count.max() >= 5 or (is_enough and (sides.min() > 0.45 * sides.max() or edges > MANY_EDGES)):
            return window
        count[sides < sides.min() * 1.001] += 1


def _clearest_frame(shape: Shape, window: Window) -> np.ndarray:
    """The usual frame, nearly along the shortest axis, where channels are, or along the first
    where all are alike; or another near an axis, where in it clearly less is hidden."""
    lengths = shape.lengths
    along = int(np.argmin(np.round(lengths, 4)))
    if shape.system in ("hexagonal", "tetragonal") and lengths[2] > 1.6 * lengths[0]:
        along = 0
    usual = _frames(shape, along, [(17, 11) if shape.system == "cubic" else (9, 7)])
    if len(window.whole) > MANY_EDGES:
        return usual[0]
    turns = list(product(YAWS, PITCHES))
    frames = np.concatenate([usual, *(_frames(shape, axis, turns) for axis in (along, *({0, 1, 2} - {along})))])
    hidden = hidden_shares(shape, window, frames)
    best = 0
    for k, share in enumerate(hidden):
        best = k if share < hidden[best] - CLEARER else best
    return frames[best]


def hidden_share(shape: Shape, window: Window, frame: np.ndarray) -> float:
    """How much is hidden in a frame, as `hidden_shares` has it."""
    return float(hidden_shares(shape, window, frame[None])[0])


def hidden_shares(shape: Shape, window: Window, frames: np.ndarray) -> np.ndarray:
    """How much is hidden in each of several frames: vertices in front of each other or of edges of
    others, for each vertex, and edges that are seen end on, for each edge.

    frames  of shape (n, 3, 3); the result has the shape (n,)"""
    ends = np.array(window.whole, int).reshape(-1, 2)
    if not len(ends):
        return np.zeros(len(frames))
    spots = window.spots @ shape.axes
    lengths = np.linalg.norm(spots[ends[:, 1]] - spots[ends[:, 0]], axis=1)
    near = 0.3 * float(np.median(lengths))
    return np.array([_hidden(frame[:2] @ spots.T, ends, lengths, near) for frame in frames])


def _hidden(points: np.ndarray, ends: np.ndarray, lengths: np.ndarray, near: float) -> float:
    """How much is hidden where the vertices are seen at points of the picture, of shape (2, n)."""
    x, y = points
    tails, heads = ends.T
    u, v = x[heads] - x[tails], y[heads] - y[tails]
    squares = np.maximum(u * u + v * v, 1e-9)
    end_on = np.maximum(1 - np.sqrt(squares) / (0.45 * lengths), 0).sum() / len(ends)
    gaps = (x[:, None] - x) ** 2 + (y[:, None] - y) ** 2
    in_front = (_nearness(gaps, near) - len(x)) / 2  # of each two vertices once, and of none to itself
    x, y = x[:, None] - x[tails], y[:, None] - y[tails]
    share = np.minimum(np.maximum((x * u + y * v) / squares, 0), 1)  # of an edge, up to the point that is nearest
    gaps = (x - share * u) ** 2 + (y - share * v) ** 2
    numbers = np.arange(len(ends))
    gaps[tails, numbers] = gaps[heads, numbers] = np.inf
    return float((2 * in_front + _nearness(gaps, 0.6 * near)) / points.shape[1] + 2 * end_on)


def _nearness(squares: np.ndarray, reach: float) -> float:
    """How much is nearer than the reach: of squares of gaps the sum of 1 - gap / reach, where that is not below 0."""
    near = squares[squares < reach * reach]
    return len(near) - float(np.sqrt(near).sum()) / reach


def _frames(shape: Shape, along: int, turns: list[tuple[int, int]]) -> np.ndarray:
    """Nearly along an axis, turned by two angles in degrees: about the upright, and upwards. One frame for each pair."""
    front = _unit(shape.axes[along])
    up = shape.axes[(2, 0, 1)[along]]
    up = _unit(up - up @ front * front)
    right = np.cross(up, front)
    yaw, pitch = np.radians(turns).T[:, :, None]
    aside = front * np.cos(yaw) + right * np.sin(yaw)
    rows = (right * np.cos(yaw) - front * np.sin(yaw), up * np.cos(pitch) - aside * np.sin(pitch),
            aside * np.cos(pitch) + up * np.sin(pitch))
    return np.stack(rows, axis=1)


def _unit(vector: np.ndarray) -> np.ndarray:
    return vector / np.linalg.norm(vector)
