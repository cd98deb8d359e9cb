"""Shapes of a net whose edges are as equal as they can be.

The shape of greatest volume with no edge longer than 1 is found first. Weights t >= 0 of the edges decide it: each vertex
stands at the t-weighted mean of its neighbours, and the metric is the inverse of M, the sum of t v v^T over the vectors v of
the edges in units of the lattice. Of these weights log det M - sum t is a concave function, whose gradient at an edge is
the square of its length less 1. So at its maximum no edge is longer than 1, and each with t > 0 has the length 1. Then by
duality no embedding with edges up to 1 has a greater volume. If all t are positive all edges are equal, and the shape is
the only one. This needs no symmetry, and what is found has those of the net.

Else edges are made as equal as a path of compromises between equal lengths and volume leads to: "best found"."""

from __future__ import annotations

from dataclasses import dataclass
from enum import Enum

import numpy as np

from .metric import standard_gram
from .placed import Placed
from .symmetry import Symmetry, edge_orbits, vertex_orbits

CENTRING = (1.0, 1e-2, 1e-4, 1e-6, 1e-8, 1e-10, 1e-12)  # how much weights are kept from 0, in steps
GOES_TO_ZERO = 1e-6     # from this one on a weight that falls with it goes to 0
MOST_STEPS = 60         # of Newton's method for each of these
STILL = 1e-12           # a step of Newton's method that changes so little is the last
ROUNDING = 1e-12        # of a value that is summed up
SMALL_WEIGHT = 1e-5     # of the mean weight: below it an edge need not have the length 1
EQUAL = 1e-7            # of the squares of lengths: equal up to rounding
VOLUME_SHARES = (1.0, 0.3, 0.1, 0.03, 1e-2, 1e-3, 1e-4, 1e-5, 1e-6, 0.0)  # of the volume in the compromise, in steps
SHORT_EDGE, NEAR_VERTEX, FLAT = 0.5, 0.05, 0.1  # of the mean edge, of it, of the standard volume: a shape that is none


class Certainty(str, Enum):
    """How sure the shape of an embedding is."""

    CERTIFIED = "equal edges, certified"  # each other embedding with edges up to 1 has a smaller volume
    BEST_FOUND = "best found"
    STANDARD = "standard realization"

    def __str__(self) -> str:
        return self.value


@dataclass(frozen=True, eq=False)
class Relaxed:
    """A shape of a net.

    net      with its places, in units of the primitive basis
    gram     the products of the vectors of that basis; the mean edge has the length 1
    weights  of the edges, by which the shape is certified; none if it is not"""

    net: Placed
    gram: np.ndarray
    certainty: Certainty
    weights: np.ndarray | None = None


def relaxed(net: Placed, found: list[Symmetry]) -> Relaxed:
    """The certified shape if there is one, else the best found, else the standard realization."""
    shape = _greatest_volume(net, found)
    if shape is not None:
        return shape
    shape = _best_found(net, found)
    if not _is_flat(shape, net, found):
        return shape
    return Relaxed(net, standard_gram(net), Certainty.STANDARD)


class Weighing:
    """The vectors of the edges of a net when the edges have weights."""

    def __init__(self, net: Placed) -> None:
        self.shifts = np.array([shift for _, _, shift in net.edges], float)
        ends = np.zeros((len(net.edges), len(net.places)))
        rows = np.arange(len(net.edges))
        np.add.at(ends, (rows, [v for _, v, _ in net.edges]), 1.0)
        np.add.at(ends, (rows, [u for u, _, _ in net.edges]), -1.0)
        self.ends = ends[:, 1:]  # the first vertex stays in the origin

    def weigh(self, weights: np.ndarray) -> None:
        """Places the vertices at the weighted means of their neighbours."""
        pulls = self.ends.T * weights
        self.inverse = np.linalg.inv(pulls @ self.ends)
        self.places = -self.inverse @ (pulls @ self.shifts)
        self.vectors = self.shifts + self.ends @ self.places
        self.moment = (self.vectors.T * weights) @ self.vectors
        self.gram = np.linalg.inv(self.moment)

    def value(self, weights: np.ndarray) -> float:
        return float(np.linalg.slogdet(self.moment)[1] - weights.sum())

    def squares(self) -> np.ndarray:
        """Of the lengths of the edges."""
        lengths: np.ndarray = np.einsum("ij,jk,ik->i", self.vectors, self.gram, self.vectors)
        return lengths

    def curvature(self) -> np.ndarray:
        """The second derivatives of log det M by the weights, with the opposite sign."""
        products = self.vectors @ self.gram @ self.vectors.T
        return products * (products + 2 * (self.ends @ self.inverse @ self.ends.T))


def _greatest_volume(net: Placed, found: list[Symmetry]) -> Relaxed | None:
    """The shape of greatest volume with no edge longer than 1, if each edge has a weight; the weights of an orbit of edges
    are one."""
    orbit = np.unique(edge_orbits(net, found), return_inverse=True)[1]
    sizes = np.bincount(orbit).astype(float)
    weighing, members = Weighing(net), np.eye(len(sizes))[orbit]
    weights = np.full(len(sizes), net.dimension / len(net.edges))
    for centring in CENTRING:
        least = weights.min()
        weights = _centred(weighing, members, sizes, weights, centring)
        if centring <= GOES_TO_ZERO and weights.min() < least / 10:
            return None
    weighing.weigh(weights[orbit])
    squares = weighing.squares()
    if weights.min() < SMALL_WEIGHT * weights.mean() or np.abs(squares - 1).max() > EQUAL:
        return None
    places = np.vstack([np.zeros((1, net.dimension)), weighing.places])
    shape = _symmetric(Placed(places, net.edges), weighing.gram, net, found)
    return Relaxed(*shape, Certainty.CERTIFIED, weights[orbit])


def _centred(weighing: Weighing, members: np.ndarray, sizes: np.ndarray, weights: np.ndarray, centring: float) -> np.ndarray:
    """The weights of orbits at which the function and so many times the sum of their logarithms is greatest."""
    def value(tried: np.ndarray) -> float:
        weighing.weigh(members @ tried)
        return weighing.value(members @ tried) + centring * float(sizes @ np.log(tried))

    now = value(weights)
    for _ in range(MOST_STEPS):
        slope = members.T @ weighing.squares() - sizes + centring * sizes / weights
        bend = members.T @ weighing.curvature() @ members + np.diag(centring * sizes / weights**2)
        step = np.linalg.lstsq(bend, slope, rcond=None)[0]
        share = min([1.0, *(0.9 * weights[step < 0] / -step[step < 0])])
        while (then := value(weights + share * step)) < now - ROUNDING * (1 + abs(now)) and share > STILL:
            share /= 2
        weights, now = weights + share * step, then
        if slope @ step < STILL**2:
            break
    value(weights)
    return weights


def _symmetric(shape: Placed, gram: np.ndarray, net: Placed, found: list[Symmetry]) -> tuple[Placed, np.ndarray]:
    """A shape with exactly the symmetries of the net, by the mean over them, and with the mean edge 1."""
    steps = shape.places - net.places
    steps -= steps.mean(axis=0)
    moved, metric = np.zeros_like(steps), np.zeros_like(gram)
    for symmetry in found:
        moved[symmetry.to] += steps @ symmetry.turn / len(found)
        metric += symmetry.turn @ gram @ symmetry.turn.T / len(found)
    placed, metric = Placed(net.places + moved, net.edges), (metric + metric.T) / 2
    return placed, metric / _lengths(placed, metric).mean() ** 2


def _lengths(net: Placed, gram: np.ndarray) -> np.ndarray:
    vectors = net.vectors()
    lengths: np.ndarray = np.sqrt(np.einsum("ij,jk,ik->i", vectors, gram, vectors))
    return lengths


class Compromise:
    """The sum of (l^2 - 1)^2 over the edges, less a share of the logarithm of the volume, among all shapes with the symmetries
    of the net. Such a shape is a sum of displacements that all symmetries keep, and a sum of metrics that they keep."""

    def __init__(self, net: Placed, gram: np.ndarray, found: list[Symmetry]) -> None:
        orbit, first, sizes = np.unique(edge_orbits(net, found), return_index=True, return_counts=True)
        self.fields, self.metrics, self.sizes = kept_displacements(net, found), kept_metrics(found), sizes.astype(float)
        tails, heads = ([net.edges[k][end] for k in first] for end in (0, 1))
        self.vectors = net.vectors()[first]
        self.slopes = self.fields[:, heads] - self.fields[:, tails]
        parts = np.linalg.lstsq(self.metrics.reshape(len(self.metrics), -1).T, gram.ravel(), rcond=None)[0]
        self.state = np.concatenate([np.zeros(len(self.fields)), parts])

    def shape(self, state: np.ndarray) -> tuple[np.ndarray, np.ndarray]:
        """The vectors of one edge of each orbit, and the metric."""
        count = len(self.fields)
        return (self.vectors + np.tensordot(state[:count], self.slopes, 1),
                np.tensordot(state[count:], self.metrics, 1))

    def value(self, state: np.ndarray, share: float) -> float:
        vectors, gram = self.shape(state)
        if np.linalg.eigvalsh(gram).min() <= 0:
            return float("inf")
        over = np.einsum("ei,ij,ej->e", vectors, gram, vectors) - 1
        return float(self.sizes @ over**2 - share / 2 * np.linalg.slogdet(gram)[1])

    def _derivatives(self, share: float) -> tuple[np.ndarray, np.ndarray]:
        """The first and second derivatives."""
        count = len(self.fields)
        vectors, gram = self.shape(self.state)
        over = self.sizes * (np.einsum("ei,ij,ej->e", vectors, gram, vectors) - 1)
        turned = self.slopes @ gram
        by_state = np.vstack([2 * np.einsum("kei,ei->ke", turned, vectors),
                              np.einsum("ei,jil,el->je", vectors, self.metrics, vectors)])
        inner = np.linalg.inv(gram) @ self.metrics
        slope = 2 * by_state @ over
        slope[count:] -= share / 2 * np.trace(inner, axis1=1, axis2=2)
        bend = 2 * (by_state * self.sizes) @ by_state.T
        bend[:count, :count] += 4 * np.einsum("e,kei,mei->km", over, turned, self.slopes)
        mixed = 4 * np.einsum("e,kei,jil,el->kj", over, self.slopes, self.metrics, vectors)
        bend[:count, count:] += mixed
        bend[count:, :count] += mixed.T
        bend[count:, count:] += share / 2 * np.einsum("jab,kba->jk", inner, inner)
        return slope, bend

    def descend(self, share: float) -> None:
        """Newton's method, with steps that are made shorter as long as they lead up."""
        now = self.value(self.state, share)
        for _ in range(MOST_STEPS):
            slope, bend = self._derivatives(share)
            heights, axes = np.linalg.eigh(bend)
            step = -axes @ ((axes.T @ slope) / (np.abs(heights) + ROUNDING * np.abs(heights).max()))
            while (then := self.value(self.state + step, share)) > now and np.abs(step).max() > STILL:
                step = step / 2
            if not then < now:
                break
            self.state, now = self.state + step, then


def kept_displacements(net: Placed, found: list[Symmetry]) -> np.ndarray:
    """A basis of the displacements of the vertices that all symmetries keep."""
    count, d = net.places.shape
    moved = []
    for vertex in sorted(set(vertex_orbits(found))):
        for axis in np.eye(d):
            field = np.zeros((count, d))
            for symmetry in found:
                field[symmetry.to[vertex]] += axis @ symmetry.turn
            moved.append(field)
    return _independent(np.array(moved))


def kept_metrics(found: list[Symmetry]) -> np.ndarray:
    """A basis of the metrics that all symmetries keep."""
    d = len(found[0].turn)
    units = [np.eye(d)[[i]].T @ np.eye(d)[[j]] for i in range(d) for j in range(i, d)]
    kept = [sum(symmetry.turn @ (unit + unit.T) @ symmetry.turn.T for symmetry in found) for unit in units]
    return _independent(np.array(kept))


def _independent(rows: np.ndarray) -> np.ndarray:
    """An orthonormal basis of what arrays span."""
    flat = rows.reshape(len(rows), -1)
    _, sizes, basis = np.linalg.svd(flat, full_matrices=False)
    chosen: np.ndarray = basis[sizes > EQUAL * max(1.0, float(sizes.max(initial=0.0)))].reshape(-1, *rows.shape[1:])
    return chosen


def _best_found(net: Placed, found: list[Symmetry]) -> Relaxed:
    """Edges as equal as the path of compromises makes them."""
    compromise = Compromise(net, standard_gram(net), found)
    for share in VOLUME_SHARES:
        compromise.descend(share)
    moved = np.tensordot(compromise.state[:len(compromise.fields)], compromise.fields, 1)
    _, gram = compromise.shape(compromise.state)
    return Relaxed(*_symmetric(Placed(net.places + moved, net.edges), gram, net, found), Certainty.BEST_FOUND)


def _is_flat(shape: Relaxed, net: Placed, found: list[Symmetry]) -> bool:
    """Whether edges or the cell have nearly gone, or vertices have come together."""
    from .measures import shortest_distance  # which stands on shapes
    lengths = _lengths(shape.net, shape.gram)
    volumes = [float(np.sqrt(max(np.linalg.det(gram), 0))) for gram in (shape.gram, standard_gram(net))]
    return (lengths.min() < SHORT_EDGE or volumes[0] < FLAT * volumes[1]
            or shortest_distance(shape.net, shape.gram, found) < NEAR_VERTEX)
