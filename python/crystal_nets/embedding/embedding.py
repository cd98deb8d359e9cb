"""An embedding of a net: its group in the usual setting, its cell, and nodes and edges up to the group.

The net is that of the key, so that isomorphic nets have one embedding. A net has no hand: of two groups that are mirror
images of each other the one with the lower number is taken. All is computed in floating-point numbers and not proved."""

from __future__ import annotations

from collections.abc import Iterator
from dataclasses import dataclass, field
from functools import cached_property
from typing import TYPE_CHECKING, Any, Literal, get_args

import numpy as np

from .certificate import certificate_of
from .listed import symmetries_of
from .measures import Measures, measures_of
from .metric import short_basis, standard_gram
from .placed import Placed, into_cell, placed_of_key
from .relaxing import Certainty, Relaxed, relaxed
from .settings import NEAR, SECOND_OF_PAIRS, NoEmbedding, Setting, gap_of, usual_cell
from .symmetry import Symmetry, edge_orbits, vertex_orbits

if TYPE_CHECKING:
    import ase
    from pymatgen.core import Structure

Kind = Literal["barycentric", "relaxed"]
KINDS: tuple[str, ...] = get_args(Kind)


@dataclass(frozen=True, eq=False)
class Site:
    """A node of an embedding: its place in fractions of the cell, its degree, and how many nodes of a primitive cell are in
    its orbit."""

    label: str
    place: np.ndarray
    degree: int
    multiplicity: int = 1


@dataclass(frozen=True, eq=False)
class Joint:
    """An edge of an embedding, one of its orbit: the site that it begins at, and the place that it ends at."""

    site: Site
    end: np.ndarray


@dataclass(frozen=True, eq=False)
class Embedding:
    """A net with a cell, positions and edges; its edges have the mean length 1.

    setting    the group, of space or of the plane, in its usual cell
    gram       the products of the vectors of that cell
    sites      one node of each orbit
    joints     one edge of each orbit
    kind       `barycentric`, each node at the mean of its neighbours in the standard realization (M. Kotani and T. Sunada,
               Trans. Amer. Math. Soc. 353 (2001) 1), or `relaxed`, with edges as equal as they can be
    certainty  how sure the shape is
    measures   lengths, angles, density and the like
    shape      the primitive graph with its places, the metric, and the weights of a certificate"""

    setting: Setting
    gram: np.ndarray
    sites: tuple[Site, ...]
    joints: tuple[Joint, ...]
    kind: str
    shape: Relaxed = field(repr=False)
    measures: Measures = field(repr=False)

    @property
    def dimension(self) -> int:
        return len(self.gram)

    @property
    def group(self) -> str:
        """The symbol of the space group or plane group, with its setting if it is not the first: `Fd-3m:2`."""
        return self.setting.name

    @property
    def certainty(self) -> Certainty:
        return self.shape.certainty

    @property
    def certificate(self) -> str:
        """A text by which `net_tool draw --check` finds in exact numbers that no embedding with edges up to 1 has a greater
        volume; empty if the shape is not certified."""
        return certificate_of(self.shape) if self.shape.weights is not None else ""

    @cached_property
    def cell(self) -> np.ndarray:
        """The vectors of the usual cell in rows: the first along x, the second in the plane of x and y."""
        rows: np.ndarray = np.linalg.cholesky(self.gram)
        return rows

    @property
    def volume(self) -> float:
        """Of the usual cell; of a layer its area."""
        return float(np.sqrt(np.linalg.det(self.gram)))

    def parameters(self) -> tuple[np.ndarray, np.ndarray]:
        """Lengths of the edges of the cell, and its angles in degrees: alpha, beta, gamma, or gamma."""
        lengths = np.sqrt(np.diag(self.gram))
        pairs = [(0, 1)] if len(lengths) == 2 else [(1, 2), (0, 2), (0, 1)]
        cosines = [self.gram[i, j] / lengths[i] / lengths[j] for i, j in pairs]
        return lengths, np.degrees(np.arccos(np.clip(cosines, -1, 1)))

    @cached_property
    def positions(self) -> np.ndarray:
        """All nodes of the usual cell, in fractions of it from 0 up to 1, those of a site together."""
        return np.vstack([self._nodes_of(site) for site in self.sites])

    @property
    def edges(self) -> Iterator[tuple[np.ndarray, np.ndarray]]:
        """All edges of the usual cell, each once, by the places of their ends; the first is in the cell."""
        for joint in self.joints:
            yield from self._edges_of(joint)

    def _nodes_of(self, site: Site) -> np.ndarray:
        images = into_cell(self.setting.images(site.place))
        gaps = np.abs(gap_of(images[:, None, :], images[None, :, :])).max(axis=2) < NEAR
        return images[[k for k in range(len(images)) if not gaps[k, :k].any()]]

    def _edges_of(self, joint: Joint) -> Iterator[tuple[np.ndarray, np.ndarray]]:
        """The images of an edge, each once."""
        images = self.setting.images(np.array([joint.site.place, joint.end]))
        images = images - (images[:, :1] - into_cell(images[:, :1]))
        back = images[:, ::-1]
        back = back - (back[:, :1] - into_cell(back[:, :1]))
        seen: list[np.ndarray] = []
        for image, other in zip(images, back):
            if not any(np.abs(one - image).max() < NEAR or np.abs(one - other).max() < NEAR for one in seen):
                seen.append(image)
                yield image[0], image[1]

    def length(self, joint: Joint) -> float:
        step = joint.end - joint.site.place
        return float(np.sqrt(step @ self.gram @ step))

    def operation_to(self, place: np.ndarray) -> tuple[Site, int, list[int]]:
        """The site, the number of an operation from 0 on, and the cell, whose image a place is."""
        for site in self.sites:
            gaps = place - self.setting.images(site.place)
            fits = np.abs(gaps - np.rint(gaps)).max(axis=1) < NEAR
            if fits.any():
                k = int(fits.argmax())
                return site, k, np.rint(gaps[k]).astype(int).tolist()
        raise NoEmbedding("an edge ends at no site")

    def to_cgd(self, name: str = "net") -> str:
        """The block CRYSTAL, which Systre and `net_tool convert` read."""
        from .crystal_text import block_of
        return block_of(self, name)

    def to_cif(self, name: str = "net") -> str:
        """A CIF with carbon at each node and edges of 1.54 angstrom on average; a layer stands at height 0."""
        from .crystal_text import cif_of
        return cif_of(self, name, "net")

    def to_ase(self, edge: float = 1.54) -> ase.Atoms:
        """The nodes of the usual cell as carbon atoms, with edges of so many angstrom on average."""
        from .other_forms import ase_of
        return ase_of(self, edge)

    def to_pymatgen(self, edge: float = 1.54) -> Structure:
        """The same as a `pymatgen` Structure."""
        from .other_forms import pymatgen_of
        return pymatgen_of(self, edge)

    def to_dict(self) -> dict[str, Any]:
        """All of it as JSON has it."""
        from .other_forms import fields_of
        return fields_of(self)

    def __repr__(self) -> str:
        lengths, _ = self.parameters()
        cell = ", ".join(f"{length:.4f}" for length in lengths)
        return f"<Embedding {self.group}: {self.kind}, {self.certainty}, cell {cell}>"


def embedding_of_key(key: str, kind: Kind = "barycentric") -> Embedding:
    """The embedding of the nets that have a key. NoEmbedding if no group is found that is that of the net; NotPlaced or
    NoReport if it is the key of no net."""
    return embedding_of(placed_of_key(key), kind)


def embedding_of(net: Placed, kind: Kind = "barycentric") -> Embedding:
    """The embedding of a placed net. NoEmbedding if no group is found that is that of the net."""
    if kind not in KINDS:
        raise ValueError(f"an embedding is {' or '.join(KINDS)}, not {kind!r}")
    net = net.in_basis(short_basis(standard_gram(net)))
    gram = standard_gram(net)
    found = symmetries_of(net, gram)
    usual = usual_cell(net, gram, found)
    if net.dimension == 3 and usual.setting.number in SECOND_OF_PAIRS:
        return embedding_of(net.mirrored(), kind)
    shape = relaxed(net, found) if kind == "relaxed" else Relaxed(net, gram, Certainty.STANDARD)
    to_cell = np.linalg.inv(usual.rows)
    places = shape.net.places @ to_cell - usual.origin
    sites = _sites(net, places, found, usual.setting)
    joints = _joints(shape.net, [site for _, site in sites], places, to_cell, usual.setting, found)
    return Embedding(usual.setting, usual.rows @ shape.gram @ usual.rows.T, tuple(dict(sites).values()), joints, kind, shape,
                     measures_of(shape.net, shape.gram, found))


def _sites(net: Placed, places: np.ndarray, found: list[Symmetry], setting: Setting) -> list[tuple[int, Site]]:
    """Of each vertex its orbit and the site of it."""
    orbits, degrees = vertex_orbits(found), net.degrees()
    sites: dict[int, Site] = {}
    for orbit in orbits:
        if orbit not in sites:
            images = into_cell(setting.images(places[orbit]))
            first = min(images.tolist(), key=lambda place: [round(part, 6) for part in place])
            sites[orbit] = Site(f"V{len(sites) + 1}", np.array(first), degrees[orbit], orbits.count(orbit))
    return [(orbit, sites[orbit]) for orbit in orbits]


def _joints(net: Placed, sites: list[Site], places: np.ndarray, to_cell: np.ndarray, setting: Setting,
            found: list[Symmetry]) -> tuple[Joint, ...]:
    """One edge of each orbit, so that it begins at a site."""
    joints = []
    for k in sorted(set(edge_orbits(net, found))):
        u, v, shift = net.edges[k]
        site = sites[u]
        images = setting.images(np.array([places[u], places[v] + np.array(shift) @ to_cell]))
        heads = [image[1] - np.rint(image[0] - site.place) for image in images
                 if np.abs(gap_of(image[0], site.place)).max() < NEAR]
        if not heads:
            raise NoEmbedding("an edge ends at no site")
        joints.append(Joint(site, min(heads, key=lambda end: ([round(abs(x - 0.5), 6) for x in end], end.tolist()))))
    return tuple(joints)
