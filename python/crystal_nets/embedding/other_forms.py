"""An embedding as atoms of ase, as a structure of pymatgen, and as JSON has it."""

from __future__ import annotations

from typing import TYPE_CHECKING, Any

import numpy as np

from ..errors import PackageMissing

if TYPE_CHECKING:
    import ase
    from pymatgen.core import Structure

    from .embedding import Embedding

LAYER_HEIGHT = 10.0  # angstrom, from a layer to the next


def _in_space(embedding: Embedding, edge: float) -> tuple[np.ndarray, np.ndarray]:
    """Cell and places in three dimensions, in angstrom and in fractions."""
    cell, places = embedding.cell * edge, embedding.positions
    if embedding.dimension == 2:
        cell = np.block([[cell, np.zeros((2, 1))], [np.zeros((1, 2)), np.array([[LAYER_HEIGHT]])]])
        places = np.hstack([places, np.zeros((len(places), 1))])
    return cell, places


def ase_of(embedding: Embedding, edge: float) -> ase.Atoms:
    try:
        import ase
    except ImportError:
        raise PackageMissing("ase is not there; apt-get install python3-ase") from None
    cell, places = _in_space(embedding, edge)
    periodic = [True, True, embedding.dimension == 3]
    return ase.Atoms(["C"] * len(places), scaled_positions=places, cell=cell, pbc=periodic)


def pymatgen_of(embedding: Embedding, edge: float) -> Structure:
    try:
        from pymatgen.core import Lattice, Structure
    except ImportError:
        raise PackageMissing("pymatgen is not there; apt-get install python3-pymatgen") from None
    cell, places = _in_space(embedding, edge)
    return Structure(Lattice(cell), ["C"] * len(places), places.tolist())


def fields_of(embedding: Embedding) -> dict[str, Any]:
    lengths, angles = embedding.parameters()
    measures = embedding.measures
    return {
        "kind": embedding.kind, "certainty": str(embedding.certainty), "group": embedding.group,
        "number": embedding.setting.number, "lengths": lengths.tolist(), "angles": angles.tolist(),
        "nodes": [{"label": site.label, "place": site.place.tolist(), "degree": site.degree,
                   "multiplicity": site.multiplicity} for site in embedding.sites],
        "edges": [{"from": joint.site.place.tolist(), "to": joint.end.tolist(), "length": embedding.length(joint)}
                  for joint in embedding.joints],
        "edge_lengths": vars(measures.edges), "edge_angles": vars(measures.angles),
        "shortest_distance": measures.shortest_distance, "density": measures.density, "genus": measures.genus,
        "degrees_of_freedom": measures.degrees_of_freedom}
