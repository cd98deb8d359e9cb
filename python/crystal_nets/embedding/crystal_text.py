"""An embedding as a block CRYSTAL, which Systre and net_tool convert read, and as a CIF."""

from __future__ import annotations

import numpy as np

from .embedding import Embedding, Joint
from .other_forms import LAYER_HEIGHT

UNPROVED = "computed in floating-point numbers; its group and coordinates are not proved"
EDGE = 1.54        # angstrom, the mean length of the edges in a CIF: that of bonds of carbon, so that viewers draw them
# of each plane group the space group whose third axis is upright to the layer
SPACE_GROUPS = {
    "p1": "P 1", "p2": "P 1 1 2", "pm": "P m 1 1", "pg": "P b 1 1", "cm": "C m 1 1", "p2mm": "P m m 2",
    "p2mg": "P m a 2", "p2gg": "P b a 2", "c2mm": "C m m 2", "p4": "P 4", "p4mm": "P 4 m m", "p4gm": "P 4 b m",
    "p3": "P 3", "p3m1": "P 3 m 1", "p31m": "P 3 1 m", "p6": "P 6", "p6mm": "P 6 m m"}


def told(embedding: Embedding) -> str:
    """What the shape is, and how sure."""
    kind = str(embedding.certainty) if embedding.kind == "barycentric" else f"relaxed: {embedding.certainty}"
    return f"the {kind}, {UNPROVED}" if embedding.kind == "barycentric" else f"{kind}, {UNPROVED}"


def numbers(values: np.ndarray) -> str:
    return " ".join(f"{value + 0.0:.5f}".replace("-0.00000", "0.00000") for value in values.tolist())


def plain(name: str) -> str:
    """A name as a block may have it in quotes."""
    return "".join("_" if c == '"' or not c.isprintable() else c for c in name)


def measured(embedding: Embedding) -> list[str]:
    """What Systre prints of an embedding, as comments."""
    measures = embedding.measures
    return [f"# edge lengths: {measures.edges}", f"# angles: {measures.angles}",
            f"# shortest non-bonded distance = {measures.shortest_distance:.5f}",
            f"# density = {measures.density:.5f}, genus = {measures.genus}, degrees of freedom = {measures.degrees_of_freedom}"]


def block_of(embedding: Embedding, name: str, has_edges: bool = True, has_centers: bool = False) -> str:
    """The block CRYSTAL; without edges, they are to be found by distance."""
    lengths, angles = embedding.parameters()
    lines = [f"# {told(embedding)}", *measured(embedding), "CRYSTAL", f'  NAME "{plain(name)}"', f"  GROUP {embedding.setting.name}",
             f"  CELL {numbers(lengths)}  {numbers(angles)}"]
    lines += [f"  NODE {site.label} {site.degree}  {numbers(site.place)}" for site in embedding.sites]
    for joint in embedding.joints:
        if has_edges:
            lines.append(f"  EDGE  {numbers(joint.site.place)}  {numbers(joint.end)}")
        if has_centers:
            lines.append(f"# EDGE_CENTER  {numbers((joint.site.place + joint.end) / 2)}")
    return "\n".join([*lines, "END", ""])


def cif_of(embedding: Embedding, name: str, stem: str) -> str:
    """The CIF, with carbon at each node and its edges as bonds; a layer stands at height 0."""
    lengths, angles = embedding.parameters()
    lengths, is_layer = lengths * EDGE, len(lengths) == 2
    if is_layer:
        lengths, angles = np.append(lengths, LAYER_HEIGHT), np.array([90, 90, *angles])
    setting = embedding.setting
    lines = [f"# {plain(name)}: {told(embedding)}", f"data_{stem}"]
    lines += [f"_cell_length_{axis} {value:.5f}" for axis, value in zip("abc", lengths)]
    lines += [f"_cell_angle_{angle} {value:.4f}" for angle, value in zip(("alpha", "beta", "gamma"), angles)]
    symbol = SPACE_GROUPS[setting.name] if is_layer else setting.name
    lines += [f"_space_group_name_H-M_alt '{symbol}'"]
    if not is_layer:
        lines += [f"_space_group_name_Hall '{setting.hall}'", f"_space_group_IT_number {setting.number}"]
    lines += ["loop_", "_space_group_symop_id", "_space_group_symop_operation_xyz"]
    lines += [f"{k} '{operation_text(turn, move)}'"
              for k, (turn, move) in enumerate(zip(setting.turns, setting.moves), start=1)]
    lines += ["loop_"] + [f"_atom_site_{part}" for part in ("label", "type_symbol", "fract_x", "fract_y", "fract_z")]
    lines += [f"{site.label} C {numbers(_in_three(site.place))}" for site in embedding.sites]
    lines += ["loop_"] + [f"_geom_bond_{part}" for part in (
        "atom_site_label_1", "atom_site_label_2", "distance", "site_symmetry_2")]
    lines += [_bond_row(embedding, joint) for joint in embedding.joints]
    return "\n".join([*lines, ""])


def _in_three(place: np.ndarray) -> np.ndarray:
    return np.append(place, 0.0) if len(place) == 2 else place


def _bond_row(embedding: Embedding, joint: Joint) -> str:
    """A bond with the symmetry code of its end: the operation, and the cell as digits around 5."""
    site, k, cell = embedding.operation_to(joint.end)
    digits = [5 + part for part in [*cell, 0][:3]]
    code = f"{k + 1}_{''.join(map(str, digits))}" if all(0 <= digit <= 9 for digit in digits) else "?"
    return f"{joint.site.label} {site.label} {embedding.length(joint) * EDGE:.4f} {code}"


def operation_text(turn: np.ndarray, move: np.ndarray) -> str:
    """An operation on rows as x,y,z and so on; that of a layer keeps z."""
    parts = []
    for column, shift in zip(np.rint(turn.T).astype(int).tolist(), np.rint(move * 24).astype(int).tolist()):
        text = "".join(("-" if factor < 0 else "+") + variable for factor, variable in zip(column, "xyz") if factor)
        part = np.gcd(shift, 24)
        text += f"{shift // part:+}/{24 // part}" if shift % 24 else ""
        parts.append(text.removeprefix("+"))
    return ",".join([*parts, "z"][:3])
