"""The places of the atoms: images of sites, and what stands in one place."""

from __future__ import annotations

from collections.abc import Iterator

import numpy as np
from scipy.spatial import cKDTree

from .crystal import FULL, Atom, Crystal, Site
from ...provenance import OTHER, Note, shorten
from ..reading.symmetry import Symmetry

SAME_PLACE = 0.1  # angstrom: images nearer than this are one atom on a symmetry element
ONE_PLACE = 0.3   # angstrom: atoms of several sites nearer than this are in one place
REPEATED = 0.05   # angstrom: an atom that is listed twice is so near itself, by the rounding of its numbers
LONGEST_LABEL = 150
NOT_IN_NAMES = str.maketrans({mark: "_" for mark in ['"', "\x7f", *map(chr, range(33))]})


def images_of(sites: list[Site], symmetry: Symmetry, cell: np.ndarray) -> Iterator[list[Atom]]:
    """Of each site its images in one primitive cell, those in one place taken once. The rows of the
    cell are its edges, in angstrom."""
    listed = np.array([site.place for site in sites])
    moved = np.einsum("oij,sj->soi", symmetry.rotations, listed) + symmetry.translations
    fractions = moved @ np.linalg.inv(symmetry.lattice)
    fractions -= np.floor(fractions + 1e-6)
    places = fractions @ cell
    counts = np.count_nonzero(_are_near(fractions - fractions[:, :1], cell), axis=1)
    for k, site in enumerate(sites):
        yield [Atom(site, places[k, images[0]], site.label, {site.element: site.occupancy}, images)
               for images in _in_one_place(fractions[k], cell, counts[k])]


def _in_one_place(fractions: np.ndarray, cell: np.ndarray, count: int) -> list[tuple[int, ...]]:
    """The images of a site by their places; so many are in the place of the first, as in each other."""
    if count == 1:
        return [(k,) for k in range(len(fractions))]
    first = _are_near(fractions[:, None, :] - fractions[None, :, :], cell).argmax(axis=1)
    groups: dict[int, list[int]] = {}
    for k, head in enumerate(first.tolist()):
        groups.setdefault(head, []).append(k)
    return [tuple(group) for group in groups.values()]


def _are_near(steps: np.ndarray, cell: np.ndarray) -> np.ndarray:
    """Whether steps in fractions of the cell, up to its translations, are so short that two places are one."""
    steps = (steps - np.rint(steps)) @ cell
    return np.einsum("...k,...k->...", steps, steps) < SAME_PLACE ** 2


def take_once(crystal: Crystal) -> None:
    """Atoms of several sites in one place made one: repeats, and mixed occupancy."""
    fractions = np.array([a.place for a in crystal.atoms]) @ np.linalg.inv(crystal.cell)
    kept = dict(enumerate(crystal.atoms))
    told = set()
    shared: set[str] = set()
    for group in _groups_in_one_place(fractions, crystal.cell):
        atoms = sorted((kept.pop(i) for i in group), key=lambda a: -a.occupancy)
        labels = " ".join(dict.fromkeys(a.site.label for a in atoms))
        told.add(labels)
        full = {a.site.element for a in atoms if a.occupancy >= FULL}
        if full == {"C", "N"}:
            shared.add(labels)
        elif len(full) > 1:
            crystal.clash = labels
        else:
            crystal.doubled = crystal.doubled or _doubled(atoms, crystal.cell)
        atoms[0].content = {"C": 0.5, "N": 0.5} if full == {"C", "N"} else _shared_content(atoms)
        kept[group[0]] = atoms[0]
    crystal.atoms = [kept[i] for i in sorted(kept)]
    if shared:
        crystal.noted_doubt("C and N in one place without occupancies, taken as one site: " + "; ".join(sorted(shared)))
    if told:
        crystal.notes.append(Note(OTHER, "in one place, taken as one atom: " + shorten("; ".join(sorted(told)))))


def _doubled(atoms: list[Atom], cell: np.ndarray) -> str:
    """What is told of two full atoms of several sites that are in one place and no repeats of each other, as by operations of
    another setting."""
    full = [atom for atom in atoms if atom.occupancy >= FULL]
    steps = np.array([atom.place - full[0].place for atom in full]) @ np.linalg.inv(cell) if full else np.zeros((0, 3))
    lengths = np.linalg.norm((steps - np.rint(steps)) @ cell, axis=1)
    return next((f"{full[0].site.label} and {atom.site.label}, both full, are {length:.2f} angstrom apart"
                 for atom, length in zip(full, lengths) if atom.site is not full[0].site and length > REPEATED), "")


def _shared_content(atoms: list[Atom]) -> dict[str, float]:
    """The contents added, as far as the place has room for them: a repeat adds nothing."""
    content: dict[str, float] = {}
    for atom in atoms:
        for element, part in atom.content.items():
            part = min(part, 1.0 - sum(content.values()))
            if part > 0.001:
                content[element] = content.get(element, 0.0) + part
    return content


def _groups_in_one_place(fractions: np.ndarray, cell: np.ndarray) -> list[list[int]]:
    """Several atoms in one place: those within ONE_PLACE of the first of a group are in it."""
    wrapped = fractions - np.floor(fractions)
    wrapped[wrapped >= 1.0] = 0.0
    heights = 1.0 / np.linalg.norm(np.linalg.inv(cell), axis=0)
    pairs = cKDTree(wrapped, boxsize=1.0).query_pairs(ONE_PLACE / heights.min(), output_type="ndarray")
    steps = wrapped[pairs[:, 0]] - wrapped[pairs[:, 1]]
    is_close = np.linalg.norm((steps - np.round(steps)) @ cell, axis=1) < ONE_PLACE
    groups: dict[int, list[int]] = {}
    done: set[int] = set()
    for first, other in sorted(pairs[is_close].tolist()):
        if first not in done and other not in done:
            groups.setdefault(first, [first]).append(other)
            done.add(other)
    return list(groups.values())


def name_apart(crystal: Crystal) -> None:
    """Each atom named by its label; the second and further of one label with a number."""
    seen: dict[str, int] = {}
    labels = {atom.site.label for atom in crystal.atoms}
    plain = {label: label.translate(NOT_IN_NAMES)[:LONGEST_LABEL] for label in labels}
    for atom in crystal.atoms:
        atom.name = _free_name(plain[atom.site.label] or atom.site.element, seen, labels)
        seen[atom.name] = 1


def _free_name(label: str, seen: dict[str, int], labels: set[str]) -> str:
    """The label, or the label with the next number that makes a name of no other atom and no other label. `seen` has of
    each name the last number that was tried behind it."""
    name = label
    while name in seen or (name != label and name in labels):
        seen[label] += 1
        name = f"{label}_{seen[label]}"
    return name
