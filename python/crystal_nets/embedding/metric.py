"""The shape of the primitive cell, and short bases of its lattice."""

from __future__ import annotations

from itertools import product

import numpy as np

from .placed import Placed


def standard_gram(net: Placed) -> np.ndarray:
    """The products of the basis vectors in the standard realization (Kotani and Sunada): in it
    the sum of v times v transposed, over the vectors v of all edges, is a multiple of 1. The
    mean length of the edges is 1."""
    vectors = net.vectors()
    gram = np.linalg.inv(vectors.T @ vectors)
    lengths = np.sqrt(np.einsum("ij,jk,ik->i", vectors, gram, vectors))
    return gram / lengths.mean() ** 2


def short_basis(gram: np.ndarray) -> np.ndarray:
    """Rows of whole numbers, a basis of the same lattice: none can be made shorter by adding the
    others once. That is enough for at most three dimensions."""
    rows = np.eye(len(gram), dtype=int)
    while True:
        for i in range(len(rows)):
            shorter = _shortest(rows, i, gram)
            if (shorter != rows[i]).any():
                rows[i] = shorter
                break
        else:
            return rows


def _shortest(rows: np.ndarray, i: int, gram: np.ndarray) -> np.ndarray:
    others = np.delete(rows, i, axis=0)
    best = rows[i].copy()
    for factors in product((-1, 0, 1), repeat=len(others)):
        trial = rows[i] + np.array(factors) @ others
        if trial @ gram @ trial < best @ gram @ best - 1e-9:
            best = trial
    return best
