"""The JSON of a structure of pymatgen."""

from __future__ import annotations

import json
from collections.abc import Mapping
from typing import Any

from .errors import NotANet, PackageMissing, lacking


def is_structure(fields: Mapping[Any, Any]) -> bool:
    """Whether a dict is a structure, as pymatgen writes it, and not several sources by their names."""
    return "lattice" in fields and "sites" in fields


def structure_of_json(content: bytes) -> Any:
    """The pymatgen Structure of a JSON text. NotANet where it is none."""
    try:
        fields = json.loads(content)
    except (ValueError, RecursionError) as fault:
        raise NotANet(f"no JSON: {fault}"[:300]) from None
    if not isinstance(fields, dict):
        raise NotANet("the JSON is no structure")
    return structure_of_fields(fields)


def structure_of_fields(fields: Mapping[str, Any]) -> Any:
    """The pymatgen Structure of the dict that its `as_dict` gave. NotANet where it is none."""
    try:
        from pymatgen.core import Structure
    except ModuleNotFoundError as missing:
        raise PackageMissing(f"a structure of pymatgen: {lacking(missing, 'apt-get install python3-pymatgen')}") from missing
    try:
        return Structure.from_dict(dict(fields))
    except MemoryError:
        raise
    except Exception as fault:  # of pymatgen, as with a site without an element
        raise NotANet(f"no structure of pymatgen: {type(fault).__name__} {fault}"[:300]) from None
