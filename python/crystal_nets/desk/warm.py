"""What all workers share: modules and archives. The server of forks imports this once, before any worker is forked."""

from __future__ import annotations

import contextlib
import importlib

from ..errors import CrystalNetsError
from . import questions  # noqa: F401
from .archives import shelves

for name in ("pictures.page", "pictures.svg", "pictures.view", "structures.conversion", "structures.reading.given",
             "blocks.converter", "blocks.expansion", "blocks.symbolic"):
    with contextlib.suppress(ImportError):  # a worker that needs it says which package is missing
        importlib.import_module(f"..{name}", __package__)
with contextlib.suppress(CrystalNetsError, OSError):
    shelves()
