"""Sources for tests of executors: each is read as atoms are, in whatever process, and does something else first."""

from __future__ import annotations

import os
import signal
from pathlib import Path

from crystal_nets import Net


class Watched:
    """A source that notes in a file that it is read."""

    def __init__(self, log: str, name: str) -> None:
        self.log, self.name = log, name

    def is_directed(self) -> bool:
        """Which a graph of networkx has, for which it is taken."""
        with open(self.log, "a") as log:
            log.write(self.name + "\n")
        self.happens()
        return True

    def happens(self) -> None:
        pass

    @property
    def graph(self) -> dict[str, str]:
        return {"name": self.name}

    nodes = (1,)

    def edges(self, data: bool = True) -> list[tuple[int, int, dict[str, tuple[int, int]]]]:
        return [(1, 1, {"shift": (1, 0)}), (1, 1, {"shift": (0, 1)})]

    def degree(self, node: int) -> int:
        return 4


class Broken(Watched):
    """One that fails each time."""

    def happens(self) -> None:
        raise RuntimeError(f"{self.name} is broken")


class BrokenTwice(Watched):
    """One that fails when it is read the first two times."""

    def happens(self) -> None:
        if Path(self.log).read_text().splitlines().count(self.name) <= 2:
            raise RuntimeError(f"{self.name} is broken for a while")


class Deadly(Watched):
    """One that ends its process when it is read the first time."""

    def happens(self) -> None:
        if Path(self.log).read_text().splitlines().count(self.name) <= 1:
            os.kill(os.getpid(), signal.SIGKILL)


def squares(count: int, log: str, *others: Watched) -> list[object]:
    """So many sources that are read as such, and others among them, at every hundredth place."""
    sources: list[object] = [Watched(log, f"w{k}") for k in range(count)]
    for k, other in enumerate(others):
        sources[100 * k + 50] = other
    return sources


SQUARE = Net([(1, 1, (1, 0)), (1, 1, (0, 1))], name="square")
