"""Embeddings that are given away: each is written, read back, and compared with its net by the key."""

from __future__ import annotations

from collections.abc import Sequence
from typing import TYPE_CHECKING

from ..errors import PackageMissing, lacking

if TYPE_CHECKING:
    from ..answers import Answer

    from .embedding import Embedding, Kind

OTHER_NET = "what is written would be another net"
PACKAGES = "apt-get install python3-numpy python3-spglib"


def keys_of_blocks(blocks: Sequence[str]) -> list[str]:
    """The keys of the nets that blocks CRYSTAL give; empty for one that gives none, or a net without a key."""
    from ..asking import keys
    from ..errors import NotANet
    from ..reading import read

    nets, places = [], []
    for place, block in enumerate(blocks):
        try:
            net, = read(block.encode())
        except (NotANet, ValueError):
            continue
        nets.append(net)
        places.append(place)
    found = [""] * len(blocks)
    for place, answer in zip(places, keys(nets, maps=False) if nets else ()):
        found[place] = answer.key
    return found


def embedding_on(answer: Answer, kind: Kind) -> Embedding | None:
    """The embedding of the net of an answer, in its smaller cell if it has a key in that alone; None if it has no key, or no
    embedding is found that is read back as the net."""
    key = answer.key or (answer.small.key if answer.small else "")
    if not key:
        return None
    try:
        from .embedding import embedding_of_key
        from .placed import NotPlaced
        from .settings import NoEmbedding
        from ..texts.net_text import NoReport
        try:
            embedding = embedding_of_key(key, kind)
        except (NoEmbedding, NotPlaced, NoReport):
            return None
    except ModuleNotFoundError as missing:
        raise PackageMissing(f"embeddings: {lacking(missing, PACKAGES)}") from missing
    return embedding if keys_of_blocks([embedding.to_cgd()]) == [key] else None
