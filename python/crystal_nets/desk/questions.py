"""What the page asks. Each answer is JSON; where there is none, it has a reason."""

from __future__ import annotations

import json
from typing import Any

from ..asking import identify
from ..embedding.reading_back import embedding_on
from ..errors import NotANet, PackageMissing
from ..net import Net
from ..pictures.text import printable
from ..provenance import Provenance
from ..texts.net_text import MOST_BYTES as MOST_OF_A_BLOCK
from .archives import told_shelves
from .files import Unread, fitting, nets_of_file
from .rows import rows_of
from .zips import unzip as files_of_zip

PICTURE_PACKAGES = "apt-get install python3-numpy"
AT_ONCE = 24  # nets of a file that are answered with it


def archives() -> list[dict]:
    """The archives that names are from."""
    return told_shelves()


def nets(name: str, content: bytes, options: dict[str, Any]) -> dict[str, Any]:
    """The nets of a file: of the first AT_ONCE what the table tells of them, and of the others what `rows` asks for."""
    found = nets_of_file(name, content, options)
    first = [_read(net) for net in found.nets[:AT_ONCE]]
    return {"total": found.total, "isStructure": found.is_structure, "rows": [*map(_with_net, first, rows_of(first))],
            "waiting": list(map(_waiting, found.nets[AT_ONCE:]))}


def unzip(content: bytes) -> dict[str, Any]:
    """The files of a ZIP archive."""
    return files_of_zip(content)


def rows(waiting: list[dict[str, Any]]) -> list[dict[str, Any]]:
    """What the table tells of nets that waited."""
    some = list(map(_net_that_waited, waiting))
    return [*map(_with_net, some, rows_of(some))]


def _net_that_waited(item: dict[str, Any]) -> Net:
    if "text" in item:
        return Unread(item["line"], item["text"].encode("latin-1", "replace")).net()
    try:
        return net_of_form(item)
    except NotANet as reason:
        return Net.refused(str(reason), item["name"])


def net_of_form(fields: dict[str, Any]) -> Net:
    """The net that the page was told of."""
    name, refusal = str(fields["name"]), str(fields["refusal"])
    net = Net.refused(refusal, name) if refusal else Net.from_block(str(fields["block"]).encode(errors="replace"), name)
    return net.of_provenance(Provenance.from_dict(fields["provenance"]))


def _read(net: Net | Unread) -> Net:
    return net.net() if isinstance(net, Unread) else net


def _waiting(net: Net | Unread) -> dict[str, Any]:
    if isinstance(net, Unread) and len(net.text) <= MOST_OF_A_BLOCK:
        return {"line": net.line, "text": net.text.decode("latin-1")}
    return _fields_of(_read(net))


def _with_net(net: Net, row: dict[str, Any]) -> dict[str, Any]:
    return {**row, **_fields_of(net)}


def _fields_of(net: Net) -> dict[str, Any]:
    """A net as the page keeps it, and sends it with each question on it."""
    return {"name": printable(net.name), "refusal": plain(net.refusal), "block": plain(net.block.decode(errors="surrogateescape")),
            "provenance": json.loads(plain(json.dumps(net.provenance.to_dict(), ensure_ascii=False)))}


def card(fields: dict[str, Any]) -> dict[str, Any]:
    """All of one net."""
    try:
        from . import cards
    except ModuleNotFoundError as missing:
        raise PackageMissing(f"pictures: {missing}; {PICTURE_PACKAGES}") from missing
    return cards.card(net_of_form(fields))


def topology(fields: dict[str, Any]) -> dict[str, Any]:
    """What databases list of one net."""
    from .listed import listed
    return listed(net_of_form(fields))


def atoms(name: str, content: bytes, options: dict[str, Any], block: bytes) -> dict[str, Any]:
    """The atoms of a structure file with one of its nets, which has this block, laid over them."""
    from .atoms import atoms as atoms_of_net
    return atoms_of_net(name, content, fitting(options), block)


def pair(one: bytes, other: bytes) -> dict[str, Any]:
    """Two nets side by side."""
    from .pairs import pair as pair_of_nets
    return pair_of_nets(Net.from_block(one), Net.from_block(other))


def crystal(block: bytes, name: str, kind: str = "") -> dict[str, str]:
    """The net as CIF and as a block CRYSTAL: the standard realization, or relaxed."""
    answer = identify(Net.from_block(block), archive=None, maps=False)
    if not answer.key:
        return {"reason": "it has no key, and so no crystal"}
    embedding = embedding_on(answer, "relaxed" if kind == "relaxed" else "barycentric")
    if embedding is None:
        return {"reason": "no crystal: no group is found that is that of the net"}
    return {"cif": embedding.to_cif(name), "cgd": embedding.to_cgd(name), "certainty": str(embedding.certainty)}


def plain(text: str) -> str:
    """A text without what UTF-8 has not."""
    return text.encode(errors="replace").decode()
