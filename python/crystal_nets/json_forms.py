"""Nets and answers as dicts of what JSON has, and back."""

from __future__ import annotations

from typing import TYPE_CHECKING, Any

from .errors import NotANet
from .net import Net
from .outcome import Outcome, Value
from .provenance import Provenance

if TYPE_CHECKING:
    from .answers import Answer, Naming


def with_class(value: Net | Answer, fields: dict[str, Any]) -> dict[str, Any]:
    """The fields with the words by which monty and pymatgen know whose `from_dict` takes them."""
    from . import __version__
    return {"@module": "crystal_nets", "@class": type(value).__name__, "@version": __version__, **fields}


def fields_of_net(net: Net) -> dict[str, Any]:
    return {"name": net.name, "block": _text(net.block), "refusal": net.refusal, "copies": net.copies,
            "provenance": net.provenance.to_dict()}


def net_of_fields(fields: Any) -> Net:
    """The net. NotANet where these are not its fields."""
    try:
        provenance = Provenance.from_dict(fields["provenance"])
        name, block, refusal = (str(fields[word]) for word in ("name", "block", "refusal"))
    except (KeyError, TypeError, ValueError, AttributeError) as fault:
        raise NotANet(f"these are no fields of a net: {type(fault).__name__} {fault}") from None
    net = Net.refused(refusal, name) if refusal else Net.from_block(block.encode(errors="surrogateescape"), name)
    return net.of_provenance(provenance)


def fields_of_answer(answer: Answer) -> dict[str, Any]:
    outcome = answer.outcome
    return {"net": fields_of_net(answer.net), "symbol": answer.symbol, "names": list(answer.names), "rcsr": answer.rcsr,
            "by": str(answer.by), "naming": _fields_of_naming(answer.naming),
            "outcome": {"kind": outcome.kind, "number": outcome.number, "name": outcome.name,
                        "values": {word: list(value) if isinstance(value, tuple) else value
                                   for word, value in outcome.values.items()}, "text": outcome.text},
            "key": answer.key, "dimension": answer.dimension, "vertices": answer.vertices, "edges": answer.edges,
            "classes": answer.classes, "D0": answer.denominator, "copies": answer.copies,
            "interpenetration": answer.net.provenance.to_dict()["interpenetration"],
            "sequences": [list(row) for row in answer.sequences], "notes": list(answer.notes),
            "report": _text(answer.text)}


def answer_of_fields(fields: Any) -> Answer:
    """The answer. NotANet where these are not its fields."""
    from .answers import NOTHING_FOUND, Answer
    try:
        outcome = fields["outcome"]
        values: dict[str, Value] = {str(word): tuple(map(int, value)) if isinstance(value, list) else value
                                    for word, value in outcome["values"].items()}
        became = Outcome(str(outcome["kind"]), int(outcome["number"]), str(outcome["name"]), values, str(outcome["text"]))
        dimension, vertices, edges = (int(fields[word]) for word in ("dimension", "vertices", "edges"))
        names, notes = (tuple(map(str, fields[word])) for word in ("names", "notes"))
        naming = _naming_of_fields(fields["naming"]) if fields.get("naming") else NOTHING_FOUND
        return Answer(net_of_fields(fields["net"]), became, str(fields["key"]), names, dimension, vertices, edges, notes,
                      str(fields["report"]).encode(errors="surrogateescape"), naming)
    except NotANet:
        raise
    except (KeyError, TypeError, ValueError, AttributeError) as fault:
        raise NotANet(f"these are no fields of an answer: {type(fault).__name__} {fault}") from None


def _fields_of_naming(naming: Naming) -> dict[str, Any] | None:
    """What was found of a net without a key; None where nothing was looked for."""
    from .answers import NOTHING_FOUND
    if naming == NOTHING_FOUND:
        return None
    return {"names": list(naming.names), "by": str(naming.by), "certificate": naming.certificate, "index": naming.index,
            "small": fields_of_answer(naming.small) if naming.small else None, "note": naming.note}


def _naming_of_fields(fields: Any) -> Naming:
    from .answers import By, Naming
    small = answer_of_fields(fields["small"]) if fields["small"] else None
    return Naming(tuple(map(str, fields["names"])), By(fields["by"]), str(fields["certificate"]), str(fields["index"]), small,
                  str(fields["note"]))


def _text(content: bytes) -> str:
    return content.decode(errors="surrogateescape")
