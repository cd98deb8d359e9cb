"""Why there is no key, in a chemist's words, and what to do. The values are those of the program's answer."""

from __future__ import annotations

from dataclasses import asdict, dataclass

from ..outcome import Outcome

# what the options of net_tool convert are called on the page
CHOICES = {"--accept-misfit takes it all the same": "tick “atoms that do not fit the formula” and read it again",
           "--partial-as-full takes them as full": "tick “partly occupied atoms as full” and read it again"}
MISSING_BONDS = "If it should be one net, bonds are missing: look at the notes, and at the convention."


@dataclass(frozen=True)
class Reason:
    """What is so, and what to do; `told` is the line of the program."""

    what: str
    advice: str = ""
    told: str = ""


REFUSALS = {
    1: ("The structure falls into pieces that are not joined: several interpenetrating nets, or bonds that are missing.",
        "Its parts stand below, each with its own name. " + MISSING_BONDS),
    2: ("The structure reaches in fewer directions than its cell: it is made of layers or chains.",
        "Layers in space are read as layers from a structure file. " + MISSING_BONDS),
    4: ("The places of its vertices are fractions too fine to be reported: their common denominator, or a distance in its "
        "units, is past 2^40, as in the zeolites BEA, STT and TUN.",
        "There is no key in this cell. A name is looked for all the same: on a smaller cell, and by a map that the program "
        "verifies."),
    5: ("Two vertices come to stand in one place when each is put at the mean of its neighbours.",
        "Such a net has a placement and no key. Look whether the two should be one vertex, as the two sides of a layer that "
        "have the same neighbours, or a bond is missing. In Python crystal_nets.without_twins makes such sides one."),
    6: ("It has so many ways to be laid out that to compare them all would pass a work of 1,000,000,000.",
        "Read it by another convention, with fewer vertices."),
    7: ("Its placement could not be computed: modulo each of three fixed numbers a sum has no inverse.",
        "No net that we know does so: please tell us of it."),
    8: ("Its cell has more than 512 vertices.", "Reduce it to a smaller cell first, or read it by another convention."),
    9: ("Its cell has more than 4,096 edges.", "Reduce it to a smaller cell first, or read it by another convention.")}
FAULTS = {
    1: "a word stands where none may stand", 2: "a row has neither four nor five parts",
    3: "rows have shifts of several lengths", 4: "a line begins with a word that is not known", 5: "there are no edges",
    6: "an edge joins a vertex to itself in one cell", 7: "a shift is past 500", 8: REFUSALS[8][0][:-1],
    9: REFUSALS[9][0][:-1], 10: "a name is longer than 200 bytes", 11: "it does not end with END", 12: "it has two names"}


def reason_of(outcome: Outcome) -> dict[str, str]:
    """The reason of an outcome that is not `accepted`."""
    return asdict(_reason(outcome))


def unread(text: str) -> dict[str, str]:
    """The reason why a file or a block gave no net."""
    advice = [choice for option, choice in CHOICES.items() if option in text]
    for option in CHOICES:
        text = text.replace(f" ({option})", "")
    return asdict(Reason(f"No net was read: {text}.", f"To read it nonetheless, {advice[0]}." if advice else ""))


def _reason(outcome: Outcome) -> Reason:
    values = outcome.values
    if outcome.kind == "refused" and outcome.number in REFUSALS:
        what, advice = REFUSALS[outcome.number]
        if outcome.number == 5:
            what += f" They are {values.get('u')} and {values.get('v')} of the cell {_cell(values.get('t'))}."
        return Reason(what, advice, outcome.text)
    if outcome.kind == "malformed":
        fault = FAULTS.get(outcome.number, outcome.name)
        line = f" in line {values['line']} of the block" if "line" in values else ""
        if outcome.number in (8, 9):
            return Reason(*REFUSALS[outcome.number], outcome.text)
        return Reason(f"The block has not the form of a net: {fault}{line}.", "Mend the line, and read it again.",
                      outcome.text)
    if outcome.kind == "unsupported":
        return Reason("The block is of a kind that is not read.", "Give a block PERIODIC_GRAPH, CRYSTAL or NET.",
                      outcome.text)
    return Reason(f"There is no key: {outcome.text}.")


def _cell(shift: object) -> str:
    return "(" + ", ".join(map(str, shift)) + ")" if isinstance(shift, tuple) else str(shift)
