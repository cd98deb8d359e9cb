"""Questions to the program: identify, keys, same, components, cover, group."""

from __future__ import annotations

import os
import re
from collections.abc import Callable, Iterable, Iterator, Mapping, Sequence
from dataclasses import replace
from enum import Enum
from functools import partial
from itertools import islice
from typing import Any, TypeVar, Unpack, overload

from .answers import Answer, Answers
from .archive import Archive
from .errors import NotANet, ProgramTimedOut
from .limits import bounded, in_time, within
from .net import Net
from .options import StructureOptions, check_options, processes_of
from .other_forms import is_structure
from .outcome import ACCEPTED, of_refusal, outcome_of, stopped
from .program import each_piece, reading_report, run
from .reading import one_net, read
from .sources import each_read, has_several
from .texts.net_text import GRAPH


class Default(Enum):
    """What stands for an argument that was not given."""

    ARCHIVES = "the archives beside the package, and those of the user"

    def __repr__(self) -> str:
        return f"<{self.value}>"


DEFAULT = Default.ARCHIVES
Archives = Archive | str | os.PathLike[str] | Iterable[Archive | str | os.PathLike[str]] | Default | None

Key = TypeVar("Key")
KINDS = ("refused", "malformed", "unsupported")  # of blocks without a key
KEYED = re.compile(rb'net \d+ line (\d+)(?: "[^"\n]*")?\n(?:graph d=([23]) vertices=(\d+) edges=(\d+) repeats=\d+\n)?'
                   rb'(key|refused|malformed|unsupported) ([^\n]+)\n')
PRIMITIVE = re.compile(rb"primitive vertices=(\d+) edges=(\d+)")
Ask = Callable[[list[Net]], list[Answer]]
HEAD = b"\nnet "  # begins the report on a net, and no other line: no name has a line feed


@bounded
def identify(source: Any, archive: Archives = DEFAULT, maps: bool = True, *, timeout: float | None = None,
             **options: Unpack[StructureOptions]) -> Answer:
    """Which net it is: placement, primitive graph, key, coordination sequences, and names in the archive.

    source   what `read` reads, with one net; NotANet is raised where it has several
    archive  an `Archive`, a path of an archive or a folder, several of these, or None; the archives beside the package
             where none is given
    maps     whether a net without a key is looked for all the same: on a smaller cell, and by verified maps
    timeout  seconds, after which ProgramTimedOut is raised, and the program and what is computed in Python are ended; without
             it there is no limit
    options  of structures, as `convention="single-nodes"`

    What is proved and what is not, `Answer` says.

    >>> pcu = Net([(1, 1, (1, 0, 0)), (1, 1, (0, 1, 0)), (1, 1, (0, 0, 1))], name="pcu")
    >>> doubled = [(1, 2, (0, 0, 0)), (2, 1, (1, 0, 0)), (1, 1, (0, 1, 0)), (2, 2, (0, 1, 0)), (1, 1, (0, 0, 1)),
    ...            (2, 2, (0, 0, 1))]
    >>> answer = identify(doubled, archive=Archive.of([pcu]))
    >>> answer.names, answer.placement[2], answer.primitive.vertices, answer.sequences[0][:3]
    (('pcu',), (Fraction(1, 2), Fraction(0, 1), Fraction(0, 1)), 1, (6, 18, 38))"""
    check_options(options)
    known = archive_of(archive)
    return in_time(lambda: _identified_one(source, known, maps, options))


def _identified_one(source: Any, archive: Archive | None, maps: bool, options: StructureOptions) -> Answer:
    nets = read(source, **options)
    if len(nets) != 1:
        raise NotANet(f"there are {len(nets)} nets; identify_all answers each of them" if nets else "there is no net")
    return _identified(nets, archive, 1, maps)[0]


@overload  # type: ignore[misc]  # no source but those of several is a dict
def identify_all(sources: Mapping[Key, Any], archive: Archives = DEFAULT, processes: int | None = 1, maps: bool = True, *,
                 timeout: float | None = None, **options: Unpack[StructureOptions]) -> dict[Key, Answers]: ...
@overload
def identify_all(sources: Any, archive: Archives = DEFAULT, processes: int | None = 1, maps: bool = True, *,
                 timeout: float | None = None, **options: Unpack[StructureOptions]) -> Answers: ...
@bounded
def identify_all(sources: Any, archive: Archives = DEFAULT, processes: int | None = 1, maps: bool = True, *,
                 timeout: float | None = None, **options: Unpack[StructureOptions]) -> Any:
    """The same of many nets: of a source that has several, as a file, or of an iterable of sources. A dict of sources is
    answered as a dict, with the answers of each source under its key.

    processes  that read structures, and of the program, side by side; as many as processors, if None
    timeout    seconds of the whole call, after which ProgramTimedOut is raised"""
    count = processes_of(processes)
    check_options(options)
    known = archive_of(archive)
    return _answered_in_time(sources, options, count, lambda nets: _identified(nets, known, count, maps))


@overload  # type: ignore[misc]
def keys(sources: Mapping[Key, Any], archive: Archives = None, processes: int | None = 1, maps: bool = True, *,
         timeout: float | None = None, **options: Unpack[StructureOptions]) -> dict[Key, Answers]: ...
@overload
def keys(sources: Any, archive: Archives = None, processes: int | None = 1, maps: bool = True, *,
         timeout: float | None = None, **options: Unpack[StructureOptions]) -> Answers: ...
@bounded
def keys(sources: Any, archive: Archives = None, processes: int | None = 1, maps: bool = True, *,
         timeout: float | None = None, **options: Unpack[StructureOptions]) -> Any:
    """The keys of many nets, and their names where an archive is given, without placement, primitive graph and
    sequences. It takes less time than `identify_all`. After `timeout` seconds ProgramTimedOut is raised.

    >>> sql = [(1, 1, (1, 0)), (1, 1, (0, 1))]
    >>> keys([Net(sql), Net([(1, 1, (1, 0))])])[0].key
    '2 1 1 1 1 0 1 1 1 1 0'"""
    count = processes_of(processes)
    check_options(options)
    known = archive_of(archive)
    return _answered_in_time(sources, options, count, lambda nets: _with_keys(nets, known, count, maps))


def _with_keys(nets: list[Net], archive: Archive | None, processes: int, maps: bool) -> Answers:
    given = [net for net in nets if not net.refusal]
    answers = (answer for piece in each_piece(_keyed, given, processes) for answer in piece)
    return Answers(list(_with_refusals(nets, answers, archive, _keyed if maps else None)))


def answered_in_time(ask: Callable[[list[Net]], Iterable[Answer]], nets: list[Net], seconds: float | None) -> list[Answer]:
    """The answers to nets. Where the seconds of an asking are over, each half is asked by itself, and a net alone is
    stopped."""
    try:
        with within(seconds):
            return in_time(lambda: list(ask(nets)))
    except ProgramTimedOut:
        if seconds is None:
            raise
        if len(nets) == 1:
            return [Answer(nets[0], stopped(seconds), notes=nets[0].notes)]
        half = len(nets) // 2
        return answered_in_time(ask, nets[:half], seconds) + answered_in_time(ask, nets[half:], seconds)


def held(sources: Any) -> Any:
    """The same sources; those that can be gone through once are taken here, and not in a process that is ended."""
    return list(sources) if isinstance(sources, Iterator) and has_several(sources) else sources


def _answered_in_time(sources: Any, options: StructureOptions, processes: int, answer: Callable[[list[Net]], Answers]) -> Any:
    return in_time(partial(_answered, held(sources), options, processes, answer))


def _answered(sources: Any, options: StructureOptions, processes: int, answer: Callable[[list[Net]], Answers]) -> Any:
    """The answers to all nets; of a dict of sources a dict."""
    if not isinstance(sources, Mapping):
        return answer(nets_of(sources, options, processes))
    by_source = _nets_by_source(sources, options, processes)
    answers = iter(answer([net for nets in by_source.values() for net in nets]))
    return {key: Answers(list(islice(answers, len(nets)))) for key, nets in by_source.items()}


def _nets_by_source(sources: Mapping[Key, Any], options: StructureOptions, processes: int) -> dict[Key, list[Net]]:
    check_options(options)
    if is_structure(sources):
        raise NotANet("this dict is one structure: identify answers it, or a list that has it")
    read_nets = each_read(sources.values(), options, processes)
    return {key: _of_source(nets, str(key)) for key, nets in zip(sources, read_nets)}


def _of_source(nets: list[Net], source: str) -> list[Net]:
    return [net.of_provenance(net.provenance.read_from(source=source)) for net in nets]


def archive_of(archive: Archives) -> Archive | None:
    """The archive that is meant."""
    if archive is None or isinstance(archive, Archive):
        return archive
    if isinstance(archive, Default):
        return Archive.default()
    given = [archive] if isinstance(archive, (str, os.PathLike)) else archive
    return Archive.joined(item if isinstance(item, Archive) else Archive.load(item) for item in given)


def nets_of(sources: Any, options: StructureOptions, processes: int = 1) -> list[Net]:
    """The nets of a source, or of each of several, which know their place among these; read in so many processes."""
    check_options(options)
    if isinstance(sources, Mapping) and not is_structure(sources):
        return [net for nets in _nets_by_source(sources, options, processes).values() for net in nets]
    if isinstance(sources, (list, tuple)) and all(isinstance(source, Net) for source in sources):
        return list(sources)
    if has_several(sources):
        return [net for place, nets in enumerate(each_read(sources, options, processes)) for net in _of_source(nets, str(place))]
    return read(sources, **options)


def _with_refusals(nets: Sequence[Net], answers: Iterator[Answer], archive: Archive | None,
                   ask: Ask | None) -> Iterator[Answer]:
    """The answers in the order of the nets, with names, and what stands for a net that could not be read. Where `ask` is
    given, names are looked for of nets without a key as well; it asks the program the same of other nets."""
    for net in nets:
        if net.refusal:
            yield Answer(net, of_refusal(net.refusal), notes=net.notes)
            continue
        answer = next(answers)
        if answer.accepted:
            names = archive.names(answer.key) if archive else ()
            yield replace(answer, names=names) if names else answer
        else:
            yield _named_by_search(answer, archive, ask) if ask else answer


def _named_by_search(answer: Answer, archive: Archive | None, ask: Ask) -> Answer:
    """An answer without a key, with what is found beside it."""
    from .wide.naming import is_asked, naming_of  # here, since few nets need it
    if not is_asked(answer.outcome):
        return answer

    def ask_one(net: Net) -> Answer:
        found, = ask([net])
        return replace(found, names=archive.names(found.key) if archive and found.key else ())

    naming = naming_of(answer, archive, ask_one)
    return replace(answer, names=naming.names, naming=naming)


def _identified(nets: list[Net], archive: Archive | None, processes: int, maps: bool) -> Answers:
    given = [net for net in nets if not net.refusal]
    answers = (answer for piece in each_piece(_identified_piece, given, processes) for answer in piece)
    return Answers(list(_with_refusals(nets, answers, archive, _identified_piece if maps else None)))


def _keyed(nets: list[Net]) -> list[Answer]:
    """The answers with keys alone: a header, the graph where there is one, and its key or a reason."""
    _, told = run("key", b"".join(net.block for net in nets), "-")
    with reading_report("key"):
        place, answers = 0, []
        for net in nets:
            found = KEYED.match(told, place)
            if found is None:
                raise ValueError(f"{told[place:place + 60]!r} begins no report on a net")
            place = found.end()
            answers.append(_answer_of(net, found, b""))
        if place < len(told):
            raise ValueError(f"{told[place:place + 60]!r} follows the last net")
        return answers


def _identified_piece(nets: list[Net]) -> list[Answer]:
    """The answers with all that is known. Of each net with a key the text is kept, and looked at for its end."""
    _, told = run("identify", b"".join(net.block for net in nets), "-")
    with reading_report("identify"):
        if nets and not told.endswith(b"\n"):
            raise ValueError(f"it is cut after {told[-60:]!r}")
        first, *parts = (b"\n" + told[:-1]).split(HEAD)
        if first:
            raise ValueError(f"it begins with {first[:60]!r}")
        return [_identified_net(net, part) for net, part in zip(nets, parts, strict=True)]


def _identified_net(net: Net, part: bytes) -> Answer:
    """The answer of the lines on a net, of which the first lacks its word `net`, and the last its line feed."""
    lines = part.split(b"\n")
    shown = lines if len(lines) < 4 else [*lines[:2], _key_of(lines)]
    found = KEYED.fullmatch(b"net " + b"\n".join(shown) + b"\n")
    if found is None or (found[5] == b"key" and len(lines) < 4):
        raise ValueError(f"{part[:120]!r} is no report on a net")
    return _answer_of(net, found, b"net 1 line 1" + part[part.index(b" line ") + len(b" line ") + len(found[1]):] + b"\n")


def _answer_of(net: Net, found: re.Match[bytes], text: bytes) -> Answer:
    line, dimension, vertices, edges, word, rest = found.groups()
    sizes = (int(dimension), int(vertices), int(edges)) if dimension else (0, 0, 0)
    if word == b"key":
        if not dimension:
            raise ValueError("there is a key without a graph")
        return Answer(net, ACCEPTED, rest.decode(), (), *sizes, net.notes, text)
    return Answer(net, outcome_of(word + b" " + rest, int(line) - 1), "", (), *sizes, net.notes, text)


def _key_of(lines: list[bytes]) -> bytes:
    """The line of the key in a report of `identify` that has as many lines as its numbers say. After the header, the
    graph and the denominator come the vertices, the primitive graph with its basis and edges, the key, a line for each
    class, and the names, of which there are none without an archive."""
    graph, primitive = GRAPH.fullmatch(lines[1].removeprefix(b"graph ")), None
    if graph and len(lines) > 3 + int(graph[2]):
        primitive = PRIMITIVE.fullmatch(lines[3 + int(graph[2])])
    if graph is None or primitive is None or not lines[2].startswith(b"placement D0="):
        raise ValueError(f"{lines[:3]!r:.120} begin no report on a net with a key")
    place = 4 + int(graph[2]) + int(graph[1]) + int(primitive[2])
    if len(lines) != place + 2 + int(primitive[1]) or lines[-1] != b"names 0":
        raise ValueError("it is cut, or has more lines than its numbers say")
    return lines[place]


def single(source: Any, options: StructureOptions) -> Net:
    """The one net of a source."""
    check_options(options)
    return one_net(read(source, **options))
