"""The words of the command line, and what is reported while files are read."""

from __future__ import annotations

import argparse
import gc
import multiprocessing
import re
import signal
import sys
from collections import deque
from collections.abc import Iterable, Iterator
from concurrent.futures import Future, ProcessPoolExecutor
from concurrent.futures.process import BrokenProcessPool
from functools import partial
from itertools import islice
from typing import TYPE_CHECKING

from ..command_line import add_switches, called, parser_of, whole_number
from ..errors import NotAnOption
from ..files import telling_text
from ..options import CHOICES, SWITCHES, elements_of, lengths_of, told_idle, twice_given
from ..progress import Progress
from ..side_by_side import processors

if TYPE_CHECKING:  # for words alone, as --help, no package is loaded that reads structures
    from .conversion import Conversion, Source
    from .nets.choice import Options

DESCRIPTION = """The underlying nets of crystal structures, for net_tool: reads CIF files, and all of a folder,
and writes a block PERIODIC_GRAPH for each net to standard output. What a reader should know of
a net, and why a file gives none, goes to standard error."""
EPILOG = """exit status: 0 a net of each file was written; 1 of some file none was; 2 usage, or notes that
could not be written.
examples: net_tool convert examples/quartz.cif
          net_tool convert examples/quartz.cif | net_tool identify --archive archives/common.archive"""
DONE, SOME_REFUSED, USAGE = 0, 1, 2
OBJECTS_BETWEEN = 200_000  # that are made until the collector of garbage looks again
PORTION = 8       # files that a process reads at a time
PORTIONS_AHEAD = 4  # for each process


def words() -> argparse.Namespace:
    parser = parser_of(DESCRIPTION, EPILOG, is_laid_out=True)
    parser.add_argument("files", nargs="+", metavar="FILE",
                        help="a CIF file, a folder of them, or - for standard input")
    parser.add_argument("--leave-out", default=frozenset(), metavar="ELEMENTS", type=elements,
                        help="atoms of no concern, as Na,Cl")
    parser.add_argument("--bond", action="append", default=[], type=pair_and_length, metavar="A-B=LENGTH",
                        help="of these two elements, bonds up to the length and no others (0: none)")
    conventions = parser.add_mutually_exclusive_group()
    conventions.add_argument("--convention", default="", type=convention, metavar="NAME",
                        help="what is a vertex: all-atoms, single-nodes, all-nodes, pe, pem, standard; auto gives "
                        "those that apply and differ (where none is named: auto for organic carbon with metals, else "
                        "all-atoms)")
    parser.add_argument("--mode", default="", choices=list(filter(None, CHOICES["mode"])), metavar="MODE",
                        help="zeolite: tetrahedral atoms and their oxygens alone; intermetallic: all contacts up to "
                        "a gap")
    parser.add_argument("--bonds", default="rules", choices=CHOICES["bonds"], metavar="WAY",
                        help="rules (where none is named), file for those of _geom_bond, or both, to see where they "
                        "differ")
    conventions.add_argument("--clusters", action="store_const", dest="convention", const="single-nodes",
                             help="the same as --convention single-nodes")
    add_switches(parser)
    parser.add_argument("--jobs", type=whole_number(0, 9999), default=1, metavar="N",
                        help="read files in N processes; what is written is the same (0: one a processor)")
    parser.add_argument("--notes", metavar="FILE", help="write what is reported as JSON, one line a file")
    parser.add_argument("--quiet", action="store_true", help="tell no more than doubts, what a net has not, and why a file "
                        "gives no net")
    asked = parser.parse_args()
    if pair := twice_given(asked.bond):
        parser.error(f"--bond gives {pair} several lengths")
    if idle := told_idle({**vars(asked), "lengths": asked.bond}):
        parser.error(idle)
    return asked


def elements(text: str) -> frozenset[str]:
    try:
        return elements_of(text)
    except NotAnOption as reason:
        raise argparse.ArgumentTypeError(str(reason)) from None


def convention(text: str) -> str:
    from .units.conventions import convention_named
    try:
        return convention_named(text)
    except ValueError as reason:
        raise argparse.ArgumentTypeError(str(reason)) from reason


def pair_and_length(text: str) -> tuple[frozenset[str], float]:
    found = re.fullmatch(r"([A-Z][a-z]?-[A-Z][a-z]?)=([0-9]+\.?[0-9]*)", text)
    if not found:
        raise argparse.ArgumentTypeError(f"{text!r} has not the form Ba-O=3.4")
    try:
        pair, = lengths_of({found[1]: float(found[2])}).items()
    except NotAnOption as reason:
        raise argparse.ArgumentTypeError(f"{text!r} has not the form Ba-O=3.4: {reason}") from None
    return pair


def options_of(asked: argparse.Namespace) -> Options:
    from .nets.choice import Options
    return Options(leave_out=asked.leave_out, lengths=dict(asked.bond), convention=asked.convention, mode=asked.mode,
                   bonds=asked.bonds, **{name: getattr(asked, name) for name in SWITCHES})


def main() -> int:
    signal.signal(signal.SIGPIPE, signal.SIG_DFL)  # a reader that stops, as head, is no fault
    signal.signal(signal.SIGINT, signal.SIG_DFL)
    gc.set_threshold(OBJECTS_BETWEEN)
    asked = words()
    from .files import files_of, sources_of
    sources = sources_of(list(files_of(asked.files, partial(print, file=sys.stderr))))
    try:
        notes = telling_text(asked.notes) if asked.notes else None
    except OSError as error:
        print(f"{called()}: {asked.notes}: not writable: {error.strerror}", file=sys.stderr)
        return USAGE
    refused = 0
    with Progress(called(), len(sources), "files") as bar:
        for done in conversions(sources, options_of(asked), asked.jobs or processors()):
            bar.tell(done.told(asked.quiet))
            sys.stdout.buffer.write(done.text)
            if notes:
                print(done.json_line(), file=notes)
            refused += done.is_refused
            bar.step(note=f"{refused} refused")
    if notes:
        notes.close()
    if not sources:
        print(f"{called()}: no structure files in " + " ".join(asked.files), file=sys.stderr)
        return SOME_REFUSED
    return SOME_REFUSED if refused else DONE


def conversions(sources: list[Source], options: Options, jobs: int) -> Iterator[Conversion]:
    """What became of the files, in their order."""
    stdin = sys.stdin.buffer.read() if any(source.path == "-" for source in sources) else b""
    if jobs == 1 or len(sources) == 1:
        yield from convert_portion(sources, options, stdin)
        return
    rest = iter(sources)
    portions = iter(lambda: list(islice(rest, PORTION)), [])
    with ProcessPoolExecutor(jobs, multiprocessing.get_context("fork")) as pool:
        ahead: deque[tuple[list[Source], Future]] = deque()
        for portion in portions:
            ahead.append((portion, pool.submit(convert_all, portion, options, stdin)))
            if len(ahead) >= jobs * PORTIONS_AHEAD:
                yield from result_of(*ahead.popleft())
        while ahead:
            yield from result_of(*ahead.popleft())


def convert_portion(sources: Iterable[Source], options: Options, stdin: bytes) -> Iterator[Conversion]:
    from .conversion import read_and_convert
    return (read_and_convert(source, options, stdin) for source in sources)


def convert_all(sources: list[Source], options: Options, stdin: bytes) -> list[Conversion]:
    return list(convert_portion(sources, options, stdin))


def result_of(portion: list[Source], future: Future) -> list[Conversion]:
    """The conversions of a portion; where its process was ended from outside, that is their refusal."""
    try:
        return future.result()
    except BrokenProcessPool:
        from .conversion import Conversion
        ended = [Conversion(source) for source in portion]
        for done in ended:
            done.refuse(done.source.label, "a process of net_tool convert was ended from outside; ask for fewer --jobs")
        return ended
