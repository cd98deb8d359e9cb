"""The words of the command line of net_tool table, and processes side by side."""

from __future__ import annotations

import argparse
import contextlib
import fcntl
import gc
import multiprocessing
import os
import re
import signal
import sys
from collections.abc import Callable, Generator, Iterable, Iterator
from concurrent.futures import FIRST_COMPLETED, Future, ProcessPoolExecutor, as_completed, wait
from concurrent.futures.process import BrokenProcessPool
from functools import partial
from pathlib import Path
from typing import Any

from ..command_line import add_switches, called, parser_of, whole_number
from ..archive import Archive, default_files, files_of as archive_files
from ..progress import Progress
from ..errors import CrystalNetsError, ProgramFailed, in_words
from ..files import write_whole
from ..formats import SUFFIXES
from ..options import CHOICES, SWITCHES, option_word, told_idle, twice_given
from ..side_by_side import bind_programs, end_with_parent, processors
from .database import write_database
from .join import FILES, head_of, join
from .made import made_by, told_difference
from .parquet import need_pyarrow, write_parquet
from .piece import Made, make_rows, path_of, rows_of, was_gone
from .plan import Plan, Portion, Settings, check_source, pieces_of, read_plan, write_plan
from .source import Failed, SourceAway, State, files_of, path_from, state_of

DESCRIPTION = """The table of all nets of a source: a folder of structure files (.cif and others) and files of nets (.cgd,
.arc), each packed by gzip or not, or one such file, with any number of nets. FOLDER gets table.tsv, a line for each net;
groups.tsv, the nets that are the same; names.tsv, those that archives have; and refused.tsv, those without a key, and
why. A run that broke off is taken up by the same command: what was done is kept in FOLDER/work."""
EPILOG = """exit status: 0 each net has a key; 1 some net has none; 2 usage; 3 nothing can be done, or a process was
ended from outside; 75 a file of the source cannot be read now, or for lack of a package of Python, and the same command
tries again; else that of net_tool.
NET_TOOL is the program; where it is not set, the one of this installation or repository, or net_tool on the path.
examples: net_tool table examples results
          net_tool table examples/quartz.cif quartz --topology"""
SOME_REFUSED, USAGE, FAILED = 1, 2, 3
MOST_SECONDS = 1_000_000  # of a net
AHEAD = 4  # pieces that are given out for each process
TRY_AGAIN = 75  # EX_TEMPFAIL of sysexits.h
ELSEWHERE = "take another folder, or remove it"


class OtherWords(Exception):
    """The options are not those of the plan that is there."""


def words() -> argparse.Namespace:
    parser = parser_of(DESCRIPTION, EPILOG, usage=f"{called()} [options] [SOURCE] FOLDER", is_laid_out=True)
    parser.add_argument("paths", metavar="[SOURCE] FOLDER", nargs="+", type=Path,
                        help="FOLDER alone takes up what is planned there")
    parser.add_argument("--archive", metavar="PATH", action="append", type=Path,
                        help="an archive, or a folder of them, for names; several may be given. Without it they are those "
                        "that net_tool archive list lists")
    parser.add_argument("--no-names", action="store_true", help="look no names up")
    parser.add_argument("--maps", action="store_true", help="write FOLDER/maps/NUMBER.maps, which net_tool verify takes, of "
                        "each net that is told by a map")
    parser.add_argument("--keys-alone", action="store_true",
                        help="no placement and no sequences, which takes less time")
    parser.add_argument("--topology", action="store_true", help="groups, point symbols, vertex symbols, td10 and transitivity too: "
                        "computed beside the program and not proved, in some 0.05 to 1.5 s a net")
    parser.add_argument("--jobs", metavar="N", type=whole_number(1, 1024), default=processors(),
                        help="processes side by side, as many as processors where it is not given")
    parser.add_argument("--seconds", metavar="N", type=whole_number(1, MOST_SECONDS),
                        help="for each net, after which its row is stopped; without it there is no limit")
    parser.add_argument("--parquet", action="store_true", help="write table.parquet and so on too, by pyarrow")
    parser.add_argument("--sqlite", metavar="FILE", type=Path, help="write the table as a database, too: structures, and nets, "
                        "each of which stands once")
    parser.add_argument("--again", action="store_true", help="make anew what other versions of the tools or another program "
                        "have made")
    parser.add_argument("--plan", action="store_true", help="write the plan alone, for --part")
    parser.add_argument("--part", metavar="K/N", type=part, help="do each Nth piece from the Kth on, and no table")
    structures = parser.add_argument_group("of structure files, as net_tool convert has them")
    structures.add_argument("--convention", metavar="NAME", help="what is a vertex")
    structures.add_argument("--mode", choices=list(filter(None, CHOICES["mode"])),
                            help="kinds of structures with a rule of their own")
    structures.add_argument("--bonds", choices=CHOICES["bonds"],
                            help="by rules, by the file, or by both, to see where they differ")
    structures.add_argument("--bond", action="append", default=[], type=pair_and_length, metavar="A-B=LENGTH",
                            help="of these two elements, bonds up to the length and no others (0: none)")
    structures.add_argument("--leave-out", metavar="ELEMENTS", help="atoms of no concern, as Na,Cl")
    add_switches(structures)
    asked = parser.parse_args()
    if len(asked.paths) > 2:
        parser.error("give a SOURCE and a FOLDER, or a FOLDER alone")
    if pair := twice_given((frozenset(pair.split("-")), length) for pair, length in asked.bond):
        parser.error(f"--bond gives {pair} several lengths")
    if asked.leave_out is not None and not asked.leave_out.replace(",", " ").split():
        parser.error(f"--leave-out {asked.leave_out!r} has not the form Na,Cl")
    if idle := told_idle({**vars(asked), "lengths": asked.bond}):
        parser.error(idle)
    _check_together(parser, asked)
    return asked


def _check_together(parser: argparse.ArgumentParser, asked: argparse.Namespace) -> None:
    """Ends with the usage where an option has no effect beside another one."""
    of_table = {"--archive": asked.archive, "--maps": asked.maps, "--parquet": asked.parquet,
                "--sqlite": asked.sqlite}
    for one, is_given, others in (("--part", asked.part, {**of_table, "--plan": asked.plan, "--again": asked.again}), ("--plan", asked.plan, of_table),
                                  ("--no-names", asked.no_names, {"--archive": asked.archive})):
        without = [other for other, is_other in others.items() if is_given and is_other]
        if without:
            parser.error(f"{without[0]} has no effect with {one}")


def pair_and_length(text: str) -> tuple[str, float]:
    pair, _, length = text.partition("=")
    if not re.fullmatch(r"[A-Z][a-z]?-[A-Z][a-z]?", pair) or not re.fullmatch(r"\d+\.?\d*", length, re.ASCII):
        raise argparse.ArgumentTypeError(f"{text!r} has not the form Ba-O=3.4")
    return pair, float(length)


def part(text: str) -> tuple[int, int]:
    first, _, step = text.partition("/")
    if not (first.isdecimal() and step.isdecimal() and 1 <= int(first) <= int(step)):
        raise argparse.ArgumentTypeError(f"{text!r} has not the form 3/16")
    return int(first), int(step)


def settings_of(asked: argparse.Namespace, source: Path) -> Settings:
    """What the rows depend on beside the state of the source."""
    options: dict[str, Any] = {name: True for name in SWITCHES if getattr(asked, name)}
    options |= {name: getattr(asked, name) for name in ("convention", "mode", "bonds") if getattr(asked, name)}
    if asked.bond:
        options["lengths"] = dict(sorted(asked.bond))
    if asked.leave_out:
        options["leave_out"] = sorted(asked.leave_out.replace(",", " ").split())
    return {"source": str(source), "at": os.getcwd(), "options": options, "seconds": asked.seconds,
            "topology": asked.topology, "command": "key" if asked.keys_alone else "identify"}


def planned(asked: argparse.Namespace, folder: Path, work: Path) -> Plan:
    """The plan that is there, or a new one. Failed where the one that is there is of other words, or of a source that
    was changed since."""
    path = work / "plan"
    if path.exists():
        plan = read_plan(path)
        settings = settings_of(asked, asked.paths[0])
        if len(asked.paths) == 2 and _place(settings) != _place(plan.settings):
            raise Failed(f"{folder} has another table: its source is {plan.settings['source']!r}; {ELSEWHERE}")
        _check_words(plan, settings, folder, len(asked.paths) == 2)
        return _of_now(plan, path, folder, asked.again)
    if len(asked.paths) == 1:
        raise Failed(f"nothing is planned in {folder}; give the source before it")
    settings = settings_of(asked, asked.paths[0])
    write_new_plan(path, settings)
    return read_plan(path)


def write_new_plan(path: Path, settings: Settings) -> None:
    """Plans the files of a source, which are gone through and never held."""
    source, at, made = Path(settings["source"]), settings["at"], made_by()
    os.stat(os.path.join(at, source))  # OSError if there is none
    state = State()
    try:
        path.parent.mkdir(parents=True, exist_ok=True)
        with Progress(f"{called()}: plan", 0, "files") as bar:
            tell: Callable[[str], object] = lambda line: bar.tell([line])
            files = _taken(files_of(source, at, tell), at, state, bar)
            write_plan(path, settings, made, _with_state(pieces_of(files, settings), settings, state))
        if not state.count:
            path.unlink()
            raise Failed(f"{source} has no files of structures or nets: {', '.join(SUFFIXES)}")
        if state_of(files_of(source, at), at) != state.sum:
            path.unlink()
            raise Failed(f"{source} was changed while it was planned; the same command plans it anew")
    except OSError as fault:
        raise SourceAway.of(fault) from None


def _taken(files: Iterator[str], at: str, state: State, bar: Progress) -> Iterator[str]:
    """The files, of which the state is taken before they are read."""
    for file in files:
        state.take(file, path_from(file, at))
        yield file
        bar.step()


def _with_state(pieces: Iterator[list[Portion]], settings: Settings, state: State) -> Iterator[list[Portion]]:
    """The pieces; then the settings have the state of all files that went into them."""
    yield from pieces
    settings["state"] = state.sum


def _of_now(plan: Plan, path: Path, folder: Path, again: bool) -> Plan:
    """The plan, if its rows are made by these tools and this program. If not, they are made anew if that is asked for."""
    made = made_by()
    if plan.made == made:
        return plan
    if not again:
        raise OtherWords(f"{folder} has a table that {told_difference(plan.made, made)} made; --again makes it anew, or {ELSEWHERE}")
    write_plan(path, plan.settings, made, plan.pieces)
    return read_plan(path)


def _place(settings: Settings) -> str:
    """The path of a source, which may be given from several folders."""
    return os.path.normpath(os.path.join(str(settings["at"]), str(settings["source"])))


def option_words(options: dict[str, Any]) -> dict[str, Any]:
    """The options of structures by the words of the command line, with their values."""
    return {option_word(name): value for name, value in options.items()}


def words_of(settings: Settings) -> dict[str, Any]:
    """The options that settings are made of, with their values."""
    switches = {"--keys-alone": settings["command"] == "key", "--topology": settings["topology"]}
    given = {"--seconds": settings["seconds"], **{word: True for word, is_given in switches.items() if is_given}}
    given |= option_words(settings["options"])
    return {word: value for word, value in given.items() if value is not None}


def tell_idle_options(plan: Plan) -> None:
    """Tells options of structures where the source has files of nets alone, for which they do nothing."""
    given = option_words(plan.settings["options"])
    if given and not plan.has_structures:
        print(f"{called()}: without effect, since the source has no structures: {', '.join(given)}", file=sys.stderr)


def _check_words(plan: Plan, settings: Settings, folder: Path, is_whole: bool) -> None:
    """OtherWords where a plan is not of the options that are given, or, where these are whole, of others too."""
    known, given = words_of(plan.settings), words_of(settings)
    for word in sorted({*known, *given} if is_whole else given):
        value = known.get(word)
        if value != given.get(word):
            is_switch = value is None or value is True
            told = f"it is made {'with' if value else 'without'} {word}" if is_switch else f"its {word} is {value!r}"
            raise OtherWords(f"{folder} has another table: {told}; {ELSEWHERE}")


def make_pieces(work: Path, plan: Plan, numbers: Iterable[int], jobs: int) -> Made:
    """Makes the rows of those pieces that have none, or not all since a package was missing or a file was gone. If a file of
    some cannot be read now, the others are made, and then SourceAway is raised."""
    missing = [number for number in numbers if rows_of(work, plan, number, is_final=True) is None]
    away: list[SourceAway] = []
    told = Made([], [])
    with Progress(called(), len(missing), "pieces") as bar, contextlib.closing(_made(work, plan, missing, jobs)) as calls:
        for made in calls:
            try:
                lacking, gone = made()
                told.lacking.extend(lacking)
                told.gone.extend(gone)
            except SourceAway as reason:
                away.append(reason)
            bar.step()
    if away:
        raise SourceAway(f"{len(away)} of {len(plan.pieces)} pieces are not there: {away[0]}")
    return told


def _made(work: Path, plan: Plan, numbers: list[int], jobs: int) -> Generator[Callable[[], Made], None, None]:
    """The pieces, each as a call that gives what is to be reported of it, or raises what was raised of it."""
    if jobs == 1 or len(numbers) < 2:
        for number in numbers:
            yield partial(_make, work, plan, number)
        return
    with ProcessPoolExecutor(min(jobs, len(numbers)), multiprocessing.get_context("fork"), _begin,
                             (os.getpid(), work, plan)) as pool:
        waiting: set[Future[Made]] = set()
        try:
            for number in numbers:
                waiting.add(pool.submit(_make_here, number))
                if len(waiting) >= AHEAD * jobs:
                    done, waiting = wait(waiting, return_when=FIRST_COMPLETED)
                    yield from (future.result for future in done)
            yield from (future.result for future in as_completed(waiting))
        except BaseException:
            pool.shutdown(cancel_futures=True)
            raise


HERE: list[tuple[Path, Plan]] = []  # what a process works on


def _begin(parent: int, work: Path, plan: Plan) -> None:
    end_with_parent(parent)
    HERE.append((work, plan))


def _make_here(number: int) -> Made:
    return _make(*HERE[0], number)


def _make(work: Path, plan: Plan, number: int) -> Made:
    """Makes a piece. A file that was gone before is not told again."""
    is_told = was_gone(work, number)
    made = make_rows(path_of(work, number), plan.piece(number))
    return made._replace(gone=[]) if is_told else made


@contextlib.contextmanager
def alone(work: Path) -> Iterator[None]:
    """Keeps a second run out of a folder. Failed where one is there."""
    work.mkdir(parents=True, exist_ok=True)
    with open(work / "lock", "w") as lock:
        try:
            fcntl.flock(lock, fcntl.LOCK_EX | fcntl.LOCK_NB)
        except BlockingIOError:
            raise Failed(f"another net_tool table is at work in {work.parent}") from None
        except OSError as fault:  # the file system knows no locks
            raise Failed(f"{lock.name} cannot be locked: {fault.strerror}") from None
        yield


def archive_of(asked: argparse.Namespace) -> Archive | None:
    if asked.no_names:
        return None
    return Archive.load(*(archive_files(asked.archive) if asked.archive else default_files()))


def make_table(asked: argparse.Namespace) -> int:
    folder = asked.paths[-1]
    work = folder / "work"
    if folder.exists() and not folder.is_dir():
        raise Failed(f"{folder} is a file; the FOLDER for the table stands after the SOURCE")
    if asked.part:
        plan = planned(asked, folder, work)
        numbers = range(asked.part[0], len(plan.pieces) + 1, asked.part[1])
        return _status_of(make_pieces(work, plan, numbers, asked.jobs), 0)
    if asked.parquet:
        need_pyarrow()
    with alone(work):
        plan = planned(asked, folder, work)
        tell_idle_options(plan)
        if asked.plan:
            print(f"{folder}: {len(plan.pieces)} pieces")
            return 0
        check_source(plan)
        archive = archive_of(asked)
        made = make_pieces(work, plan, range(1, len(plan.pieces) + 1), asked.jobs)
        check_source(plan)
        counts = join(folder, work, plan, archive, asked.jobs, asked.maps)
        if asked.parquet:
            write_parquet(folder, plan)
        if asked.sqlite:
            write_database(folder / FILES[0], asked.sqlite, head_of(FILES[0], plan))
    print(f"{folder / FILES[0]}: {counts.nets} nets, {counts.with_key} with a key, {counts.kinds} different, "
          f"{counts.named} with a name, {counts.nets - counts.with_key} refused")
    return _status_of(made, SOME_REFUSED if counts.with_key < counts.nets else 0)


def _status_of(made: Made, status: int) -> int:
    """The status of a run whose files are all read; else it is reported why some are not, and the same command tries again. A
    file that is gone is reported once, and keeps its row until it is there again."""
    for files, reason in ((made.gone, "are no longer there"), (made.lacking, "are not read, since a package is missing")):
        if files:
            told = f"{len(files)} files {reason}" if len(files) > 1 else f"a file {reason.replace('are', 'is', 1)}"
            print(f"{called()}: {told}; the same command tries again: {files[0]}".encode(errors="replace").decode(),
                  file=sys.stderr)
    return TRY_AGAIN if made.gone or made.lacking else status


def main() -> int:
    signal.signal(signal.SIGINT, signal.SIG_DFL)
    gc.set_threshold(200_000)
    asked = words()
    bind_programs()
    try:
        return make_table(asked)
    except ProgramFailed as fault:
        print(f"{called()}: {fault}", file=sys.stderr)
        return fault.status if 0 < fault.status < 126 else FAILED
    except BrokenProcessPool:
        print(f"{called()}: a process was ended from outside; the same command again goes on", file=sys.stderr)
    except SourceAway as reason:
        print(f"{called()}: {reason}", file=sys.stderr)
        return TRY_AGAIN
    except OtherWords as reason:
        print(f"{called()}: {reason}", file=sys.stderr)
        return USAGE
    except (Failed, CrystalNetsError, OSError) as fault:
        print(f"{called()}: {in_words(fault)}", file=sys.stderr)
    return FAILED
