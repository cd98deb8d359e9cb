"""The runner of the tests of the tools: runner.py PATH.. runs the test_*.py of folders, and files, side by side.

Each file has a process of its own. A test that fails beside others is run once more alone when all others are done. If it
passes then, its first failure is printed all the same, and counted as `only alone`. The runner ends with 0 if nothing fails
alone. NET_TOOL is the program; NET_TOOL_LONG=1 asks for the long tests too, and NET_TOOL_TIMES=1 for a list of the slowest."""

from __future__ import annotations

import json
import os
import re
import signal
import subprocess
import sys
import time
import unittest
from collections.abc import Iterable, Iterator
from concurrent.futures import ThreadPoolExecutor, as_completed
from contextlib import nullcontext
from dataclasses import asdict, dataclass, field
from pathlib import Path

import forked
from testing import IS_LONG, TESTS, TOP

OUTCOME = "outcome: "  # begins the last line of a process that has run a file
HAS_TIMES = os.environ.get("NET_TOOL_TIMES") == "1"
LONGEST = ("test_install", "test_release", "test_desk_browser", "test_frameworks", "test_package", "test_sources", "test_pictures",
           "test_files", "test_table", "test_desk_server", "test_deb", "test_shorten", "test_front", "test_desk_answers")
MOST_LISTED = 10       # of the slowest files and tests


@dataclass
class Seconds:
    """Of the clock, and of processors: those of this process and of all that it has waited for."""

    clock: float = 0.0
    processors: float = 0.0

    @classmethod
    def now(cls) -> Seconds:
        return cls(time.monotonic(), sum(os.times()[:4]) + forked.seconds_of_forks)

    def __str__(self) -> str:
        return f"{self.clock:.1f} s, and {self.processors:.1f} s of processors"

    def since(self, begun: Seconds) -> Seconds:
        return Seconds(self.clock - begun.clock, self.processors - begun.processors)


@dataclass
class Outcome:
    """What became of the tests of a file. A failure has the name by which its test is loaded again, or the class or file
    that it is of."""

    passed: list[str] = field(default_factory=list)
    failed: dict[str, str] = field(default_factory=dict)   # with the text of each failure
    skipped: list[str] = field(default_factory=list)       # the reasons
    seconds: dict[str, Seconds] = field(default_factory=dict)
    whole: Seconds = field(default_factory=Seconds)
    printed: str = ""

    @classmethod
    def read(cls, text: str) -> Outcome:
        """What `written` has written."""
        given = json.loads(text)
        seconds = {name: Seconds(**told) for name, told in given.pop("seconds").items()}
        return cls(**given | {"seconds": seconds, "whole": Seconds(**given["whole"])})

    def written(self) -> str:
        return json.dumps(asdict(self))

    def fails(self, name: str) -> bool:
        """Whether it has a failure of a test, of the class or file that it is of, or of a test in what has this name."""
        return any(is_part(failed, name) or is_part(name, failed) for failed in self.failed)

    def passes(self, name: str) -> bool:
        """Whether a test passed, or tests of a class or file and all of them. What is skipped does not pass."""
        return not self.fails(name) and any(is_part(passed, name) for passed in self.passed)


def is_part(name: str, whole: str) -> bool:
    """Whether a name is that of a test in a class or file, or the same one."""
    return f"{name}.".startswith(f"{whole}.")


class Noted(unittest.TestResult):
    """Notes the outcome of each test of a file, and its seconds."""

    def __init__(self, stem: str) -> None:
        super().__init__()
        self.stem = stem
        self.begun = Seconds.now()
        self.outcome = Outcome()

    def startTest(self, test: unittest.TestCase) -> None:
        super().startTest(test)
        self.begun = Seconds.now()

    def stopTest(self, test: unittest.TestCase) -> None:
        super().stopTest(test)
        self.outcome.seconds[test.id()] = Seconds.now().since(self.begun)

    def addSuccess(self, test: unittest.TestCase) -> None:
        super().addSuccess(test)
        self.outcome.passed.append(test.id())

    def whole(self) -> Outcome:
        """The outcome once all tests are run."""
        failed = self.outcome.failed
        for test, trace in self.failures + self.errors:
            name = name_of(test, self.stem)
            failed[name] = failed.get(name, "") + trace
        self.outcome.skipped += [reason for _, reason in self.skipped]
        self.outcome.whole = Seconds(processors=Seconds.now().processors)
        return self.outcome


def name_of(test: unittest.TestCase, stem: str) -> str:
    """The name by which a test is loaded again; that of its class or file if they could not begin or end."""
    told = getattr(test, "test_case", test).id()  # of a subtest, that of its test
    found = re.fullmatch(r"\w+ \((\S+)\)", told)  # as setUpClass (test_x.Class)
    name: str = found[1] if found else told
    return name if name.partition(".")[0] == stem else stem


def run_file(file: Path, names: list[str]) -> Outcome:
    """Runs the tests of a file in this process; those of some names alone if there are any."""
    result = Noted(file.stem)
    try:
        tests = unittest.TestLoader().loadTestsFromNames(names or [file.stem])
    except unittest.SkipTest as reason:
        result.outcome.skipped.append(str(reason))
    else:
        tests.run(result)
    return result.whole()


def run_apart(file: Path, *names: str, **settings: str) -> Outcome:
    """Runs them in a process of its own, with settings of its environment. One that is cut off is a failure of the whole
    file."""
    paths = os.pathsep.join(map(str, (file.parent, TOP / "python", TESTS, TOP / "dev/archives", TOP / "dev/bench")))
    begun = time.monotonic()
    done = subprocess.run([sys.executable, "-B", "-m", "runner", str(file), *names], stdout=subprocess.PIPE, stderr=subprocess.STDOUT,
                          env={**os.environ, "PYTHONPATH": paths, "NET_TOOL_ONE_FILE": "1", **settings}, stdin=subprocess.DEVNULL)
    *printed, last = done.stdout.decode(errors="replace").splitlines() or [""]
    if last.startswith(OUTCOME):
        outcome = Outcome.read(last.removeprefix(OUTCOME))
        outcome.printed = "\n".join(printed).rstrip("\n")
    else:
        outcome = Outcome(failed={file.stem: "\n".join([*printed, last, f"it ended with {done.returncode}"])})
    outcome.whole.clock = time.monotonic() - begun
    return outcome


def files_of(words: list[str]) -> list[Path]:
    """The files of tests of folders, and those that are named. The LONGEST of them come first, and then the larger ones, so
    that all processors end together."""
    paths = [Path(word).resolve() for word in words]
    files = [file for path in paths for file in (sorted(path.glob("test_*.py")) if path.is_dir() else [path])]
    places = {stem: place for place, stem in enumerate(LONGEST)}
    return sorted(dict.fromkeys(files), key=lambda file: (places.get(file.stem, len(places)), -file.stat().st_size))


@dataclass
class Run:
    """All files that were run, with their outcomes: beside each other, and alone if there were failures."""

    beside: dict[Path, Outcome] = field(default_factory=dict)
    alone: dict[Path, Outcome] = field(default_factory=dict)

    def run(self, files: list[Path]) -> None:
        """Commands are forks of one process beside others; alone, and for the long tests, Python starts for each."""
        with nullcontext({}) if IS_LONG else forked.serving() as settings, ThreadPoolExecutor(len(os.sched_getaffinity(0))) as pool:
            places = {pool.submit(run_apart, file, **settings): file for file in files}
            for done in as_completed(places):
                self.beside[places[done]] = done.result()
                tell_outcome(places[done], done.result(), is_alone=len(files) == 1)
        for file, outcome in self.beside.items():
            if outcome.failed:  # one file has been alone already
                self.alone[file] = run_apart(file, *outcome.failed) if len(files) > 1 else outcome

    @property
    def failed(self) -> Iterator[tuple[Path, str, str]]:
        """Each failure that is one alone too, with its text; and each one beside others that is skipped alone."""
        for file, outcome in self.alone.items():
            skipped = {name: text for name, text in self.beside[file].failed.items() if not outcome.fails(name) and not outcome.passes(name)}
            yield from ((file, name, text) for name, text in {**outcome.failed, **skipped}.items())

    @property
    def only_alone(self) -> Iterator[tuple[Path, str, str]]:
        """Each failure beside others of what passes alone, with its text."""
        return ((file, name, self.beside[file].failed[name]) for file, outcome in self.alone.items()
                for name in self.beside[file].failed if outcome.passes(name))

    @property
    def passed(self) -> set[tuple[Path, str]]:
        """The tests that passed, beside others or alone, and did not fail alone."""
        passed = {(file, name) for outcomes in (self.beside, self.alone) for file, outcome in outcomes.items() for name in outcome.passed}
        return passed - {(file, name) for file, name, _ in self.failed}

    @property
    def skipped(self) -> list[str]:
        return [reason for outcome in self.beside.values() for reason in outcome.skipped]


def called(file: Path) -> str:
    return os.path.relpath(file, TOP)


def tell_outcome(file: Path, outcome: Outcome, is_alone: bool) -> None:
    """What the tests of a file printed, why some were skipped, which failed, and how long it took if that is asked for."""
    lines = [outcome.printed] if outcome.printed else []
    lines += [f"{called(file)}: skipped {outcome.skipped.count(reason)}: {reason}" for reason in sorted(set(outcome.skipped))]
    lines += [f"{called(file)}: {name} failed, and is run alone at the end" for name in outcome.failed if not is_alone]
    lines += [f"{called(file)}: {outcome.whole}"] * HAS_TIMES
    print("".join(f"{line}\n" for line in lines), end="", flush=True)


def tell_failures(told: str, failures: Iterable[tuple[Path, str, str]]) -> int:
    """Prints failures, and gives their number."""
    count = 0
    for count, (file, name, text) in enumerate(failures, start=1):
        print(f"{called(file)}: {told}: {name}\n{text}")
    return count


def tell_slowest(outcomes: dict[Path, Outcome]) -> None:
    """The slowest files and tests, by the clock."""
    tests = [(seconds, f"{called(file)}: {name}") for file, outcome in outcomes.items() for name, seconds in outcome.seconds.items()]
    for what, told in (("files", [(outcome.whole, called(file)) for file, outcome in outcomes.items()]), ("tests", tests)):
        told.sort(key=lambda row: -row[0].clock)
        whole = Seconds(sum(seconds.clock for seconds, _ in told), sum(seconds.processors for seconds, _ in told))
        print(f"the slowest {what}; all: {whole}")
        for seconds, name in told[:MOST_LISTED]:
            print(f"    {name}: {seconds}")


def main() -> int:
    signal.signal(signal.SIGINT, signal.default_int_handler)  # a shell has what runs in its background ignore it
    signal.signal(signal.SIGHUP, signal.SIG_DFL)  # and nohup this one
    if os.environ.pop("NET_TOOL_ONE_FILE", ""):
        outcome = run_file(Path(sys.argv[1]), sys.argv[2:])
        print(f"\n{OUTCOME}{outcome.written()}")
        return 0
    tests = Run()
    tests.run(files_of(sys.argv[1:]))
    failed = tell_failures("failed", tests.failed)
    only_alone = tell_failures("failed beside others and passed alone", tests.only_alone)
    if HAS_TIMES:
        tell_slowest(tests.beside)
    print(f"tools: {len(tests.passed)} passed, {failed} failed, {len(tests.skipped)} skipped, {only_alone} only alone")
    return int(failed > 0)


if __name__ == "__main__":
    sys.exit(main())
