"""A copy of a crate in which shorter proofs are tried, and the checks of it.

The crate itself changes in `hand_over` alone: it takes what a whole check of the copy has accepted."""

from __future__ import annotations

import dataclasses
import importlib.machinery
import importlib.util
import os
import re
import shutil
import signal
import subprocess
import sys
import tempfile
import types
from collections.abc import Mapping
from pathlib import Path

from proof_units import proof_files

PARTS = ("src", "specs", "proofs")
ERROR = re.compile(r"^(?:\./)?(\S+?):(\d+):\d+: error", re.MULTILINE)
CHOSEN = re.compile(r"^(?:\./)?(\S+?):(\d+):\d+: note: `\S+` has chosen a term", re.MULTILINE)
MOST_AGAIN = 2
FUNCTION = re.compile(r"^fn (\S+): (.*)$", re.MULTILINE)


class Fault(Exception):
    """Why nothing, or nothing more, can be tried."""


@dataclasses.dataclass(frozen=True)
class Outcome:
    """What a check said, and the seconds of a processor that it took."""

    status: int
    text: str
    seconds: float

    @property
    def refused(self) -> set[tuple[str, int]]:
        """The files and lines with an error, or where a tactic chose a value that others may cite."""
        return {(found[1], int(found[2])) for kind in (ERROR, CHOSEN) for found in kind.finditer(self.text)}

    @property
    def is_proved(self) -> bool:
        has_verdict = re.search(r"^logic=proved ", self.text, re.MULTILINE) is not None
        return self.status == 0 and has_verdict and not CHOSEN.search(self.text)

    @property
    def functions(self) -> dict[str, str]:
        """What is said of each function."""
        return {found[1]: found[2] for found in FUNCTION.finditer(self.text)}


def toolchain() -> types.ModuleType:
    """Returns the toolchain's `rt` as a module."""
    path = shutil.which("rt")
    if path is None:
        raise Fault("the command rt of the toolchain is not there")
    try:
        loader = importlib.machinery.SourceFileLoader("rt_itself", os.path.realpath(path))
        spec = importlib.util.spec_from_loader(loader.name, loader)
        assert spec is not None
        rt = importlib.util.module_from_spec(spec)
        sys.modules[loader.name] = rt
        loader.exec_module(rt)
    except (AttributeError, ImportError, OSError, SyntaxError) as reason:
        raise Fault(f"the toolchain's rt cannot be used: {reason}") from reason
    return rt


class Workshop:
    """The copy of one crate, which is locked for others meanwhile; its check may be slower by a share in percent.

    A quick one begins with what `rt check` kept, accepts what a check over kept work has proved, and judges no time."""

    def __init__(self, top: Path, crate: str, slower: int, is_quick: bool = False) -> None:
        self.top, self.name, self.slower, self.is_quick = top, crate, slower, is_quick
        self.origin = top / "crates" / crate
        if not (self.origin / "proofs").is_dir():
            raise Fault(f"crates/{crate} is no crate with proofs")
        self.rt = toolchain().rtlib
        os.chdir(self.origin)
        self.crate = self.rt.Crate(str(self.origin), str(top), {})
        missing = [below.name for below in self.crate.below() if not below.is_built()]
        if missing:
            raise Fault(f"`rt check` in crates/{crate} has to build the libraries below: {', '.join(missing)}")
        self.locks = self.rt.lock([self.crate])
        (self.origin / "out").mkdir(exist_ok=True)
        self.scratch = tempfile.TemporaryDirectory(prefix="shorten.", dir=self.origin / "out")
        self.folder = Path(self.scratch.name) / crate
        self.kept = Path(self.scratch.name) / "kept"
        for part in PARTS:
            if (self.origin / part).is_dir():
                shutil.copytree(self.origin / part, self.folder / part)
        self.accepted = self.texts()
        self.most_seconds = float("inf")

    def close(self) -> None:
        """Lets the crate go, with the work of the last accepted check for its next one."""
        self.scratch.cleanup()
        for lock in self.locks:
            os.close(lock)

    def texts(self) -> dict[Path, str]:
        """Returns the proofs of the copy, by their places in the crate."""
        return {path.relative_to(self.folder): path.read_text() for path in proof_files(self.folder)}

    def write(self, texts: Mapping[Path, str | None]) -> None:
        """Writes files of the copy; one that has no text is taken away."""
        for path, text in texts.items():
            file = self.folder / path
            if text is None:
                file.unlink(missing_ok=True)
            else:
                file.parent.mkdir(parents=True, exist_ok=True)
                file.write_text(text)

    def become(self, texts: Mapping[Path, str]) -> None:
        """Gives the copy these proofs and no others."""
        self.write({path: texts.get(path) for path in {*texts, *self.texts()}})

    def put_back(self) -> None:
        """Makes the copy again what was accepted last."""
        self.become(self.accepted)

    def size(self) -> tuple[int, int]:
        """Returns the lines of the proofs, and their characters."""
        texts = self.texts().values()
        return sum(text.count("\n") for text in texts), sum(map(len, texts))

    def run(self, verb: str, flags: list[str], kept: Path) -> Outcome:
        """Runs the toolchain in the copy."""
        words = [self.rt.RATTLE, verb, *self.crate.words(["--jobs", "1", *flags]), "--incremental", str(kept)]
        with tempfile.TemporaryFile("w+", dir=self.scratch.name, errors="replace") as told:
            process = subprocess.Popen(words, cwd=self.folder, stdin=subprocess.DEVNULL, stdout=told, stderr=told)
            try:
                _, status, used = os.wait4(process.pid, 0)
            except KeyboardInterrupt:
                process.terminate()
                process.wait()
                raise
            process.returncode = os.waitstatus_to_exitcode(status)
            told.seek(0)
            return Outcome(process.returncode, told.read(), used.ru_utime + used.ru_stime)

    def check(self, *flags: str) -> Outcome:
        """Checks the copy over the work of former checks."""
        self.kept.mkdir(exist_ok=True)
        return self.run("check", list(flags), self.kept)

    def begin(self) -> Outcome:
        """Checks the crate as it stands: from nothing, or quickly, over what `rt check` kept."""
        work = self.origin / "out/incremental"
        if not self.is_quick:
            return self.measure()
        if work.is_dir():
            shutil.copytree(work, self.kept, symlinks=True)
        return self.check()

    def check_anew(self) -> Outcome:
        """Lays the copy out and checks it from nothing. Where it seems slow, what was accepted last and the copy are
        measured again, one after the other, since other work disturbs the clock. A quick check judges no time."""
        self.lay_out()
        if self.is_quick:
            return self.check()
        outcome = self.check_once()
        for _ in range(MOST_AGAIN):
            if not outcome.is_proved or not self.is_slow(outcome):
                break
            self.measure()
            outcome = self.check_once()
        return outcome

    def measure(self) -> Outcome:
        """Checks from nothing what was accepted last: by its seconds a copy is judged."""
        tried = self.texts()
        self.put_back()
        outcome = self.check_once()
        self.most_seconds = outcome.seconds * (1 + self.slower / 100)
        self.become(tried)
        return outcome

    def is_slow(self, outcome: Outcome) -> bool:
        return outcome.seconds > self.most_seconds

    def check_once(self) -> Outcome:
        """Checks the copy from nothing; where it is proved, later checks begin with its work."""
        fresh = self.kept.with_name("fresh")
        shutil.rmtree(fresh, ignore_errors=True)
        fresh.mkdir()
        outcome = self.run("check", [], fresh)
        if outcome.is_proved:
            shutil.rmtree(self.kept, ignore_errors=True)
            fresh.rename(self.kept)
        return outcome

    def lay_out(self) -> None:
        """Gives the files that changed the layout of the toolchain, and takes empty folders away."""
        changed = [str(path) for path, text in self.texts().items() if text != self.accepted.get(path)]
        if changed:
            words = [self.rt.RATTLE, "fmt", "--write", *changed]
            subprocess.run(words, cwd=self.folder, capture_output=True, check=False)
        for folder, _, _ in os.walk(self.folder / "proofs", topdown=False):
            if not os.listdir(folder):
                os.rmdir(folder)

    def hand_over(self) -> None:
        """Gives the crate the proofs of the copy, which a whole check has accepted; no signal comes between."""
        now = self.texts()
        changed = [path for path in {*now, *self.accepted} if now.get(path) != self.accepted.get(path)]
        for path in changed:
            file = self.origin / path
            if (file.read_text() if file.exists() else None) != self.accepted.get(path):
                raise Fault(f"crates/{self.name}/{path} was changed meanwhile: nothing of this stage is kept")
        blocked = signal.pthread_sigmask(signal.SIG_BLOCK, {signal.SIGINT, signal.SIGTERM})
        try:
            for path in changed:
                replace(self.origin / path, now.get(path))
            self.accepted = now
        finally:
            signal.pthread_sigmask(signal.SIG_SETMASK, blocked)

    def keep_work(self) -> None:
        """Leaves the work of the last accepted check where `rt check` looks for it."""
        place = self.origin / "out/incremental"
        if self.kept.is_dir():
            shutil.rmtree(place, ignore_errors=True)
            self.kept.rename(place)


def replace(file: Path, text: str | None) -> None:
    """Puts a text in the place of a file in one step; with no text the file goes, and its folder if that is empty."""
    if text is None:
        file.unlink()
        if not any(file.parent.iterdir()):
            file.parent.rmdir()
        return
    beside = file.with_name(f".{file.name}.new")
    beside.write_text(text)
    os.replace(beside, file)


def say(text: str) -> None:
    print(text, file=sys.stderr, flush=True)
