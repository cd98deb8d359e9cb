"""Answers of many sources by any executor: in order, whatever fails, and going on from a journal."""

from __future__ import annotations

import json
import os
import shutil
import subprocess
import sys
from concurrent.futures import BrokenExecutor, Executor, Future, ProcessPoolExecutor, ThreadPoolExecutor
from concurrent.futures.process import BrokenProcessPool
from multiprocessing import get_context
from pathlib import Path

from executed import SQUARE, Broken, BrokenTwice, Deadly, squares
from testing import PATIENCE, PROGRAM, TESTS, TOP, FolderTest, need_commands, need_modules, need_program

need_program()
from crystal_nets import Archive, Net, NotAJournal, ProgramNotFound, identify_all, identify_each, keys, read  # noqa: E402

COMMON = TOP / "archives/common.cgd"
BY_DASK = """
import sys, os, signal, json
from crystal_nets import identify_each
from executed import Deadly, squares
from distributed import Client, LocalCluster
if __name__ == "__main__":
    with LocalCluster(n_workers=2, threads_per_worker=1, processes=True, dashboard_address=None) as cluster, Client(cluster) as client:
        sources = squares(300, sys.argv[1], Deadly(sys.argv[1], "deadly"))
        found = [answer.names[0] for answer in identify_each(sources, executor=client.get_executor(), size=16)]
        print(json.dumps([len(found), sorted(set(found))]))
"""
BY_MPI = """
import sys, json
from crystal_nets import identify_each
from mpi4py.futures import MPIPoolExecutor
if __name__ == "__main__":
    with MPIPoolExecutor() as pool:
        found = [row["names"] for row in identify_each(sys.argv[1], executor=pool, want="rows", size=16)]
    print(json.dumps(found))
"""


class Counted(Executor):
    """An executor that does each call when its result is asked for, and counts those that were not."""

    def __init__(self) -> None:
        self.open = self.most = self.calls = 0

    def submit(self, call, *args):
        self.open += 1
        self.calls += 1
        self.most = max(self.most, self.open)
        return Later(self, call, args)


class Later(Future):
    def __init__(self, executor, call, args):
        super().__init__()
        self.executor, self.call, self.args = executor, call, args

    def result(self, timeout=None):
        self.executor.open -= 1
        return self.call(*self.args)


class ExecutorTest(FolderTest):
    def setUp(self):
        super().setUp()
        self.log = str(self.folder / "log")

    def pool(self, workers: int = 2) -> ProcessPoolExecutor:
        pool = ProcessPoolExecutor(workers, get_context("fork"))
        self.addCleanup(pool.shutdown, cancel_futures=True)
        return pool

    def readings(self, name: str) -> int:
        return Path(self.log).read_text().splitlines().count(name)


class Answers(ExecutorTest):
    def test_the_same_as_alone_and_in_order(self):
        nets = read(COMMON)
        alone = identify_all(COMMON)
        for sources in (nets, COMMON, str(COMMON), COMMON.read_text()):
            answers = list(identify_each(sources, executor=self.pool(), size=16))
            self.assertEqual([(one.names, one.key, one.sequences) for one in answers],
                             [(one.names, one.key, one.sequences) for one in alone])
            self.assertEqual([one.net.block for one in answers], [net.block for net in nets])
        self.assertEqual([one.net.provenance.line for one in identify_each(COMMON, executor=self.pool(), size=16)],
                         [net.provenance.line for net in nets])

    def test_nets_without_a_key(self):
        layers = TOP / "archives/layers.cgd"
        alone = identify_all(layers)
        many = list(identify_each(layers, executor=self.pool(), size=20))
        self.assertEqual([(one.names, one.by, one.certificate) for one in many],
                         [(one.names, one.by, one.certificate) for one in alone])
        self.assertTrue(all(one.names for one in many))
        archive = Archive.of([SQUARE])
        doubled = Net([(1, 2, (0, 0)), (2, 1, (1, 0)), (1, 1, (0, 1)), (2, 2, (0, 1))])
        self.assertEqual([one.names for one in identify_each([doubled], archive, executor=self.pool())], [("square",)])

    def test_keys_and_rows(self):
        found = list(identify_each(COMMON, executor=self.pool(), want="keys"))
        self.assertEqual([one.key for one in found], [one.key for one in keys(COMMON)])
        self.assertIsNone(found[0].placement)
        rows = list(identify_each(COMMON, executor=self.pool(), want="rows", size=50))
        self.assertEqual([row["names"] for row in rows], ["; ".join(one.names) for one in identify_all(COMMON)])
        self.assertEqual(rows[0]["symbol"], rows[0]["names"].partition(",")[0])
        need_modules("pandas")
        table = identify_all(COMMON).to_pandas()
        for column in table.columns:
            self.assertEqual([row[column] for row in rows], list(table[column]), column)

    def test_a_folder_and_a_long_file_are_streamed(self):
        (self.folder / "nets").mkdir()
        for k in range(3):
            (self.folder / f"nets/n{k}.cgd").write_bytes(b"".join(Net(SQUARE.edges, name=f"{k}.{m}").block for m in range(5)))
        names = [f"{k}.{m}" for k in range(3) for m in range(5)]
        self.assertEqual([one.name for one in identify_each(self.folder / "nets", None, executor=self.pool(), size=2)], names)
        one, two = identify_each([self.folder / "nets/n0.cgd", self.folder / "absent"], None, want="keys"), []
        two += [(answer.outcome.kind, answer.net.provenance.source) for answer in one]
        self.assertEqual(two, [("accepted", "0")] * 5 + [("unreadable", "1")])
        with self.assertRaises(OSError):
            identify_each(self.folder / "absent")
            list(identify_each(self.folder / "absent"))

    def test_no_more_is_held_than_is_allowed(self):
        taken = []
        sources = (taken.append(k) or SQUARE for k in range(1000))
        executor = Counted()
        answers = identify_each(sources, None, executor=executor, size=10, ahead=3)
        next(answers)
        self.assertLessEqual(len(taken), 41)
        self.assertEqual(len(list(answers)), 999)
        self.assertEqual((executor.most, executor.calls), (3, 100))

    def test_wrong_words(self):
        for words in ({"want": "all"}, {"size": 0}, {"ahead": 0}, {"retries": -1}, {"size": 1.5}, {"timeout": 0}):
            with self.assertRaises(ValueError):
                identify_each([SQUARE], **words)


class Failures(ExecutorTest):
    def test_the_source_that_fails_is_found(self):
        for executor in (self.pool(), ThreadPoolExecutor(2), None):
            Path(self.log).write_text("")
            sources = squares(200, self.log, Broken(self.log, "broken"), BrokenTwice(self.log, "twice"))
            answers = list(identify_each(sources, None, executor=executor, size=32))
            wrong = {k: str(answer.outcome) for k, answer in enumerate(answers) if not answer.accepted}
            self.assertEqual(wrong, {50: "3 tries failed: RuntimeError broken is broken"})
            self.assertEqual((answers[50].outcome.kind, answers[50].net.provenance.source), ("stopped", "50"))
            self.assertEqual(self.readings("twice"), 3)

    def test_what_is_asked_wrongly_is_raised(self):
        with self.assertRaises(TypeError):
            list(identify_each([COMMON], executor=self.pool(), convention="auto", want="keys"))
        before = os.environ.get("NET_TOOL")
        os.environ["NET_TOOL"] = "/nowhere"
        try:
            with self.assertRaises(ProgramNotFound):
                list(identify_each([SQUARE] * 40, None, executor=self.pool(), size=8))
        finally:
            os.environ["NET_TOOL"] = before or PROGRAM

    def test_a_worker_that_is_killed_loses_nothing(self):
        sources = squares(300, self.log, Deadly(self.log, "deadly"))
        journal = self.folder / "journal"
        with self.assertRaises(BrokenProcessPool):
            list(identify_each(sources, None, executor=self.pool(1), size=10, journal=journal))
        before = journal.read_text().count("\n") - 1
        self.assertGreaterEqual(before, 40)
        answers = list(identify_each(sources, None, executor=self.pool(1), size=10, journal=journal))
        self.assertEqual([answer.outcome.kind for answer in answers], ["accepted"] * 300)
        read_again = [name for name in (f"w{k}" for k in range(before)) if self.readings(name) != 1]
        self.assertEqual(read_again, [])

    def test_an_executor_that_was_shut_down_stops_no_source(self):
        """What was not asked is asked by the next executor, and has no answer before."""
        for ahead in (3, 40):
            executor, journal = ThreadPoolExecutor(1), self.folder / f"journal{ahead}"
            answers = identify_each([SQUARE] * 100, None, executor=executor, size=10, ahead=ahead, journal=journal)
            next(answers)
            executor.shutdown(cancel_futures=True)
            with self.assertRaisesRegex(BrokenExecutor, "takes no more tasks"):
                list(answers)
            self.assertNotIn("stopped", journal.read_text())
            with ThreadPoolExecutor(1) as again:
                whole = list(identify_each([SQUARE] * 100, None, executor=again, size=10, ahead=ahead, journal=journal))
            self.assertEqual([answer.outcome.kind for answer in whole], ["accepted"] * 100)

    def test_a_process_of_this_machine_that_is_killed(self):
        answers = list(identify_each(squares(100, self.log, Deadly(self.log, "deadly")), None, processes=2))
        self.assertEqual([answer.outcome.kind for answer in answers], ["accepted"] * 100)


class Journals(ExecutorTest):
    def ask(self, sources, **words):
        return list(identify_each(sources, None, journal=self.folder / "journal", **words))

    def test_it_goes_on(self):
        sources = [*squares(90, self.log), COMMON, SQUARE]
        for want in ("answers", "rows", "keys"):
            shutil.rmtree(self.folder / "journal", ignore_errors=True)
            (self.folder / "journal").unlink(missing_ok=True)
            Path(self.log).write_text("")
            left = identify_each(sources, None, journal=self.folder / "journal", want=want)
            for _ in range(70):
                next(left)
            left.close()
            whole = self.ask(sources, want=want)
            self.assertEqual(whole, list(identify_each([*squares(90, str(self.folder / "other")), COMMON, SQUARE], None, want=want)))
            self.assertEqual([self.readings(f"w{k}") for k in range(64)], [1] * 64)
            content = (self.folder / "journal").read_bytes()
            self.assertEqual(self.ask(sources, want=want), whole)
            self.assertEqual((self.folder / "journal").read_bytes(), content)

    def test_damage_and_change(self):
        path = self.folder / "nets.cgd"
        path.write_bytes(SQUARE.block)
        sources = [*squares(5, self.log), path]
        whole = self.ask(sources)
        content = (self.folder / "journal").read_bytes()
        for damaged in (content[:-20], content.replace(b"w3", b"w8"), content[:content.index(b"\n") + 30]):
            (self.folder / "journal").write_bytes(damaged)
            self.assertEqual(self.ask(sources), whole)
        self.assertEqual(self.readings("w0"), 2)
        path.write_bytes(Net([(1, 2, (0, 0)), (1, 2, (1, 0)), (1, 2, (0, 1))], name="hcb").block)
        self.assertEqual(self.ask(sources)[-1].name, "hcb")

    def test_the_journal_of_another_call(self):
        self.ask([SQUARE])
        for words in ({"want": "rows"}, {"maps": False}, {"timeout": 5}):
            with self.assertRaisesRegex(NotAJournal, "no journal of this call"):
                self.ask([SQUARE], **words)
        (self.folder / "journal").write_text("something else")
        with self.assertRaises(NotAJournal):
            self.ask([SQUARE])
        self.assertEqual((self.folder / "journal").read_text(), "something else")
        (self.folder / "journal").unlink()
        at_work = identify_each([SQUARE] * 500, None, journal=self.folder / "journal")
        next(at_work)
        with self.assertRaisesRegex(NotAJournal, "at work"):
            self.ask([SQUARE])
        at_work.close()
        self.assertEqual(len(self.ask([SQUARE] * 500)), 500)


class Clusters(ExecutorTest):
    def script(self, text: str, *words: str, before: tuple[str, ...] = ()) -> list[object]:
        path = self.folder / "script.py"
        path.write_text(text)
        done = subprocess.run([*before, str(path), *words], capture_output=True, timeout=PATIENCE, cwd=self.folder,
                              env={**os.environ, "NET_TOOL": PROGRAM, "PYTHONPATH": os.pathsep.join([*sys.path, str(TESTS)]),
                                   "DASK_DISTRIBUTED__COMM__TIMEOUTS__CONNECT": f"{PATIENCE}s"})
        self.assertEqual(done.returncode, 0, done.stderr[-2000:].decode())
        return json.loads(done.stdout.splitlines()[-1])

    def test_dask(self):
        need_modules("distributed")
        found = self.script(BY_DASK, self.log, before=(sys.executable,))
        self.assertEqual(found, [300, ["sql, square lattice"]])
        self.assertEqual(self.readings("deadly"), 2)

    def test_mpi(self):
        need_modules("mpi4py")
        need_commands("mpiexec")
        mpi = ("mpiexec", "--allow-run-as-root", "--oversubscribe", "-n", "3", sys.executable, "-m", "mpi4py.futures")
        self.assertEqual(self.script(BY_MPI, str(COMMON), before=mpi), ["; ".join(one.names) for one in identify_all(COMMON)])

    def test_loky(self):
        need_modules("joblib")
        from joblib.externals.loky import ProcessPoolExecutor as Loky
        with Loky(2) as pool:
            self.assertEqual([one.names for one in identify_each(COMMON, executor=pool)],
                             [one.names for one in identify_all(COMMON)])
