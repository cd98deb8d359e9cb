"""The array of nets.sbatch on a Slurm of one machine, which is started for the test and ended by it."""

import os
import signal
import socket
import subprocess
from pathlib import Path

from odd_cells import text_of_odd_nets
from testing import PATIENCE, PROGRAM, TOP, FolderTest, command, long_test, need_commands, need_program, run, wait_until

SBATCH = TOP / "python/crystal_nets/tables/nets.sbatch"
COUNT = 10_000
CONFIGURATION = """ClusterName=test
SlurmctldHost={host}(127.0.0.1)
SlurmctldPort={ports[0]}
SlurmdPort={ports[1]}
AuthType=auth/munge
AuthInfo=socket={folder}/munge.socket
CredType=cred/munge
SlurmUser=root
SlurmdUser=root
ProctrackType=proctrack/linuxproc
TaskPlugin=task/none
SelectType=select/cons_tres
SelectTypeParameters=CR_CPU
JobAcctGatherType=jobacct_gather/none
AccountingStorageType=accounting_storage/none
MpiDefault=none
ReturnToService=2
StateSaveLocation={folder}/state
SlurmdSpoolDir={folder}/spool
SlurmctldPidFile={folder}/slurmctld.pid
SlurmdPidFile={folder}/slurmd.pid
NodeName={host} NodeAddr=127.0.0.1 CPUs={cpus} RealMemory=2000 State=UNKNOWN
PartitionName=all Nodes={host} Default=YES MaxTime=INFINITE State=UP
"""


def free_ports(count: int) -> list[int]:
    sockets = [socket.socket() for _ in range(count)]
    for one in sockets:
        one.bind(("127.0.0.1", 0))
    ports = [one.getsockname()[1] for one in sockets]
    for one in sockets:
        one.close()
    return ports


class Slurm(FolderTest):
    def setUp(self):
        super().setUp()
        need_program()
        need_commands("slurmctld", "slurmd", "sbatch", "munged", "mungekey")
        if os.geteuid() != 0:
            self.skipTest("a Slurm of its own needs root")
        for part in ("state", "spool"):
            (self.folder / part).mkdir()
        self.folder.chmod(0o755)
        self.settings = {"SLURM_CONF": str(self.folder / "slurm.conf"), "PATH": os.environ["PATH"] + ":/usr/sbin"}
        self.host = socket.gethostname().split(".")[0]
        (self.folder / "slurm.conf").write_text(CONFIGURATION.format(
            host=self.host, ports=free_ports(2), folder=self.folder, cpus=min(4, os.cpu_count())))
        self.start_slurm()

    def start_slurm(self):
        folder = self.folder
        run("mungekey", "-c", "-k", folder / "munge.key", **self.settings)
        self.start("munged", "-F", "--force", "--socket", folder / "munge.socket", "--key-file", folder / "munge.key",
                   "--pid-file", folder / "munged.pid", "--seed-file", folder / "munge.seed", "--log-file",
                   folder / "munge.log")
        self.wait_for(lambda: (folder / "munge.socket").exists())
        self.start("slurmctld", "-D", "-i")
        self.start_node()

    def start_node(self):
        self.start("slurmd", "-D", "-N", self.host)
        self.wait_for(lambda: b" idle " in run("sinfo", "-h", status=None, **self.settings).stdout)

    def kill_node(self):
        """Ends the node and its tasks at once, as a loss of power does."""
        spared = (b"slurmctld", b"munged", b"sbatch")
        for process in Path("/proc").glob("[0-9]*"):
            try:
                words = (process / "cmdline").read_bytes().split(b"\0")
                if (str(self.folder).encode() in (process / "environ").read_bytes() and int(process.name) != os.getpid()
                        and not any(os.path.basename(word) in spared for word in words[:2])):
                    os.kill(int(process.name), signal.SIGKILL)
            except OSError:
                continue

    def start(self, *words):
        log = open(self.folder / f"{words[0]}.log", "wb")
        child = subprocess.Popen([str(word) for word in words], stdout=log, stderr=log, start_new_session=True,
                                 env={**os.environ, **self.settings})
        self.addCleanup(self.end, child, log)

    @staticmethod
    def end(child, log):
        child.send_signal(signal.SIGTERM)
        try:
            child.wait(PATIENCE)
        except subprocess.TimeoutExpired:
            os.killpg(child.pid, signal.SIGKILL)
            child.wait()
        log.close()

    def wait_for(self, is_there):
        """Waits for a part of Slurm, without which nothing can be tried."""
        try:
            wait_until(is_there)
        except AssertionError:
            self.skipTest("Slurm does not start here")

    def run_array(self, status, folder="pieces", **settings):
        run("sbatch", "--wait", "--array=1-4", "--mem-per-cpu=100M", f"--chdir={self.folder}",
            SBATCH, TOP / "net_tool", self.folder / folder, status=status, seconds=900,
            **self.settings, **settings)

    def planned(self, count: int, script: str) -> tuple[Path, Path]:
        """The folder of a table of so many nets, in pieces of few, and the program that it is planned with: a script that
        does something before it goes on as net_tool, as long as the file `odd` is there."""
        source, table, program = self.folder / "nets.cgd", self.folder / "table", self.folder / "program"
        program.write_text(f"#!/bin/sh\n[ ! -e '{self.folder}/odd' ] || {script}\nexec '{PROGRAM}' \"$@\"\n")
        program.chmod(0o755)
        (self.folder / "odd").touch()
        source.write_text(text_of_odd_nets([TOP / "archives/common.archive"], count, seed=12)[0])
        run(command("table"), "--keys-alone", "--plan", source, table, NET_TOOL=str(program))
        return table, program

    @long_test
    def test_a_failed_piece_is_done_again(self):
        table, program = self.planned(COUNT, '[ "$SLURM_ARRAY_TASK_ID" != 2 ] || [ "$1" = duplicates ] || exit 7')
        self.run_array(7, "table", NET_TOOL=str(program))
        done = {file: file.stat().st_mtime_ns for file in table.glob("work/*.rows")}
        (self.folder / "odd").unlink()
        self.run_array(0, "table", NET_TOOL=str(program))
        self.assertLess(len(done), len(list(table.glob("work/*.rows"))))
        self.assertEqual({file: file.stat().st_mtime_ns for file in done}, done)

    @long_test
    def test_a_node_that_dies_in_the_middle(self):
        """The same command does what the dead node left."""
        table, program = self.planned(COUNT, "sleep 1")
        words = ("sbatch", "--wait", "--array=0-7:2", "--mem-per-cpu=100M", f"--chdir={self.folder}", SBATCH, TOP / "net_tool", table)
        first = subprocess.Popen(list(map(str, words)), stdout=subprocess.DEVNULL, stderr=subprocess.DEVNULL,
                                 env={**os.environ, **self.settings, "NET_TOOL": str(program)})
        wait_until(lambda: len(list(table.glob("work/*.rows"))) > 1)
        self.kill_node()
        done = {file: file.stat().st_mtime_ns for file in table.glob("work/*.rows")}
        run("scancel", "--full", "-u", "root", status=None, **self.settings)
        self.start_node()
        first.wait(120)
        (self.folder / "odd").unlink()
        run(*words, seconds=PATIENCE, **self.settings, NET_TOOL=str(program))
        self.assertEqual({file: file.stat().st_mtime_ns for file in done}, done)
        run(command("table"), table, "--no-names", status=None, NET_TOOL=str(program))
        self.assertEqual((table / "table.tsv").read_text().count("\n"), COUNT + 1)

    @long_test
    def test_a_table_by_parts(self):
        source = self.folder / "nets.cgd"
        source.write_text(text_of_odd_nets([TOP / "archives/common.archive"], COUNT, seed=13)[0])
        by_parts, alone = self.folder / "table", self.folder / "alone"
        run(command("table"), "--keys-alone", "--plan", source, by_parts)
        self.run_array(0, "table")
        by_slurm = {path: path.stat().st_mtime_ns for path in by_parts.glob("work/*.rows")}
        self.assertEqual(len(by_slurm), COUNT // 1_000)
        for words in ([by_parts], ["--keys-alone", source, alone]):
            done = run(command("table"), "--no-names", *words, status=None, seconds=900)
            self.assertIn(done.returncode, (0, 1), done.stderr)
        self.assertEqual({path: path.stat().st_mtime_ns for path in by_slurm}, by_slurm)
        for name in ("table.tsv", "groups.tsv", "refused.tsv"):
            self.assertEqual((by_parts / name).read_bytes(), (alone / name).read_bytes())
