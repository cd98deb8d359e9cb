"""The package of Debian: what it says, that it is the same each time, and that all of it works where it is put."""

import os
import shutil
import tempfile
from pathlib import Path

from installing import EIGHT_NAMES, INSTALL, names_told
from testing import PROGRAM, TOP, FolderTest, long_test, need_commands, need_modules, need_program, run


class Package(FolderTest):
    """The package of Debian, which is made once."""

    @classmethod
    def setUpClass(cls):
        need_program()
        need_commands("dpkg-deb", "objdump", "strip")
        folder = Path(tempfile.mkdtemp(prefix="net_tools_test."))
        cls.addClassCleanup(shutil.rmtree, folder, ignore_errors=True)
        cls.package = cls.build(folder)

    @classmethod
    def build(cls, folder: Path) -> Path:
        run(INSTALL / "make_deb.sh", "1.0", folder, PROGRAM, SOURCE_DATE_EPOCH="1700000000")
        package, = folder.glob("crystal-net-tool_1.0_*.deb")
        return package

    def test_what_the_package_says(self):
        depends = run("dpkg-deb", "-f", self.package, "Depends").stdout.decode()
        self.assertRegex(depends, r"^libc6 \(>= 2\.\d+\), python3\n$")
        content = run("dpkg-deb", "-c", self.package).stdout.decode()
        for path in ("./usr/bin/net_tool", "./usr/lib/net_tool/net_tool", "./usr/share/net_tool/archives/zeolites.archive", "./usr/bin/cif2cgd ->"):
            self.assertIn(path, content)
        self.assertNotIn(" ./root", content)
        self.assertIn("./usr/lib/python3/dist-packages/crystal_nets/py.typed", content)
        self.assertIn("./usr/lib/python3/dist-packages/crystal_nets/pictures/page.html", content)
        self.assertEqual(content.count("share/net_tool/python/crystal_nets"), 1)  # a link

    def test_the_module_and_the_commands_of_the_package_work_together(self):
        root = self.folder / "root"
        run("dpkg-deb", "-x", self.package, root)
        code = "import crystal_nets as c; print(c.find_program(), c.keys([c.Net([(1, 1, (1, 0)), (1, 1, (0, 1))])])[0].key)"
        settings = {"PYTHONPATH": str(root / "usr/lib/python3/dist-packages"), "NET_TOOL": "", "XDG_DATA_HOME": ""}
        told = run("/usr/bin/python3", "-B", "-c", code, **settings).stdout.decode()
        self.assertEqual(told, f"{root}/usr/lib/net_tool/net_tool 2 1 1 1 1 0 1 1 1 1 0\n")
        blocks = run(root / "usr/bin/net_tool", "convert", root / "usr/share/net_tool/archives/common.archive", **settings).stdout
        self.assertEqual(blocks.count(b"END\n"), (TOP / "archives/common.archive").read_bytes().count(b"\nentry "))

    def test_each_command_runs_where_the_package_is_unpacked(self):
        """By who may not install it, in a folder of any name."""
        need_modules("gemmi", "numpy", "scipy", "flask")
        root = self.folder / "a folder é"
        run("dpkg-deb", "-x", self.package, root)
        settings = {"PYTHONPATH": "", "NET_TOOL": "", "XDG_DATA_HOME": "", "HOME": str(self.folder)}
        commands = sorted((root / "usr/bin").iterdir())
        self.assertGreater(len(commands), 12)
        for command in commands:
            self.assertLessEqual(run(command, "--help", **settings).stderr.count(b"\n"), 1, command.name)
        named = run(root / "usr/bin/net_tool", "names", root / "usr/share/net_tool/examples/quartz.cif", **settings).stdout
        self.assertEqual(named, b"1\tquartz\tqtz, quartz\tkey\n")

    def test_the_same_sources_give_the_same_package(self):
        self.assertEqual(self.build(self.folder).read_bytes(), self.package.read_bytes())

    @long_test
    def test_lintian_has_no_error_and_no_warning(self):
        need_commands("lintian")
        told = run("lintian", "--allow-root", "--fail-on", "none", self.package, status=None)
        self.assertEqual(told.stdout, b"")

    @long_test
    def test_a_fresh_system(self):
        """Makes a Debian system of its own, from the network, and names nets there."""
        need_commands("debootstrap")
        if os.geteuid() != 0:
            self.skipTest("debootstrap needs root")
        system = self.folder / "system"
        made = run("debootstrap", "--variant=minbase", "--include=python3", "bookworm", system,
                   "http://deb.debian.org/debian", status=None, seconds=1200)
        if made.returncode != 0:
            self.skipTest("debootstrap did not end well; is there a network?")
        shutil.copy(self.package, system / "package.deb")
        run("chroot", system, "dpkg", "-i", "/package.deb")
        share = "/usr/share/net_tool"
        told = run("chroot", system, "net_tool", "identify", f"{share}/examples/mystery.cgd",
                   "--archive", f"{share}/archives/common.archive").stdout
        self.assertEqual(names_told(told), EIGHT_NAMES)
        self.assertIn(b"archives/common.archive", run("chroot", system, "net_tool", "archive", "list").stdout)
        run("chroot", system, "dpkg", "--purge", "crystal-net-tool")
        self.assertFalse((system / "usr/share/net_tool").exists())
