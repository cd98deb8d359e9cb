"""The package: what it loads, what its docstrings say, its types, and that it can be installed elsewhere."""

import doctest
import importlib
import os
import pkgutil
import shutil
import subprocess
import sys
import tomllib
import unittest

from testing import IS_LONG, PROGRAM, PYTHON, TOP, FolderTest, command, long_test, need_modules, need_program, run

from crystal_nets import commands, options

FOLDER = TOP / "python"
LINKS = sorted(link for one in commands.commands().values() for link in one.links)
PACKAGE = FOLDER / "crystal_nets"
MODULES = sorted(path.stem for path in PACKAGE.glob("*.py") if path.stem != "__init__")
PACKAGES = sorted(path.parent.name for path in PACKAGE.glob("*/__init__.py"))


class Imports(unittest.TestCase):
    def test_texts_need_python_alone(self):
        """Neither a package beside python3 nor slow modules of its own are loaded for the texts."""
        names = sorted(path.stem for path in (PACKAGE / "texts").glob("*_*.py") if path.stem != "__init__")
        code = (f"import sys; sys.path.insert(0, {str(FOLDER)!r})\n"
                + "".join(f"import crystal_nets.texts.{name}\n" for name in names)
                + "print(*({'numpy', 'gemmi', 'scipy', 'subprocess', 'fractions'} & set(sys.modules)))")
        self.assertEqual(run(sys.executable, "-I", "-c", code).stdout, b"\n")

    def test_nets_need_python_alone(self):
        """A net from edges or a plain text is asked about without a package beside python3."""
        need_program()
        code = (f"import sys; sys.path.insert(0, {str(FOLDER)!r})\n"
                "import crystal_nets as c\n"
                "nets = [c.Net([(1, 1, (1, 0)), (1, 1, (0, 1))]),\n"
                f"        c.Net.from_cgd({str(TOP / 'examples/sql.cgd')!r})]\n"
                "assert len(c.group(nets)) == 1 and c.same(*nets) and c.identify(nets[0], archive=None).accepted\n"
                "print(*({'numpy', 'gemmi', 'scipy', 'pandas', 'networkx'} & set(sys.modules)))")
        self.assertEqual(run(sys.executable, "-I", "-c", code, NET_TOOL=PROGRAM).stdout, b"\n")

    def test_blocks_that_need_python_alone(self):
        """Key lines and blocks PERIODIC_GRAPH of other programs; of a CRYSTAL it is reported what it needs, and no block is refused
        for it."""
        graph, crystal = "PERIODIC_GRAPH\nEDGES\na a 1 0\na a 0 1\nEND\n", "CRYSTAL\nGROUP Pm-3m\nNODE 1 6 0 0 0\nEND\n"
        items = "key 2 1 1 1 0 1 1 0 1\nid sql\nend\n"
        code = ("import sys; sys.modules.update(dict.fromkeys(['numpy', 'gemmi', 'scipy']))\nsys.argv[0] = 'cgd2net'\n"
                f"sys.path.insert(0, {str(FOLDER)!r})\nimport crystal_nets.commands; crystal_nets.commands.main()")
        done = run("/usr/bin/python3", "-B", "-c", code, stdin=(graph + items).encode())
        self.assertEqual(done.stdout.count(b"PERIODIC_GRAPH\n"), 2)
        done = run("/usr/bin/python3", "-B", "-c", code, stdin=(graph + crystal + items).encode(), status=1)
        self.assertRegex(done.stderr.decode(), "\\ncgd2net: .*apt-get install python3-gemmi python3-numpy")
        self.assertNotIn(b"Traceback", done.stderr)
        code = (f"import sys; sys.modules.update(dict.fromkeys(['numpy', 'gemmi', 'scipy'])); sys.path.insert(0, {str(FOLDER)!r})\n"
                f"import crystal_nets as c\nprint(c.read({graph + items!r}))\ntry: c.read({crystal!r})\nexcept c.PackageMissing as told: print(told)")
        told = run("/usr/bin/python3", "-B", "-c", code).stdout.decode().splitlines()
        self.assertEqual(told[0].count("1 vertex, 2 edges, dimension 2"), 2)
        self.assertIn("python3-gemmi", told[1])

    def test_what_is_advised_is_what_is_loaded(self):
        """Where a package is missing, no other is named than those that are needed."""
        need_modules("gemmi", "numpy", "scipy")
        for modules, advised, by_command in (
                ("structures.conversion", options.STRUCTURE_PACKAGES, "names"), ("blocks.expansion", options.BLOCK_PACKAGES, "convert"),
                ("blocks.symbolic", options.BLOCK_PACKAGES, "archive make")):
            code = (f"import sys; sys.path.insert(0, {str(FOLDER)!r})\nimport crystal_nets.{modules}\n"
                    "print(*sorted({'gemmi', 'numpy', 'scipy', 'spglib', 'ase', 'flask'} & set(sys.modules)))")
            loaded = " ".join(f"python3-{name}" for name in run(sys.executable, "-I", "-c", code).stdout.decode().split())
            self.assertEqual((advised, commands.commands()[by_command].packages), (f"apt-get install {loaded}", loaded), modules)

    def test_each_module_is_named_in_the_map(self):
        told = (PACKAGE / "__init__.py").read_text()
        for name in MODULES + PACKAGES:
            self.assertRegex(told, rf"\b{name} ", name)

    def test_each_module_of_a_package_is_named_in_its_map(self):
        for room in PACKAGE.rglob("*/__init__.py"):
            told = room.read_text()
            for module in room.parent.glob("*.py"):
                if module != room:
                    self.assertRegex(told, rf"\b{module.stem}\b", module)

    def test_each_name_is_there(self):
        import crystal_nets
        for name in crystal_nets.__all__:
            self.assertTrue(hasattr(crystal_nets, name), name)
        self.assertEqual(set(crystal_nets.HOME_OF), set(crystal_nets.__all__))
        with self.assertRaises(AttributeError):
            crystal_nets.no_such_name


class Docstrings(unittest.TestCase):
    def test_examples_in_docstrings(self):
        need_program()
        need_modules("gemmi", "numpy", "scipy", "spglib", "flask")
        import crystal_nets
        names = {name: getattr(crystal_nets, name) for name in ("Net", "Archive")}
        tried = 0
        for found in pkgutil.walk_packages([str(FOLDER)]):
            name = found.name
            if not name.startswith("crystal_nets"):
                continue
            done = doctest.testmod(importlib.import_module(name), extraglobs=names)
            self.assertEqual(done.failed, 0, name)
            tried += done.attempted
        self.assertGreater(tried, 25)

    def test_examples_in_documents(self):
        """As a reader types them, in the folder of the repository."""
        need_program()
        need_modules("gemmi", "numpy", "scipy", "ase", "pandas")
        import crystal_nets
        folder = os.getcwd()
        self.addCleanup(os.chdir, folder)
        os.chdir(TOP)
        for document, least in (("python/README.md", 9),):
            lines = (TOP / document).read_text().splitlines()
            text = "".join(line.removeprefix("    ") + "\n" for line in lines if line.startswith("    ") or not line)
            names = {name: getattr(crystal_nets, name) for name in crystal_nets.__all__}
            runner = doctest.DocTestRunner()
            runner.run(doctest.DocTestParser().get_doctest(text, names, document, document, 0))
            self.assertEqual(runner.failures, 0, document)
            self.assertGreaterEqual(runner.tries, least)

    def test_each_public_name_has_a_docstring(self):
        import crystal_nets
        for name in crystal_nets.__all__:
            self.assertTrue(getattr(crystal_nets, name).__doc__, name)


class Types(unittest.TestCase):
    @long_test
    def test_mypy_has_no_complaint(self):
        need_modules("mypy", "numpy")
        done = subprocess.run([sys.executable, "-m", "mypy", "--cache-dir", os.devnull, "--scripts-are-modules",
                               "crystal_nets"], cwd=FOLDER, capture_output=True)
        self.assertEqual(done.returncode, 0, done.stdout.decode())


class Commands(FolderTest):
    def test_each_subcommand_by_its_words_and_by_its_former_name(self):
        import crystal_nets
        for name, one in commands.commands().items():
            script = command(name)
            self.assertEqual(run(script, "--version").stdout.decode(), f"net_tool {name} {crystal_nets.__version__}\n")
            self.assertIn(f"usage: net_tool {name}".encode(), run(script, "--help").stdout, name)
            for link in one.links:
                done = run(PYTHON, "-c", f"import sys; sys.argv[0] = {link!r}\nfrom crystal_nets.commands import main; main()", "--version",
                           PYTHONPATH=str(TOP / "python"))
                self.assertEqual(done.stdout.decode(), f"{link} {crystal_nets.__version__}\n")
                self.assertEqual(done.stderr.decode(), f"{link} is 'net_tool {name}' now\n")

    def test_the_examples_of_help_run(self):
        """Two of each subcommand, as they are typed in the folder of the repository; those of the page and of RCSR's file aside,
        and that of the pages of all archives, which takes long."""
        need_program()
        need_modules("gemmi", "numpy", "scipy", "spglib")
        (self.folder / "bin").mkdir()
        front = self.folder / "bin/net_tool"  # a clone would prove its program first
        front.write_text(f'#!/bin/sh\ncase $1 in key | identify) exec "{PROGRAM}" "$@" ;; esac\nexec "{TOP}/net_tool" "$@"\n')
        front.chmod(0o755)
        for name in ("examples", "archives"):
            (self.folder / name).symlink_to(TOP / name)
        for name in commands.commands():
            shown = run(command(name), "--help").stdout.decode().rpartition("examples: ")[2].splitlines()
            lines = [line.strip() for line in shown if line.strip()]
            self.assertEqual(len(lines), 2, name)
            for line in lines if name not in ("desk", "archive rcsr") and "~" not in lines[1] else lines[:name == "archive index"]:
                self.assertTrue(line.startswith("net_tool "), line)
                if line == "net_tool gallery pages" and not IS_LONG:
                    continue
                done = run("sh", "-c", f"cd {self.folder} && {line}", PATH=f"{self.folder}/bin:{os.environ['PATH']}", status=None,
                           XDG_DATA_HOME=str(self.folder))
                self.assertIn(done.returncode, (0, 1), line)  # 1 if some net has no key
                self.assertNotIn(b"Traceback", done.stderr, line)

    def test_words_that_are_none_are_answered_with_what_is_near(self):
        for words, told in ((["tabel"], "the nearest is table"), (["archive", "mak"], "one of make, rcsr, list, index"), ([], "there is no command ''")):
            self.assertIn(told, run(PYTHON, "-m", "crystal_nets", *words, status=2, PYTHONPATH=str(TOP / "python")).stderr.decode())

    def test_an_option_that_is_none_is_refused_beside_an_archive(self):
        said = run(command("convert"), "--no-such", TOP / "archives/common.archive", status=2).stderr
        self.assertIn(b"unrecognized arguments: --no-such", said)

    def test_numbers_that_are_none_are_told(self):
        """By what they may be, and by no name of the code."""
        need_modules("gemmi", "numpy", "scipy")
        for name, words in (("convert", "--as structure --jobs {} x"), ("table", "--jobs {} x y"), ("table", "--seconds {} x y"),
                            ("draw", "--page x --jobs {}"), ("draw", "--page x --only {}"), ("draw", "--png x --width {}"),
                            ("gallery", "--jobs {} x"), ("desk", "--port {}"), ("desk", "--seconds {}"), ("desk", "--memory {}")):
            for value in ("x", "-1", "1.5", "9" * 5000, "٣"):
                said = run(command(name), *(value if word == "{}" else word for word in words.split()), status=2).stderr.decode()
                self.assertRegex(said, r"error: argument --\w[\w-]*: ('.*' is not a whole number from \d+ to \d+|expected one argument)\n$", (name, words, value[:9]))

    def test_what_has_not_the_form_is_told_in_one_line(self):
        for name, words in (("archive list", [os.devnull + "/absent"]), ("archive list", [TOP / "README.md"]), ("draw", ["--page", "x"]), ("gallery", ["x", os.devnull + "/absent"])):
            done = run(command(name), *words, stdin=b"no report\n", status=1)
            self.assertRegex(done.stderr, rb"\Anet_tool [a-z ]+: [^\n]+\n\Z")


class Installed(FolderTest):
    def test_pip_installs_it(self):
        """Without the network; it finds its archives, its page, its types and the program, and has the commands. Nothing
        is left beside the sources."""
        need_program()
        need_modules("pip", "setuptools", "wheel", "gemmi", "numpy", "scipy", "spglib", "flask")
        source = self.folder / "repository/python"
        shutil.copytree(FOLDER, source, ignore=shutil.ignore_patterns("tests", "__pycache__"))
        (self.folder / "repository/archives").mkdir()
        for name in ("front", "examples", "docs", "TOOLCHAIN"):
            (self.folder / "repository" / name).symlink_to(TOP / name)
        added = run(PROGRAM, "add", TOP / "examples/pcu.cgd").stdout
        for name in ("small", "rcsr"):
            (self.folder / f"repository/archives/{name}.archive").write_bytes(added)
        before = sorted(source.rglob("*"))
        place = self.folder / "place"
        run(sys.executable, "-m", "pip", "install", "--quiet", "--no-deps", "--no-build-isolation", "--no-index",
            "--no-compile", "--disable-pip-version-check", "--target", place, source, seconds=1800)
        self.assertEqual(sorted(source.rglob("*")), before)
        for file in ("py.typed", "pictures/page.html", "desk/page/desk.html", "archives/small.archive"):
            self.assertTrue((place / "crystal_nets" / file).exists(), file)
        self.assertEqual(sorted(path.name for path in (place / "bin").iterdir()), sorted([*LINKS, "net_tool"]))
        code = ("import crystal_nets as c, importlib.metadata as m; print(c.__file__);"
                "print(m.version('crystal_nets') == c.__version__, 'crystal_nets' in m.metadata('crystal_nets').get_payload());"
                f"print(c.identify({str(TOP / 'examples/pcu.cgd')!r}).names)")
        there = {"NET_TOOL": PROGRAM, "PYTHONPATH": str(place), "XDG_DATA_HOME": str(self.folder)}
        told = run(sys.executable, "-B", "-c", code, **there).stdout.decode()
        self.assertEqual(told, f"{place}/crystal_nets/__init__.py\nTrue True\n('pcu',)\n")
        for name in LINKS:
            self.assertIn(f"usage: {name}".encode(), run(place / "bin" / name, "--help", **there).stdout, name)
        self.all_commands(place / "bin/net_tool", there)

    def all_commands(self, front, there):
        """The command of pip runs what is in Python and what is proved, and does not take itself for the program."""
        self.assertEqual(run(front, "names", TOP / "examples/pcu.cgd", **there).stdout, b"1\tpcu\tpcu\tkey\n")
        self.assertEqual(run(front, "key", TOP / "examples/pcu.cgd", **there).stdout, run(PROGRAM, "key", TOP / "examples/pcu.cgd").stdout)
        self.assertIn(b"Of each net its key", run(front, "help", "key", **there).stdout)
        self.assertIn(b"usage: net_tool names", run(front, "help", "names", **there).stdout)
        self.assertIn(b"there is no command kye", run(front, "kye", status=2, **there).stderr)
        alone = {**there, "NET_TOOL": "", "PATH": f"{front.parent}:/usr/bin:/bin"}
        self.assertIn(b"net_tool is not there", run(front, "key", TOP / "examples/pcu.cgd", status=127, **alone).stderr)
        self.assertIn(b"usage: net_tool COMMAND", run(front, "help", **alone).stdout)

    @long_test
    def test_the_recipe_of_the_readme(self):
        """In a fresh environment beside the packages of Debian, quartz has its name."""
        need_program()
        need_modules("venv", "setuptools", "wheel", "gemmi", "numpy", "scipy")
        place = self.folder / "place"
        run(sys.executable, "-m", "venv", "--system-site-packages", place, seconds=1800)
        run(place / "bin/pip", "install", "--no-build-isolation", "--no-index", FOLDER, seconds=1800)
        self.assertFalse([path for path in FOLDER.iterdir() if path.name == "build" or path.suffix == ".egg-info"])
        code = f"import crystal_nets; print(crystal_nets.identify({str(TOP / 'examples/quartz.cif')!r}).names)"
        told = run(place / "bin/python", "-c", code, seconds=1800, PYTHONPATH="").stdout.decode()
        self.assertEqual(told, "('qtz, quartz',)\n")

    def test_a_command_is_one_by_its_name(self):
        code = "import sys; sys.argv[0] = '/bin/nets'; from crystal_nets.commands import main; main()"
        done = run(sys.executable, "-c", code, status=2, PYTHONPATH=str(FOLDER))
        self.assertEqual(done.stderr, b"net_tool: there is no command ''\n")

    def test_each_command_is_installed(self):
        with open(FOLDER / "pyproject.toml", "rb") as file:
            scripts = tomllib.load(file)["project"]["scripts"]
        self.assertEqual(scripts, dict.fromkeys(["net_tool", *LINKS], "crystal_nets.commands:main"))

    def test_the_program_is_told_how_to_be_built(self):
        code = ("import sys; sys.path.insert(0, sys.argv[1])\nimport crystal_nets as c\n"
                "try: c.keys([c.Net([(1, 1, (1, 0)), (1, 1, (0, 1))])])\n"
                "except c.ProgramNotFound as fault: print(fault)")
        told = run(sys.executable, "-B", "-c", code, FOLDER, NET_TOOL=str(self.folder / "absent")).stdout.decode()
        self.assertIn("./net_tool --prove", told)
        self.assertIn("install.sh", told)
