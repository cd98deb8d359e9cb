"""The archives of the repository and the words of its front go into the package, and nothing is left beside the sources.

PROGRAM_OF_WHEEL, if it is set, names the program: it goes into the package, which is then for its platform."""

from __future__ import annotations

import atexit
import os
import shutil
import subprocess
import tempfile
from pathlib import Path

from setuptools import Distribution, setup
from setuptools.command.build_py import build_py

TOP = Path(__file__).resolve().parents[1]
ARCHIVES, EXAMPLES, FRONT, MANUAL = TOP / "archives", TOP / "examples", TOP / "front", TOP / "docs/man"
PROGRAM = os.environ.get("PROGRAM_OF_WHEEL", "")
PLATFORM = "manylinux_2_34_x86_64"  # of the program: the C library that it needs, and its processors
VERSION_OF = 'top=$1 && . "$top/front/words.sh" && version_of_program "$2"'
work = tempfile.mkdtemp(prefix="crystal_nets.")
atexit.register(shutil.rmtree, work, ignore_errors=True)


class WithArchives(build_py):
    """Copies archives, examples and the front of net_tool into the package. Archives of RCSR, which each user makes, are
    not ours to give."""

    def run(self) -> None:
        super().run()
        package = Path(self.build_lib, "crystal_nets")
        fronts = [FRONT / "pip.sh", FRONT / "words.sh"]
        for name, files in (("archives", archives()), ("examples", sorted(EXAMPLES.glob("*.c??"))), ("front", fronts),
                            ("docs/man", [MANUAL / "net_tool.1"])):
            (package / name).mkdir(parents=True, exist_ok=True)
            for file in files:
                shutil.copyfile(file, package / name / file.name)
        version = subprocess.run(["sh", "-c", VERSION_OF, "sh", TOP, PROGRAM], stdout=subprocess.PIPE, check=True).stdout
        (package / "front/VERSION").write_bytes(version)
        for path in package.rglob("*"):  # whatever the sources have
            path.chmod(0o755 if path.is_dir() else 0o644)
        if PROGRAM:
            shutil.copyfile(PROGRAM, package / "front/net_tool")
            (package / "front/net_tool").chmod(0o755)


def archives() -> list[Path]:
    """The archives of the repository, and the files of nets without a key, each with its index."""
    files = sorted(ARCHIVES.glob("*.archive"))
    if not any(not file.name.startswith("rcsr") for file in files):
        raise SystemExit(f"{ARCHIVES} has no archive: install from the folder python of the repository")
    without_key = [file for index in sorted(ARCHIVES.glob("*.index")) for file in (index, index.with_suffix(".cgd"))]
    return [file for file in (*files, *without_key) if not file.name.startswith("rcsr")]


class OfPlatform(Distribution):
    """A package with the program is of one platform."""

    def has_ext_modules(self) -> bool:
        return bool(PROGRAM)


def words() -> dict[str, object]:
    """What setuptools is told beside pyproject.toml."""
    options: dict[str, dict[str, object]] = {"build": {"build_base": work}, "egg_info": {"egg_base": work}}
    told: dict[str, object] = {"build_py": WithArchives}
    if PROGRAM:
        from wheel.bdist_wheel import bdist_wheel

        class ForAnyPython(bdist_wheel):
            """It has no modules in C, so that any python3 of the platform takes it."""

            def get_tag(self) -> tuple[str, str, str]:
                return "py3", "none", PLATFORM

        told["bdist_wheel"] = ForAnyPython
    return {"cmdclass": told, "options": options, "distclass": OfPlatform}


setup(**words())
