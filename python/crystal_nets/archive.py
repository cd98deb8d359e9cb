"""Archives of named nets, held in memory."""

from __future__ import annotations

import os
import tempfile
import threading
from collections.abc import Iterable, Iterator
from functools import cache, cached_property
from importlib.resources import files
from pathlib import Path

from .errors import NotAnArchive, NotANet, ProgramFailed
from .files import checked_path, content_of_file, number_above_standard, write_whole
from .limits import bounded
from .net import Net
from .program import run
from .symbols import symbol_of
from .texts.archive_text import Entry, entries_of
from .texts.graph_text import written_name
from .texts.net_text import MOST_BLOCKS, NoReport
from .wide.archive import SUFFIX, WideArchive

HERE = Path(__file__).resolve().parent
SHARED = (  # the archives that pip puts into the package, or those beside it in the repository, in an installation and in a
    # Debian package; and elsewhere
    Path(str(files("crystal_nets") / "archives")),
    (HERE / "../../archives").resolve(), (HERE / "../../../../share/net_tool/archives").resolve(),
    Path("/usr/local/share/net_tool/archives"), Path("/usr/share/net_tool/archives"))
BAD_ARCHIVE, ADD_REFUSED = 5, 9  # statuses


class Archive:
    """Named nets with their keys. It is read once, and looked up in memory. Beside them it may have nets without a key,
    which are told by verified maps.

    Nothing in a file of an archive is trusted: while it is loaded, the program computes each key anew from the edges
    of its entry, and an archive in which one differs is refused.

    >>> pcu = Net([(1, 1, (1, 0, 0)), (1, 1, (0, 1, 0)), (1, 1, (0, 0, 1))], name="pcu")
    >>> archive = Archive.of([pcu])
    >>> len(archive), "pcu" in archive, archive["pcu"]
    (1, True, <Net pcu: 1 vertex, 3 edges, dimension 3>)"""

    def __init__(self, entries: Iterable[tuple[str, str, Net]], wide: Iterable[WideArchive] = ()) -> None:
        """Of names, keys and nets, and of archives of nets without a key. That the keys are those of the nets is for the
        caller to know: `load` and `of` have them computed."""
        self._wide = tuple(wide)
        self._entries: dict[tuple[str, str], Net] = {}
        self._nets: dict[str, Net] = {}
        self._of_symbol: dict[str, Net] = {}
        names: dict[str, list[str]] = {}
        for name, key, net in entries:
            if (name, key) not in self._entries:
                self._entries[name, key] = net
                self._nets.setdefault(name, net)
                self._of_symbol.setdefault(symbol_of(name), net)
                names.setdefault(key, []).append(name)
        self._of_symbol.pop("", None)
        self._names = {key: tuple(same) for key, same in names.items()}

    @classmethod
    @bounded
    def load(cls, *paths: str | os.PathLike[str], timeout: float | None = None) -> Archive:
        """All archives of files and folders as one; of a folder the files `*.archive` in it, and `*.index` of nets without
        a key. NotAnArchive where one is none, or its keys are not those of its edges; OSError where it cannot be read;
        ProgramTimedOut after so many seconds."""
        files = files_of(paths)
        entries: list[tuple[str, str, Net]] = []
        for path in files:
            if path.suffix != SUFFIX:
                entries += _checked_entries(path)
        return cls(entries, [WideArchive(path) for path in files if path.suffix == SUFFIX])

    @classmethod
    @bounded
    def default(cls, *, timeout: float | None = None) -> Archive:
        """The archives beside this package, and those of the user in `net_tool/archives` under XDG_DATA_HOME, which is
        ~/.local/share where it is not set. They are loaded once."""
        with _loading:  # threads that ask at the same time wait for the one that loads them
            return _loaded(tuple(map(str, _that_are_files(default_files()))))

    @classmethod
    @bounded
    def of(cls, nets: Iterable[Net], *, timeout: float | None = None) -> Archive:
        """An archive of nets under their names. NotANet where one has no name, or no key; ProgramTimedOut after so many
        seconds."""
        from .asking import keys
        entries = []
        for answer in keys(list(nets), maps=False):
            if not answer.accepted or not answer.name:
                reason = answer.outcome if answer.name else "it has no name"
                raise NotANet(f"{answer.net!r} cannot be in an archive: {reason}")
            entries.append((answer.name, answer.key, answer.net))
        return cls(entries)

    @classmethod
    def joined(cls, archives: Iterable[Archive]) -> Archive:
        """Several archives as one, in their order."""
        given = list(archives)
        wide = {part.path: part for archive in given for part in archive._wide}
        return cls((entry for archive in given for entry in archive._items()), wide.values())

    def _items(self) -> Iterator[tuple[str, str, Net]]:
        return ((name, key, net) for (name, key), net in self._entries.items())

    def __or__(self, other: Archive) -> Archive:
        """The nets of both, those of the first one before."""
        return Archive.joined((self, other)) if isinstance(other, Archive) else NotImplemented

    def save(self, path: str | os.PathLike[str]) -> None:
        """Writes it as a file of archives, which the program makes of the nets. NotAnArchive where a file cannot have
        them: more than 4,096, a name of two different nets, one that no entry may have, or nets without a key."""
        if self._wide:
            raise NotAnArchive(f"no file of an archive has nets without a key, and here are {len(self.without_key):,}: "
                               "'net_tool archive index' writes those")
        blocks = b"".join(_named_block(name, net) for name, _, net in self._items())
        if not 0 < len(self._entries) <= MOST_BLOCKS:
            raise NotAnArchive(f"a file of an archive has 1 to {MOST_BLOCKS:,} nets, and these are {len(self._entries):,}")
        _, told = run("add", blocks, "-", allowed=(0, 1, ADD_REFUSED))
        if not told.startswith(b"net_archive "):
            raise NotAnArchive(f"it cannot be saved: {told.splitlines()[0].decode(errors='replace')}")
        write_whole(checked_path(path, NotAnArchive), told)

    def names(self, key: str) -> tuple[str, ...]:
        """The names of exactly the entries with this key, in the order of the archives."""
        return self._names.get(key, ())

    def wide_blocks(self, index: str) -> Iterator[bytes]:
        """The blocks of the nets without a key that may be a net with this index."""
        return (block for archive in self._wide for block in archive.blocks(index))

    @property
    def wide_indices(self) -> tuple[str, ...]:
        """The paths of the indices of its nets without a key."""
        return tuple(str(archive.path.with_suffix(SUFFIX)) for archive in self._wide)

    @cached_property
    def without_key(self) -> tuple[str, ...]:
        """The names of the nets without a key."""
        return tuple(dict.fromkeys(name for archive in self._wide for name in archive.names()))

    @cached_property
    def _wide_of_symbol(self) -> dict[str, str]:
        """The first name of a net without a key by its symbol."""
        return {symbol: name for name in reversed(self.without_key) if (symbol := symbol_of(name))}

    def __getitem__(self, name: str) -> Net:
        """The net of this name, or of this symbol, as `dia` of `dia, diamond`; of the first archive that has it."""
        if name in self._nets:
            return self._nets[name]
        if name not in self.without_key:
            return self._of_symbol[name] if name in self._of_symbol else self[self._wide_of_symbol[name]]
        return next(net for archive in self._wide if (net := archive.net(name)))

    def get(self, name: str, default: Net | None = None) -> Net | None:
        """The net of this name or symbol, or the default if there is none."""
        return self[name] if name in self else default

    def __contains__(self, name: object) -> bool:
        return any(name in names for names in (self._nets, self.without_key, self._of_symbol, self._wide_of_symbol))

    def __iter__(self) -> Iterator[str]:
        """The names of the nets with a key, and then the others."""
        return iter(dict.fromkeys([*self._nets, *self.without_key]))

    def __len__(self) -> int:
        return len(list(iter(self)))

    def __repr__(self) -> str:
        others = f", {len(self.without_key)} without a key" if self._wide else ""
        return f"<Archive: {len(self._nets)} names of {len(self._names)} nets{others}>"


_loading = threading.Lock()


def _new_lock() -> None:
    """A lock that nobody has, for a process that was forked while a thread of its parent loaded the archives."""
    global _loading
    _loading = threading.Lock()


os.register_at_fork(after_in_child=_new_lock)


@cache
def _loaded(paths: tuple[str, ...]) -> Archive:
    return Archive.load(*paths)


def files_of(paths: Iterable[str | os.PathLike[str]]) -> list[Path]:
    """The archives of files and folders. NotAnArchive where a folder has none."""
    files: list[Path] = []
    for path in (checked_path(path, NotAnArchive) for path in paths):
        found = _that_are_files(_archives_in(path)) if path.is_dir() else [path]
        if not found:
            raise NotAnArchive(f"{path} has no archive")
        files += found
    return files


def _that_are_files(found: list[Path]) -> list[Path]:
    """The archives of folders. OSError where one is a pipe, which is not waited for, or cannot be read."""
    for path in found:
        content_of_file(path, 0)
    return found


def default_files() -> list[Path]:
    """The archives that look-up goes over where none is named."""
    shared = next((folder for folder in SHARED if folder.is_dir()), SHARED[1])
    return [file for folder in (shared, home_of_user()) for file in _archives_in(folder)]


def home_of_user() -> Path:
    """The folder of the archives of the user."""
    home = os.environ.get("XDG_DATA_HOME") or os.path.join(os.path.expanduser("~"), ".local/share")
    return Path(home, "net_tool/archives")


def _archives_in(folder: Path) -> list[Path]:
    """The archives of a folder, those of nets without a key last."""
    return [file for ending in (".archive", SUFFIX) for file in sorted(folder.glob("*" + ending))]


def _checked_entries(path: Path) -> list[tuple[str, str, Net]]:
    """The entries of a file, whose keys the program has computed anew."""
    content = path.read_bytes()
    try:
        entries = list(entries_of(content.splitlines(keepends=True), str(path)))
    except NoReport as reason:
        raise NotAnArchive(str(reason)) from None
    _check(content, path)
    return [(_text(entry.name), entry.key.decode(), _net_of(entry)) for entry in entries]


def _check(content: bytes, path: Path) -> None:
    """Has the program read the very bytes that were read here. They have no name, so that nothing is left of them where
    this process is ended."""
    with tempfile.TemporaryFile() as copy:
        copy.write(content)
        copy.flush()
        number = number_above_standard(copy)
        try:
            status, told = run("duplicates", b"", "--archive", f"/dev/fd/{number}", allowed=(0, BAD_ARCHIVE), files=(number,))
        finally:
            os.close(number)
    if status == BAD_ARCHIVE:
        raise NotAnArchive(f"{path}: {told.splitlines()[0].decode(errors='replace')}")
    if not told.startswith(b"entries "):
        raise ProgramFailed(f"net_tool duplicates gave no report on {path}", status)


def _named_block(name: str, net: Net) -> bytes:
    """The block of a net under the name of its entry."""
    if written_name(name) != name:
        raise NotAnArchive(f"{name!r:.80} is no name that an entry of a file may have")
    return Net.of_graph(net.graph.named(name)).block


def _text(name: bytes) -> str:
    return name.decode(errors="surrogateescape")


def _net_of(entry: Entry) -> Net:
    return Net.of_graph(entry.graph)
