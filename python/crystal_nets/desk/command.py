"""The words of the command line, the beginning of the server and its clean end."""

from __future__ import annotations

import argparse
import os
import signal
import socket
import stat
import sys
import tempfile
import threading
import webbrowser
from pathlib import Path

from ..command_line import called, parser_of, whole_number
from ..errors import lacking
from .worker import Limits, Workers

DESCRIPTION = """A page on your own machine that tells which nets structures have: drop CIF, .cgd or .arc files on it.
Nothing is sent anywhere: the server listens on this machine alone, and the page loads nothing from elsewhere."""
EPILOG = """Ctrl-C ends it. exit status: 0 it was ended; 1 it could not begin; 2 usage.
examples: net_tool desk
          net_tool desk examples/quartz.cif"""
PACKAGES = "apt-get install python3-flask python3-gemmi python3-numpy python3-scipy python3-spglib"
FAILED = 1
ENDS = (signal.SIGINT, signal.SIGTERM, signal.SIGHUP)  # end the server


def words() -> argparse.Namespace:
    parser = parser_of(DESCRIPTION, EPILOG, is_laid_out=True)
    parser.add_argument("files", nargs="*", metavar="FILE", type=Path, help="files that the page shows at once")
    parser.add_argument("--port", type=whole_number(1, 65_535), default=0, metavar="N", help="listen there; at a free port where none is given")
    parser.add_argument("--no-browser", action="store_true", help="print the address alone")
    parser.add_argument("--seconds", type=whole_number(1, 86_400), default=Limits.seconds, metavar="N",
                        help="of work on one file or net, at most (%(default)s)")
    parser.add_argument("--memory", type=whole_number(256, 1 << 26), default=Limits.memory >> 20, metavar="MB",
                        help="of one file or net, at most (%(default)s)")
    return parser.parse_args()


def main() -> int:
    asked = words()
    ending = Ending()
    for name in ENDS:
        if signal.getsignal(name) != signal.SIG_IGN:  # as by nohup
            signal.signal(name, ending)
    try:
        from .service import Service
    except ModuleNotFoundError as missing:
        return failed(lacking(missing, PACKAGES))
    fault = fault_of_files(asked.files) or fault_of_program()
    if fault:
        return failed(fault)
    try:
        listener = listening(asked.port)
    except OSError as taken:
        return failed(f"port {asked.port} cannot be had: {taken.strerror}; give another, or none at all")
    workers = Workers(Limits(asked.seconds, asked.memory << 20))
    workers.start()
    with (Service(listener, workers, [path.absolute() for path in asked.files]) as service,
          tempfile.TemporaryDirectory(prefix="net_tool_desk.", ignore_cleanup_errors=True) as folder):
        try:
            print(f"{called()}: {service.address}\n{called()}: Ctrl-C ends it", flush=True)
            if not asked.no_browser:
                path = write_leading_file(folder, service.address)
                threading.Thread(target=open_browser, args=(path,), daemon=True).start()
            service.serve(lambda: ending.has_come)
        except KeyboardInterrupt:  # once is enough: the rest ends what runs
            for name in ENDS:
                signal.signal(name, signal.SIG_IGN)
    return 0


class Ending:
    """What is done where a signal comes that ends the server. That it came is kept, since Python drops an interrupt that
    comes while it imports or lets go of something."""

    def __init__(self) -> None:
        self.has_come = False

    def __call__(self, *_: object) -> None:
        self.has_come = True
        raise KeyboardInterrupt


def failed(reason: str) -> int:
    print(f"{called()}: {reason}", file=sys.stderr)
    return FAILED


def fault_of_files(files: list[Path]) -> str:
    """Why a file of the command line cannot be shown; empty where all can."""
    for path in files:
        if path.is_dir():
            return f"{path} is a folder; name files, or drop them on the page"
        if not os.access(path, os.R_OK):
            return f"{path} cannot be read"
        if not stat.S_ISREG(path.stat().st_mode):
            return f"{path} is no file, but a pipe or a device"
    return ""


def fault_of_program() -> str:
    from ..errors import ProgramNotFound
    from ..program import find_program
    try:
        find_program()
    except ProgramNotFound as reason:
        return " ".join(str(reason).split())
    return ""


def listening(wanted: int) -> socket.socket:
    """A socket that listens on this machine alone."""
    listener = socket.socket(socket.AF_INET, socket.SOCK_STREAM)
    try:
        listener.setsockopt(socket.SOL_SOCKET, socket.SO_REUSEADDR, 1)
        listener.bind(("127.0.0.1", wanted))
        listener.listen(128)
    except OSError:
        listener.close()
        raise
    return listener


def write_leading_file(folder: str, address: str) -> Path:
    """A file of mode 0600 that leads a browser to the page: so the command line of the browser, which all users of the
    machine may read, has the name of the file and not the token."""
    path = Path(folder, "net_desk.html")
    with open(os.open(path, os.O_WRONLY | os.O_CREAT | os.O_EXCL, 0o600), "w", encoding="ascii") as file:
        file.write(f'<!doctype html><meta charset="utf-8"><meta name="referrer" content="no-referrer">'
                   f'<meta http-equiv="refresh" content="0; url={address}"><title>net_tool desk</title>'
                   f'<p><a href="{address}">net_tool desk</a></p>\n')
    return path


def open_browser(path: Path) -> None:
    """Opens the page by the file that leads there; or says that no browser was found."""
    has_screen = os.environ.get("DISPLAY") or os.environ.get("WAYLAND_DISPLAY") or os.environ.get("BROWSER")
    try:
        is_open = bool(has_screen) and webbrowser.open(path.as_uri())
    except (webbrowser.Error, OSError):
        is_open = False
    if not is_open:
        print(f"{called()}: no browser was found; open the address above in one on this machine", file=sys.stderr, flush=True)
