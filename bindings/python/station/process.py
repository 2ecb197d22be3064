"""Programs that end with this process, where they are, and their ports."""

from __future__ import annotations

import ctypes
import os
import pathlib
import queue
import signal
import socket
import subprocess
import threading
import warnings
from collections.abc import Callable, Sequence
from concurrent.futures import Future
from typing import Any

from .errors import StationError

# The programs of the package, and the repository, if the package is used from it.
PROGRAMS = pathlib.Path(__file__).resolve().with_name("programs")
TOP = pathlib.Path(__file__).resolve().parents[3]
PAGE = "throttle.html"

# PR_SET_PDEATHSIG of prctl: the signal that a process receives when its parent ends.
SET_PARENT_DEATH_SIGNAL = 1

Process = subprocess.Popen[bytes]


def free_port() -> int:
    """A port of this machine that nothing listens on."""
    with socket.socket() as probe:
        probe.bind(("127.0.0.1", 0))
        port: int = probe.getsockname()[1]
        return port


def find_program(path: str | os.PathLike[str] | None = None) -> str:
    """The program to start: `path`, or LBSERVER, or that of the package, or that of the repository.

    In the repository it is the released program, or is built first if the sources have changed since.
    """
    found = path or os.environ.get("LBSERVER")
    if found:
        return str(pathlib.Path(found).resolve())
    if (PROGRAMS / "lbserver").is_file():
        return str(PROGRAMS / "lbserver")
    if not (TOP / "run").is_file() or not (TOP / "crates.txt").is_file():
        raise StationError("no program: name it, or set LBSERVER to its path")
    words = [str(TOP / "run"), "--path", "lbserver"]
    return subprocess.check_output(words, stdin=subprocess.DEVNULL, text=True).rstrip("\n")


def find_page(program: str | os.PathLike[str]) -> pathlib.Path | None:
    """The page that the program serves, if it is found.

    That is the page beside the program, or that of its installation, or of this package, or of the repository.
    """
    folder = pathlib.Path(program).resolve().parent
    installed = [above / "share/station" / PAGE for above in list(folder.parents)[:2]]
    pages = folder / PAGE, *installed, PROGRAMS / PAGE, TOP / "pages" / PAGE
    return next((page for page in pages if page.is_file()), None)


def start(words: Sequence[str], **how: Any) -> Process:
    """Starts a program, as Popen does. The system ends it when this process ends, however that ends."""
    parent, library = os.getpid(), ctypes.CDLL(None)

    def end_with_parent() -> None:
        library.prctl(SET_PARENT_DEATH_SIGNAL, signal.SIGKILL, 0, 0, 0)
        if os.getppid() != parent:
            os._exit(1)

    def make() -> Process:
        with warnings.catch_warnings():
            # Python warns of a fork beside threads. What the child does before the program takes no lock.
            warnings.simplefilter("ignore", DeprecationWarning)
            return Process(words, preexec_fn=end_with_parent, **how)

    return _in_lasting_thread(make)


class _Starter(threading.Thread):
    """A thread that starts programs. It lasts as long as the process does."""

    def __init__(self) -> None:
        super().__init__(name="station", daemon=True)
        self._calls: queue.SimpleQueue[tuple[Callable[[], Process], Future[Process]]] = queue.SimpleQueue()

    def call(self, make: Callable[[], Process]) -> Process:
        made: Future[Process] = Future()
        self._calls.put((make, made))
        return made.result()

    def run(self) -> None:
        while True:
            make, made = self._calls.get()
            try:
                made.set_result(make())
            except BaseException as error:
                made.set_exception(error)


_starters: list[_Starter] = []
_lock = threading.Lock()


def _in_lasting_thread(make: Callable[[], Process]) -> Process:
    """Starts a program in a thread that lasts: for the system the thread that started a program is its parent."""
    if threading.current_thread() is threading.main_thread():
        return make()
    with _lock:
        # After a fork there is no other thread.
        if not _starters or not _starters[-1].is_alive():
            _starters.append(_Starter())
            _starters[-1].start()
        starter = _starters[-1]
    return starter.call(make)
