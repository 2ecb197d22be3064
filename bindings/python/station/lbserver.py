"""`lbserver` in a test: starts the program on a free port, reads its log, and has clients of it.

    with Server(lose=20, roster="examples/layout.toml") as server:
        server.power_on()
        loco = server.loco(3)
        loco.take()
        loco.speed(63)
        server.wait_for_node("shunter", step=63)

It needs no library. The log goes to a file, so that its reader never holds it up. `station.pytest_plugin` has a fixture.
"""

from __future__ import annotations

import dataclasses
import inspect
import os
import pathlib
import re
import subprocess
import tempfile
import time
import tomllib
from collections.abc import Callable, Mapping
from typing import Any, TypeVar, Union

from .client import LAST_SENSOR, MOST_TURNS, Client, connect
from .decoders import HasNodes, Motion, Roster, State, in_range, read_roster, roster_text
from .errors import ClosedError, StationError
from .log import Conflict, Derailment, Log, kinds_in, option, sensors_at_start, without_time
from .messages import Reply, SensorReport
from .process import Process, find_page, find_program, free_port, start
from .programmer import Programmer
from .throttle import Throttle
from .trains import Train

__all__ = [
    "Client",
    "Condition",
    "Conflict",
    "Derailment",
    "MOST_TURNS",
    "Plan",
    "Server",
    "connect",
    "find_page",
    "find_program",
    "free_port",
]

# A port that another program took meanwhile ends the server with this status; then another port is tried.
NETWORK_STATUS = 4
ATTEMPTS = 10
POLL_SECONDS = 0.005

Condition = Union[str, "re.Pattern[str]", Callable[[], Any]]
Plan = Union[str, "os.PathLike[str]"]
Lose = Union[int, Mapping[Union[str, None], int]]
MOST_LOST = 99


def lose_words(lose: Lose | None) -> list[str]:
    """The options for these losses: a number for all decoders, or one for each name, and for the others by None."""
    shares = {} if lose is None else lose if isinstance(lose, Mapping) else {None: lose}
    words = []
    for name, share in shares.items():
        number = in_range(share, 0, MOST_LOST, "lose")
        words += ["--lose", str(number) if name is None else f"{name}={number}"]
    return words


class Server(Throttle, HasNodes):
    """The program `lbserver` on a free port, until the end of a `with`, or of this process.

    `options` are further options of the program. `roster` is a path, the text of a roster (a str with a line feed), or
    a list of decoders; `plan` is a path, or the text of a track plan. `lose` is how many of 100 packets each decoder
    misses, 0 to 99, or a dict of these numbers by names, in which that of all others has the key None. `port` 0 lets the program choose, which programs
    that know no port 0 refuse. With `page` it serves the page, at `page_port`. `cwd` is the folder that it runs in, and
    `seconds` how long each wait may last.

    It is a throttle, over a client that it connects when the first message is sent. `client` connects more. When a call
    of the server's own client returns, the log has what it did. With the option `--quiet` there is no log.
    """

    host = "127.0.0.1"

    def __init__(
        self,
        *options: str,
        roster: Roster | None = None,
        plan: Plan | None = None,
        lose: Lose | None = None,
        program: str | os.PathLike[str] | None = None,
        port: int | None = None,
        page: bool = False,
        cwd: str | os.PathLike[str] | None = None,
        seconds: float = 20,
    ) -> None:
        self.options, self.seconds = list(options), seconds
        self.port = port if port is not None else free_port()
        self.page_port: int | None = None
        self.process: Process | None = None
        self._program, self._roster, self._plan, self._cwd, self._page = program, roster, plan, cwd, page
        self._lose = lose_words(lose)
        self._chosen_port = port
        self._client: Client | None = None
        self._folder: tempfile.TemporaryDirectory[str] | None = None
        self._log = Log(pathlib.Path())
        self._kinds: dict[str, type[State]] | None = None
        self._at_start: set[int] = set()

    def __enter__(self: SomeServer) -> SomeServer:
        if self.is_running():
            raise StationError("the server is running")
        self._folder = tempfile.TemporaryDirectory()
        self.log = pathlib.Path(self._folder.name, "log")
        self.faults = pathlib.Path(self._folder.name, "faults")
        try:
            words = [*self._roster_words(self._folder.name), *self._plan_words(self._folder.name), *self._lose]
            self._start_on_free_port(find_program(self._program), words)
            self._note_layout([*words, *self.options])
        except BaseException:
            self.close()
            raise
        return self

    def __exit__(self, *_: object) -> None:
        self.close()

    def __repr__(self) -> str:
        return f"<Server on {self.host}:{self.port}, {'running' if self.is_running() else 'not running'}>"

    def close(self) -> None:
        """Ends the program. It may be called again, and a new `with` starts the program on the same port."""
        if self._client is not None:
            self._client.close()
            self._client = None
        if self.process is not None:
            self.process.kill()
            self.process.wait()
            if self.process.stdout is not None:
                self.process.stdout.close()
        if self._folder is not None:
            self.printed()
            self._folder.cleanup()
            self._folder = None

    def is_running(self) -> bool:
        """Whether the program runs."""
        return self.process is not None and self.process.poll() is None

    def client(self) -> Client:
        """Connects one more client. Close it, or use it in a `with`. After its calls `sync` waits for the log."""
        return Client(self.host, self.port, self.seconds)

    def programmer(self) -> Programmer:
        """The programming track, over one more client. The server runs with the option `--programmer FILE`."""
        return Programmer(self.client(), option(self.options, "--turns") is not None)

    def send(self, *body: int) -> Reply | None:
        """Sends a message by the server's own client. Returns the reply, or None if there is none.

        Then the log has it, and the turns that follow it (`--turns`) have passed.
        """
        reply = self._own_client().send(*body)
        self.sync()
        return reply

    def turns(self, count: int) -> None:
        """Has the track run so many turns now, and waits for them. The server runs with `--turns`, which may be 0."""
        self._own_client().turns(count)
        self.sync()

    def place(self, train: str, block: str, front: int, facing: str | None = None) -> None:
        """Puts a train on the track, as `Client.place` does. The server runs with a plan."""
        self._own_client().place(train, block, front, facing)
        self.sync()

    def fail_sensor(self, number: int, on: bool = True) -> None:
        """Lets a sensor fail, as `Client.fail_sensor` does. The server runs with a plan."""
        self._own_client().fail_sensor(number, on)
        self.sync()

    def fail_turnout(self, switch: int) -> None:
        """Lets a turnout fail, as `Client.fail_turnout` does. The server runs with a plan."""
        self._own_client().fail_turnout(switch)

    def end_failures(self) -> None:
        """Ends all failures, as `Client.end_failures` does."""
        self._own_client().end_failures()
        self.sync()

    def sync(self) -> None:
        """Waits until the log has all that happened before this call, whoever sent it."""
        self._own_client().sync()

    def _own_client(self) -> Client:
        if not self.is_running():
            raise ClosedError(f"the server is not running. {self._fault_text()}")
        if self._client is None:
            self._client = self.client()
        return self._client

    def printed(self, since: int = 0) -> list[str]:
        """All whole lines of the log so far, or those from a mark on."""
        lines = self._log.read()
        return lines[since:] if since else lines

    def mark(self) -> int:
        """The end of the log so far: what is waited for `since` this mark comes after it."""
        return len(self.printed())

    @property
    def nodes(self) -> dict[str, State]:
        """What the log said last of each decoder, by its name. One that has not changed since the start is missing."""
        self.printed()
        return {name: state for name, (_, state) in self._log.nodes.items()}

    def sensor_reports(self, since: int = 0) -> list[SensorReport]:
        """The reports of sensors so far, in order, or those since a mark."""
        return [report for number, report in self._whole_log(since).reports if number >= since]

    def trains(self) -> dict[str, Train]:
        """Where the trains of the plan are now, as `Client.trains` tells."""
        return self._own_client().trains()

    def turnouts(self) -> dict[int, bool | None]:
        """Whether the turnouts of the plan lie thrown now, as `Client.turnouts` tells."""
        return self._own_client().turnouts()

    def occupied(self) -> set[int]:
        """The sensors that are high: those of the plan's trains at the start, changed by each report since."""
        return self._whole_log(0).occupied(self._at_start)

    def conflicts(self, since: int = 0) -> list[Conflict]:
        """The conflicts so far, two trains in a block, or those since a mark."""
        return [conflict for number, conflict in self._whole_log(since).conflicts if number >= since]

    def derailments(self, since: int = 0) -> list[Derailment]:
        """The derailments so far, or those since a mark."""
        return [derailment for number, derailment in self._whole_log(since).derailments if number >= since]

    def _whole_log(self, since: int) -> Log:
        """The log. Raises StationError if lines were left out of it, as `log: 2 lines left out` says, from a mark on."""
        self.printed()
        for number, line in self._log.gaps:
            if number >= since:
                raise StationError(f"the log is not whole: {line}")
        return self._log

    def until(self, is_so: Callable[[], Any], seconds: float | None = None) -> Any:
        """Waits until `is_so()` is true, or the program has ended, or the time is over. Returns its last value."""
        end = time.monotonic() + (self.seconds if seconds is None else seconds)
        while not (found := is_so()):
            if not self.is_running() or time.monotonic() > end:
                return is_so()
            time.sleep(POLL_SECONDS)
        return found

    def wait_for(self, what: Condition, seconds: float | None = None, since: int = 0) -> Any:
        """Waits for a whole line of the log, a line in which a pattern is found, or a function that returns true.

        Lines are searched as printed, and without the times of `--times`.
        Lines from before the call count too, unless they are before the mark `since`. Returns the line, the match or the
        value. Raises TimeoutError, with the end of the log, if the time is over or the program has ended.
        """
        if isinstance(what, (str, re.Pattern)):
            wanted = what
            return self._found(lambda: self._find(wanted, since), seconds, lambda: _words_of(wanted))
        return self._found(what, seconds, lambda: _words_of(what))

    def wait_for_node(self, name: str, seconds: float | None = None, since: int = 0, **wanted: Any) -> State:
        """Waits until the decoder has these values, as in `wait_for_node("shunter", step=63, forward=True)`.

        `since` a mark only what the log says of it after the mark counts. Raises StationError for a decoder that the
        roster does not have, TypeError for a value that it has not, and TimeoutError as `wait_for`.
        """
        self._check_node(name, list(wanted))

        def is_so() -> State | None:
            self.printed()
            state = self._log.state(name, since)
            has = state is not None and all(getattr(state, field, None) == value for field, value in wanted.items())
            return state if has else None

        def words() -> str:
            values = " and ".join(f"{field} {value!r}" for field, value in wanted.items())
            state = self._log.state(name, 0)
            last = "it has not changed since the start" if state is None else f"its last state is {state}"
            return f"decoder {name} {'with ' + values if values else 'to change'}; {last}"

        found: State = self._found(is_so, seconds, words)
        return found

    def wait_for_sensor(self, number: int, high: bool = True, seconds: float | None = None, since: int | None = None) -> None:
        """Waits until a sensor, 1 to 4096, is high: occupied; or low, or reports so from now on. With a mark `since` it has to report so
        after the mark."""
        wanted = SensorReport(in_range(number, 1, LAST_SENSOR, "a sensor"), high)
        begun = self.mark() if since is None else since

        def is_so() -> bool:
            is_last = since is None and (number in self.occupied()) == high
            return is_last or wanted in self.sensor_reports(begun)

        def words() -> str:
            reports = self.sensor_reports()
            last = f"the last report was {reports[-1]}" if reports else "no sensor has reported"
            now = ", ".join(map(str, sorted(self.occupied()))) or "none"
            return f"{wanted}; high are {now}; {last}"

        self._found(is_so, seconds, words)

    def _found(self, is_so: Callable[[], Any], seconds: float | None, words: Callable[[], str]) -> Any:
        """Waits until this is true. Returns its value. The words say what is waited for."""
        found = self.until(is_so, seconds)
        if not found:
            state = "it runs" if self.is_running() else f"it has ended. {self._fault_text()}"
            raise TimeoutError(f"waited in vain for {words()}; {state}; its log ends {self.printed()[-5:]}")
        return found

    def _find(self, what: str | re.Pattern[str], since: int) -> Any:
        """The line, or the first match of a pattern, from a mark on, or None: in lines as printed, or without their times."""
        lines = self.printed(since)
        if isinstance(what, str):
            return next((line for line in lines if what in (line, without_time(line))), None)
        return next((found for line in lines if (found := what.search(line) or what.search(without_time(line)))), None)

    def _check_node(self, name: str, values: list[str]) -> None:
        """Raises an error if the roster does not have the decoder, or the decoder not these values."""
        if self._kinds is None:
            return
        if name not in self._kinds:
            raise StationError(f"there is no decoder {name}; the roster has {', '.join(self._kinds) or 'none'}")
        kind = self._kinds[name]
        known = [field.name for field in dataclasses.fields(kind)] + (["last_step"] if kind is Motion else [])
        for value in values:
            if value not in known:
                raise TypeError(f"decoder {name} has no {value}, but {', '.join(known)}")

    def _roster_words(self, folder: str) -> list[str]:
        if self._roster is None:
            return []
        found = read_roster(self._roster)
        file = pathlib.Path(folder, "roster.toml")
        file.write_text(found if isinstance(found, str) else roster_text(found), encoding="utf-8")
        return ["--roster", str(file)]

    def _plan_words(self, folder: str) -> list[str]:
        if self._plan is None:
            return []
        if not isinstance(self._plan, str) or "\n" not in self._plan:
            return ["--plan", str(pathlib.Path(self._plan).resolve())]
        file = pathlib.Path(folder, "plan.toml")
        file.write_text(self._plan, encoding="utf-8")
        return ["--plan", str(file)]

    def _note_layout(self, words: list[str]) -> None:
        """Notes the decoders of the roster, and the sensors that are occupied at the start, which the log does not say."""
        roster, plan = self._toml(option(words, "--roster")), self._toml(option(words, "--plan"))
        self._kinds = None if roster is None else kinds_in(roster)
        self._at_start = sensors_at_start(plan or {})

    def _toml(self, path: str | None) -> Mapping[str, Any] | None:
        """What a file of the program has: nothing without one, and None if it cannot be read again."""
        if path is None:
            return {}
        try:
            return tomllib.loads(pathlib.Path(self._cwd or "", path).read_text(encoding="utf-8"))
        except (OSError, ValueError):
            return None

    def _page_words(self, program: str) -> list[str]:
        if self.page_port is None:
            return []
        words, file = ["--page", str(self.page_port)], find_page(program)
        # The program looks for the page below the folder that it runs in.
        if file and not any(option.startswith("--page-file") for option in self.options):
            words += ["--page-file", str(file)]
        return words

    def _start_on_free_port(self, program: str, words: list[str]) -> None:
        for _ in range(ATTEMPTS):
            self.page_port = free_port() if self._page else None
            self._start([program, "--port", str(self.port), *self._page_words(program), *words, *self.options])
            if self._listens():
                return
            if self._chosen_port is not None or self._ended_with() != NETWORK_STATUS:
                break
            self.port = free_port()
        raise ConnectionError(f"the server does not listen. {self._fault_text()}")

    def _start(self, words: list[str]) -> None:
        self._log = Log(self.log)
        with open(self.log, "wb") as log, open(self.faults, "wb") as faults:
            output = self._output(log)
            self.process = start(words, cwd=self._cwd, stdin=subprocess.DEVNULL, stdout=output, stderr=faults)

    def _output(self, log: Any) -> Any:
        """Where standard output goes."""
        return log

    def _listens(self) -> bool:
        """Waits until the log says where the program listens."""
        lines = 2 if self._page else 1
        if not self.until(lambda: len(self.printed()) >= lines):
            return False
        found = re.fullmatch(r"listening (\S+):(\d+)", self.printed()[0])
        if found is None:
            return False
        self.port = int(found[2])
        if found[1] != "0.0.0.0":
            self.host = found[1]
        return True

    def _ended_with(self) -> int | None:
        return None if self.process is None else self.process.poll()

    def _fault_text(self) -> str:
        if self._folder is None:
            return "it was closed"
        text = self.faults.read_text(errors="replace").strip() if self.faults.exists() else ""
        return f"status {self._ended_with()}: {text}"


def _words_of(what: Condition) -> str:
    """What is waited for, in words: of a function what its source says."""
    if isinstance(what, str):
        return f"the line {what!r}"
    if isinstance(what, re.Pattern):
        return f"a line with {what.pattern!r}"
    try:
        first, *_ = inspect.getsource(what).strip().splitlines()
        return first
    except (OSError, TypeError):
        return repr(what)


SomeServer = TypeVar("SomeServer", bound=Server)
