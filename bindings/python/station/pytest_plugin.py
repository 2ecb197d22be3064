"""A plugin of pytest: the fixture `lbserver`, a server for each test.

    @pytest.mark.lbserver("--lose", "50", roster=[LocoDecoder.at(3, name="shunter")])
    def test_locomotive_settles(lbserver):
        lbserver.power_on()

The mark takes what `station.lbserver.Server` takes. Of several marks, of a module, a class and a test, the options are
joined, and of the rest the mark nearest to the test counts. The report of a test that fails has the end of the log.
"""

from __future__ import annotations

from collections.abc import Iterator
from typing import Any

import pytest

from .lbserver import Server

# How many lines of the log are shown of a test that fails.
LAST_LINES = 40


def pytest_configure(config: pytest.Config) -> None:
    """Declares the mark."""
    config.addinivalue_line("markers", "lbserver(*options, roster=.., plan=..): how the fixture `lbserver` is started")


@pytest.fixture
def lbserver(request: pytest.FixtureRequest) -> Iterator[Server]:
    """A server that runs during the test, started as its marks `lbserver` say."""
    options: list[str] = []
    named: dict[str, Any] = {}
    for mark in reversed(list(request.node.iter_markers("lbserver"))):
        options += mark.args
        named |= mark.kwargs
    with Server(*options, **named) as server:
        yield server
        request.node.add_report_section("teardown", "log of lbserver", "\n".join(server.printed()[-LAST_LINES:]))
