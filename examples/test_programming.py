"""A test that finds a decoder whose acknowledgment fails: `pytest examples/test_programming.py`."""

import pathlib

import pytest

from station.programmer import NoAcknowledgeError

HERE = pathlib.Path(__file__).resolve().parent


def acknowledges(track):
    """Whether the decoder on the programming track acknowledges: its address can be read then."""
    try:
        return 1 <= track.read(1) <= 127
    except NoAcknowledgeError:
        return False


@pytest.mark.lbserver("--turns", "0", "--programmer", str(HERE / "oval-roster.toml"))
def test_failing_decoder_is_found(lbserver):
    track = lbserver.programmer()
    found = []
    for name, fails in (("shunter", False), ("express", True)):
        track.mount(name)
        track.fail(fails)
        if not acknowledges(track):
            found.append(name)
    assert found == ["express"]
