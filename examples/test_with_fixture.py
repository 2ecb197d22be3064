"""A test of trains by the fixture `lbserver`: `pytest examples/test_with_fixture.py`."""

import pathlib

import pytest

HERE = pathlib.Path(__file__).resolve().parent


@pytest.mark.lbserver("--turns", "0", roster=HERE / "oval-roster.toml", plan=HERE / "oval.toml")
def test_train_stops_before_the_other(lbserver):
    lbserver.power_on()
    shunter = lbserver.loco(3)
    shunter.take()
    shunter.speed(63)
    while 3 not in lbserver.occupied():
        lbserver.turns(10)
    shunter.speed(0)
    lbserver.turns(100)
    assert lbserver.nodes["shunter"].kind == "stop"
    assert lbserver.conflicts() == []
