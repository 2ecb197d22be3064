"""Tests of the plugin of pytest, for bindings/test: one of them fails, for its report."""

import pytest

from station import LocoDecoder

pytestmark = pytest.mark.lbserver("--turns", "0", roster=[LocoDecoder.at(3, name="shunter")])


def test_mark_of_the_module(lbserver):
    assert lbserver.options == ["--turns", "0"]
    lbserver.power_on()
    loco = lbserver.loco(3)
    loco.take()
    loco.speed(63)
    lbserver.turns(100)
    assert lbserver.running("shunter").step == 63


@pytest.mark.lbserver("--track", roster=[LocoDecoder.at(5, name="express")], seconds=5)
def test_nearest_mark(lbserver):
    assert lbserver.options == ["--turns", "0", "--track"]
    assert lbserver.seconds == 5
    with lbserver.client() as client:
        assert list(client.nodes()) == ["express"]


def test_fails(lbserver):
    lbserver.power_on()
    assert not lbserver.is_running()
