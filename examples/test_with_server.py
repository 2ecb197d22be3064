"""A test of a locomotive on dirty rails, on a running `lbserver`: `pytest examples/test_with_server.py`."""

from station import LocoDecoder
from station.lbserver import Server


def test_locomotive_settles():
    with Server("--lose", "50", roster=[LocoDecoder.at(3, name="shunter")]) as server:
        server.power_on()
        loco = server.loco(3)
        loco.take()
        loco.speed(63)
        assert server.wait_for_node("shunter", step=63).forward
