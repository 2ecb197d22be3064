"""A test of a locomotive that misses packets, in this process: `pytest examples/test_with_library.py`."""

from station import LocoDecoder, Station


def test_locomotive_settles():
    with Station([LocoDecoder.at(3, name="shunter")]) as station:
        station.power_on()
        loco = station.loco(3)
        loco.take()
        loco.speed(63)
        station.turns(16, missed=["shunter"])
        assert station.running("shunter").kind == "stop"
        station.turns(16)  # a full refresh cycle of one slot
        assert station.running("shunter").step == 63
