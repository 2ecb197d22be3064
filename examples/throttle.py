#!/usr/bin/env python3
"""A throttle without a server: takes locomotive 3, drives it, and looks at its decoder."""

from station import LocoDecoder, Station

with Station([LocoDecoder.at(3, name="shunter")]) as station:
    station.power_on()
    loco = station.loco(3)
    loco.take()
    loco.speed(63)
    loco.function(0)
    station.turns(16)  # a full refresh cycle of one slot
    print(loco.data())  # what its slot asks
    print(station.running("shunter"))  # what its decoder does
