"""What the page shows of decoders, turnouts and the plan. Bytes are worked out by hand."""

import pathlib
import tempfile

from .browser import take
from .common import check
from serving import Client, Server, message_hex

# Short and long address 100 are two decoders. CV29 bit 5 is the long address, 192 * 256 less than CV17 and CV18.
ROSTER = """version = 2

[[node]]
name = "shunter"
kind = "loco"
cvs = [[1, 3], [29, 2]]

[[node]]
name = "short"
kind = "loco"
cvs = [[1, 100], [29, 2]]

[[node]]
name = "long"
kind = "loco"
cvs = [[1, 3], [17, 192], [18, 100], [29, 34]]

[[node]]
name = "yard"
kind = "accessory"
module = 1
"""
RAIL = """
const rail = document.querySelector('[aria-label=shunter] .rail');
return [getComputedStyle(rail).transform, rail.firstChild.style.width];
"""


def try_bars(browser):
    """The bar of a locomotive: as long as its speed, and from the right in reverse."""
    turn = ".throttle .pair:not(.stops) button:nth-child({})"
    mirrored = "matrix(-1, 0, 0, 1, 0, 0)"
    for words, act, wanted in (
        ("stands", "throttle.setSpeed(0)", ["none", "0%"]),
        ("runs at step 63 of 126", "throttle.setSpeed(64)", ["none", "50%"]),
        ("runs at the last step", "throttle.setSpeed(127)", ["none", "100%"]),
        ("runs in reverse", f"document.querySelector('{turn.format(1)}').click()", [mirrored, "100%"]),
        ("runs forward", f"document.querySelector('{turn.format(2)}').click()", ["none", "100%"]),
        ("stands again", "throttle.setSpeed(0)", ["none", "0%"]),
    ):
        browser.run(f"const {{ throttle }} = page.throttles[0]; {act}")
        check(f"the bar of one that {words}", browser.until_is(RAIL, wanted), wanted)


def try_outputs(browser, other):
    """Both outputs of a turnout on, and which lies last."""
    for number, first, second, last in ((1, "thrown", "closed", "closed"), (2, "closed", "thrown", "thrown")):
        path = f"[aria-label=yard] .turnout:nth-child({number})"
        at = number - 1
        bits = {"thrown": 0x10, "closed": 0x30}
        other.send(0xB0, at, bits[first])
        check(f"output {first} of turnout {number} is on", browser.until(path, f"{first}, output on"), f"{first}, output on")
        other.send(0xB0, at, bits[second])
        both = "thrown and closed, output on"
        check("both are on", browser.until(path, both), both)
        check("the last is as asked", browser.until(path, "as asked"), "as asked")
        for name in (first, second):
            other.send(0xB0, at, bits[name] & 0x20)
        browser.until_true(f"return !document.querySelector('{path}').innerText.includes('output on')")
        check("it lies as asked last", browser.text(path).split("\n")[3:], [last, "as asked"])


def try_refused_off(browser, other):
    """A request to go off that is refused takes nothing back. Without power requests wait, 32 at most."""
    path = "[aria-label=yard] .turnout:nth-child(1)"
    browser.click("#off")
    browser.until("#track", "Track: off")
    other.send(0xB0, 0, 0x10)  # thrown: it lies closed
    for _ in range(31):
        other.send(0xB0, 9, 0x10)
    check("a turnout that is asked waits for the power", browser.until(path, "power off"), "power off")
    other.send(0xB0, 0, 0x00)
    check("its off is refused", browser.until(path, "refused"), "refused")
    browser.run("page.forgetRefusals(Date.now())")
    check("and it is still asked", browser.until(path, "power off"), "power off")
    other.send(0xB0, 0, 0x30)
    browser.until(path, "refused")
    browser.run("page.forgetRefusals(Date.now())")
    check("nor does a refused on take its place", browser.until(path, "power off"), "power off")
    browser.click("#on")
    check("with power it moves", browser.until(path, "thrown"), "thrown")


def try_consists(browser, other):
    """STAT1 with consist bits or a type that the station refuses changes nothing, not even to free."""
    before = browser.text(".throttle")
    for stat, words in (
        (0x0B, "free, 128 steps, top of a consist"),
        (0x43, "free, 128 steps, end of a consist"),
        (0x4B, "free, 128 steps, inside a consist"),
        (0x01, "free, 28 steps trinary"),
        (0x05, "free, unknown steps"),
        (0x06, "free, unknown steps"),
    ):
        other.send(0xB5, 1, stat)
        browser.until("#messages li", message_hex(0xB5, 1, stat))
        words = f"slot 1: {words} (locomotive 3)"
        check(f"the bus says: {words}", words in browser.text("#messages li"))
        check("and the slot stays", browser.text(".throttle"), before)
    check("so it does in the station", other.request(0xBB, 1, 0), "RECEIVE E7 0E 01 33 03 00 00 07 00 00 00 00 00 20")
    for stat, words in ((0x34, "28 steps, consists allowed"), (0x37, "128 steps, consists allowed"), (0x33, "128 steps")):
        other.send(0xB5, 1, stat)
        words = f"slot 1: in use, {words} (locomotive 3)"
        check(f"but not if the bus says: {words}", browser.until("#messages li", words), words)
        check("the slot has that type", browser.until_is("return page.station.slots[1].stat", stat), stat)


def try_long_addresses(browser, other):
    """A long address below 128 is no address of the station, so nobody drives its decoder."""
    for slot in range(1, 120):
        other.request(0xBB, slot, 0)
    take(browser, 100)
    browser.until(".throttle:nth-child(2)", "in use")
    browser.run("page.throttles[1].throttle.setSpeed(64)")
    for name, motion, claim in (("short", "step 63 of 126", "as asked"), ("long", "stop", "nobody drives it")):
        path = f"[aria-label={name}]"
        check(f"{name} 100: {motion}", browser.until(f"{path} .motion", motion), motion)
        check(f"{name} 100: {claim}", browser.until(f"{path} .claim", claim), claim)
    browser.run("page.throttles[1].throttle.setSpeed(0)")


# Where the arrows of trains point, in degrees from the right, clockwise.
ANGLES = r"""
const radians = (one) => Number(/rotate\((.*)rad/.exec(one.style.transform)[1]);
return [...document.querySelectorAll('#plan .train')].map((one) => (Math.round((180 / Math.PI) * radians(one)) + 360) % 360);
"""


def try_arrows(browser, path, port, address):
    """The shunter faces end b of main, which is drawn to the right, and the express that of back, to the left."""
    words = ("--roster", "examples/oval-roster.toml", "--plan", "examples/oval.toml")
    browser.anew()
    with Server(path, "--page", str(port), *words) as server:
        browser.go(address)
        check("arrows point to where trains run", browser.until_is(ANGLES, [0, 180]), [0, 180])
        browser.click("#on")
        take(browser, 3)
        browser.until(".throttle", "Slot 1, in use")
        browser.press("← Reverse")
        check("in reverse to the other end", browser.until_is(ANGLES, [180, 180]), [180, 180])
        browser.press("Forward →")
        check("and forward again", browser.until_is(ANGLES, [0, 180]), [0, 180])
        with Client(server) as other:
            other.write(["PLACE express main 700 a"])
            check("a train that is placed faces its end", browser.until_is(ANGLES, [0, 180]), [0, 180])
            other.write(["PLACE express east 900 b"])
            check("and block", browser.until_is(ANGLES, [0, 90]), [0, 90])
        button = "document.querySelector('#plan [role=button][aria-label^=\"Turnout 2\"]')"
        label = f"return {button}.ariaLabel"
        for words in ("thrown: close", "closed: throw"):
            browser.run(f"{button}.focus()")
            browser.keys(" ")
            check(f"Space on a turnout moves it: {words}", browser.until_is(label, f"Turnout 2, {words}"), f"Turnout 2, {words}")
        check("and stops nothing", [line for line in server.printed() if line.startswith("message 85")], [])
        check("nor is the track paused", browser.text("#track"), "Track: on")


def try_layout(browser, path, port, address):
    """All of these, by servers of their own."""
    browser.anew()
    with tempfile.TemporaryDirectory() as folder:
        roster = pathlib.Path(folder, "roster.toml")
        roster.write_text(ROSTER)
        with Server(path, "--page", str(port), "--roster", str(roster)) as server, Client(server) as other:
            browser.go(address)
            browser.until("#connection", "Connected")
            browser.click("#on")
            take(browser, 3)
            browser.until(".throttle", "Slot 1, in use")
            try_bars(browser)
            for part in (try_consists, try_outputs, try_refused_off, try_long_addresses):
                part(browser, other)
    try_arrows(browser, path, port, address)
