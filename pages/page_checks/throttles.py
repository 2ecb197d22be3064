"""A throttle of the page: each function, keys that are held, stops and releases. Bytes are worked out by hand."""

import time

from .browser import ESCAPE, take
from .common import check
from serving import Client, Server

ON = "return [...document.querySelectorAll('.throttle .functions button')]"
ON += ".filter((one) => one.ariaPressed === 'true').map((one) => one.innerText.split('\\n')[0])"
LIT = "return [...document.querySelectorAll('#nodes .lamps .on')].map((one) => one.innerText)"
NO_THROTTLE = "return document.querySelectorAll('.throttle').length === 0"

# What another client sends, and which function is on then: DIRF has F0 in bit 4 and F1 to F4 in bits 0 to 3, SND F5 to F8, and
# a packet of group three F9 to F12.
SHOWN = (
    ("A1 01 10", "F0"),
    ("A1 01 01", "F1"),
    ("A1 01 02", "F2"),
    ("A1 01 04", "F3"),
    ("A1 01 08", "F4"),
    ("A1 01 00", ""),
    ("A2 01 01", "F5"),
    ("A2 01 02", "F6"),
    ("A2 01 04", "F7"),
    ("A2 01 08", "F8"),
    ("A2 01 00", ""),
    ("ED 0B 7F 23 22 03 21 00 00 00", "F9"),
    ("ED 0B 7F 23 22 03 22 00 00 00", "F10"),
    ("ED 0B 7F 23 22 03 24 00 00 00", "F11"),
    ("ED 0B 7F 23 22 03 28 00 00 00", "F12"),
    ("ED 0B 7F 23 22 03 20 00 00 00", ""),
)


def state(count, off=0):
    """The line of the decoder with `count` functions on, behind `off` that are off."""
    return f"node shunter short 3 stop forward F {'0' * off + '1' * count:0<13}"


def prints(server, line, act):
    """Whether the server prints this line after that."""
    before = len(server.printed())
    act()
    return server.until(lambda: line in server.printed()[before:], 10)


def try_functions(browser, server):
    """Each function, shown and pressed, by mouse and by key."""
    with Client(server) as other:
        for body, name in SHOWN:
            other.send(*bytes.fromhex(body))
            on = name.split()
            shown = browser.until_is(ON, on), browser.until_is(LIT, on)
            check(f"{body} shows {name or 'no function'}", shown, (on, on))
    for words, states in (
        ("a press turns F{} on", [state(number + 1) for number in range(13)]),
        ("and another F{} off", [state(12 - number, number + 1) for number in range(13)]),
    ):
        for number, line in enumerate(states):
            button = f".throttle .functions button:nth-child({number + 1})"
            check(words.format(number), prints(server, line, lambda: browser.click(button)))


def try_held_keys(browser, server):
    """Digits, and keys that are held: they count once."""
    browser.run("document.querySelector('.throttle input').focus()")
    for number in range(10):
        check(f"the key {number} turns F{number} on", prints(server, state(number + 1), lambda: browser.keys(str(number))))
    changes, stops = "message A1 ", "message 85 7A"

    def counts(focused, press, message):
        """How many of these messages come of keys, before the power is turned on."""
        before = len(server.printed())
        browser.run("document.querySelector(arguments[0]).focus()", focused)
        press()
        browser.click("#on")
        server.until(lambda: any(line.startswith("message 83 7C") for line in server.printed()[before:]))
        return len([line for line in server.printed()[before:] if line.startswith(message)])

    for key, code, message in (("1", "Digit1", changes), ("Escape", "Escape", stops), ("d", "KeyD", changes)):
        found = counts(".throttle input", lambda: browser.hold(key, code, 4), message)
        check(f"the key {key} counts once while it is held", found, 1)
    for focused, wanted in (("#filter", 0), ("#hold", 0), (".throttle input", 1)):
        check(f"Space on {focused} stops all {wanted} times", counts(focused, lambda: browser.keys(" "), stops), wanted)
    check("Escape in a text box stops all", counts("#filter", lambda: browser.keys(ESCAPE), stops), 1)
    browser.run("find('filter').value = ''; find('filter').dispatchEvent(new Event('input')); messages.held && messages.hold()")


def sent_by(browser, script):
    """The lines that the page sends while a script runs, so before any of them is answered."""
    record = "const { talk } = page; const { put } = talk; const sent = [];"
    record += "talk.put = (text) => { sent.push(text); put(text); };"
    parts = "const [slider, stop, emergency] = document.querySelectorAll('.throttle input, .throttle .stops button');"
    move = "const move = (speed) => { slider.value = speed; slider.dispatchEvent(new Event('input')); };"
    return browser.run(f"{record} {parts} {move} {script}; talk.put = put; return sent;")


def try_stops(browser, server):
    """A stop is sent at once, whatever is under way. Of speeds the newest waits."""
    half, stop, emergency = "SEND A0 01 40 1E", "SEND A0 01 00 5E", "SEND A0 01 01 5F"
    for words, script, wanted in (
        ("a stop waits for no speed", "move(63); stop.click()", [half, stop]),
        ("nor does an emergency stop", "move(63); move(80); emergency.click()", [half, emergency]),
        ("nor a slider that is moved to 0", "move(63); move(0)", [half, stop]),
        ("a speed waits for the one before it", "move(63); move(80); move(95)", [half]),
    ):
        check(words, sent_by(browser, script), wanted)
        browser.until_true("return page.throttles[0].throttle.underWay === 0")
    check("then the newest is sent", server.until_printed("message A0 01 60 3E  slot 1: speed 95 of 126"))
    check("and none between", [line for line in server.printed() if line.startswith("message A0 01 51")], [])
    check("which the throttle shows", browser.until(".throttle output", "95"), "95")


def released(browser, press):
    """The lines that the page sends from a press until the throttle is gone, each with its time."""
    browser.run("const { talk } = page; talk.plain ??= talk.put; talk.recorded = [];"
                "talk.put = (text) => { talk.recorded.push([Date.now(), text]); talk.plain(text); };")
    press()
    browser.until_true(NO_THROTTLE)
    return [(at, text) for at, text in browser.run("return page.talk.recorded") if not text.startswith("SEND BB")]


def try_releases(browser, server):
    """A release waits for half a second after the last change. Without power its slot is common."""
    def stop_and_release():
        browser.press("Release")
        browser.until(".throttle", "This locomotive is running")
        browser.press("Stop and release")

    def change_and_release():
        browser.press("F1\noff")
        browser.press("Release")

    def run_on():
        browser.press("Release")
        browser.until(".throttle", "This locomotive is running")
        browser.run("[...document.querySelectorAll('.question button')][1].click()")

    idle, common, change = "SEND B5 01 23 68", "SEND B5 01 13 58", "SEND A1 01 01 5E"
    for words, power, speed, press, wanted in (
        ("one that runs stops first", "#on", 40, stop_and_release, ["SEND A0 01 00 5E", idle]),
        ("a change comes before", "#on", 0, change_and_release, [change, idle]),
        ("one that runs on has a common slot", "#on", 40, run_on, [common]),
        ("so has one without power", "#off", 0, lambda: browser.press("Release"), [common]),
        ("and one whose track is paused", "#stop", 0, lambda: browser.press("Release"), [common]),
    ):
        browser.click("#on")
        if browser.run(NO_THROTTLE):
            take(browser, 3)
        browser.until(".throttle", "in use")
        browser.run(f"page.throttles[0].throttle.setSpeed({speed and speed + 1})")
        browser.run("page.send(ask.directionAndFive(page.throttles[0].throttle.number, 0))")
        browser.click(power)
        browser.until_true(f"return page.throttles[0].throttle.slot.spd === {speed and speed + 1} && page.talk.isIdle")
        time.sleep(0.6)  # so that nothing is left to wait for
        sent = released(browser, press)
        check(f"released: {words}", [text for _, text in sent], wanted)
        if len(sent) == 2:
            check("half a second later", sent[1][0] - sent[0][0] >= 490)


def try_throttles(browser, path, port, address):
    """All of these, by a server of their own."""
    browser.anew()
    with Server(path, "--page", str(port), "--roster", "examples/layout.toml") as server:
        browser.go(address)
        browser.until("#connection", "Connected")
        browser.click("#on")
        take(browser, 3)
        browser.until(".throttle", "Slot 1, in use")
        for part in (try_functions, try_held_keys, try_stops, try_releases):
            part(browser, server)
