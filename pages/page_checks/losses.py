"""What the page does without a connection, and when it has one again."""

import contextlib
import re
import signal

from .browser import take
from .common import check
from serving import Client, Server

LINES = "return document.querySelectorAll('#plan line').length"
# Keeps when the page lost its connection, and how long it waits after each failed attempt.
RECORD = """
const { lost } = connection;
connection.waits = [];
connection.lost = function (talk) {
  const counts = this.current === talk;
  lost.call(this, talk);
  if (!counts) return;
  this.end = Date.now();
  this.waits.push(Math.round((this.next - this.end) / 100) * 100);
};
"""


def lose(browser, server):
    """Ends the server. The page tries again sooner if it is told to."""
    browser.run(RECORD)
    server.__exit__()
    check("without a connection the power is not known", browser.until("#track", "Track: not known"), "Track: not known")
    pressed = "return ['on', 'off'].map((name) => document.getElementById(name).ariaPressed)"
    check("and neither button is pressed", browser.until_is(pressed, ["false", "false"]), ["false", "false"])
    words = "Not sent (no connection): track power on"
    browser.run("page.send(ask.powerOn())")
    check("a message is refused", browser.until("#said", words), words)
    for count in range(2, 7):
        with contextlib.suppress(RuntimeError):  # the attempt is under way by itself
            browser.click("#now")
        browser.until_true(f"return connection.waits.length >= {count}")
    waits = browser.run("return connection.waits.slice(0, 6)")
    check("each wait is twice the one before, and 8 s at most", waits, [500, 1000, 2000, 4000, 8000, 8000])
    browser.run("connection.next += 600000")  # so that it does not try again before it is told to


def stop_answering(browser, server):
    """A server that answers nothing for three seconds counts as lost, and not sooner."""
    browser.until_true("return !page.station.slots.includes(undefined, 1)", 60)
    server.process.send_signal(signal.SIGSTOP)
    browser.click("#on")
    since = browser.run("return page.talk.waiting[0].since")
    browser.until("#connection", "No connection", 10)
    words = "No answer (the connection was lost): track power on"
    check("its message may have been sent", browser.until("#said", words), words)
    seconds = (browser.run("return connection.end") - since) / 1000
    check("a server that answers nothing is lost after three seconds", 3 < seconds < 5)
    server.process.send_signal(signal.SIGCONT)
    check("and found again", browser.until("#connection", "Connected", 20), "Connected")
    check("with its locomotive", browser.until(".throttle", "Slot 2, in use"), "Slot 2, in use")


def try_losses(browser, path, port, address):
    """A server that ends, and starts anew with another locomotive in the slot; one that stops."""
    words = ("--roster", "examples/oval-roster.toml", "--plan", "examples/oval.toml")
    server = Server(path, "--page", str(port), *words)
    browser.anew()
    with server:
        browser.go(address)
        browser.until("#connection", "Connected")
        browser.click("#on")
        take(browser, 3)
        browser.until(".throttle", "Slot 1, in use")
        # Five blocks, two joints, and two legs of each of two turnouts.
        check("the plan has 11 lines", browser.until_is(LINES, 11), 11)
        check("the power is on", browser.until("#track", "Track: on"), "Track: on")
        lose(browser, server)
    with server:
        with Client(server) as other:
            other.request(0xBF, 0, 4)
            other.request(0xBA, 1, 1)
            browser.click("#now")
            check("a slot with another locomotive is not kept", browser.until(".throttle", "Slot 2, in use"), "Slot 2, in use")
            used = [line for line in server.printed() if re.match("message (BF|BA) ", line)]
            takes = ["message BF 00 03 43  take locomotive 3", "message BA 02 02 45  use slot 2"]
            check("the locomotive is taken anew", used[-2:], takes)
        check("the power is that of the new server", browser.until("#track", "Track: off"), "Track: off")
        check("the plan is drawn once", browser.until_is(LINES, 11), 11)
        stop_answering(browser, server)
