"""The panel of the programming track: one variable, the decoder's named ones, and the results in words."""

import pathlib
import tempfile

from .common import check
from serving import Client, Server

# Address 3, and 28 or 128 steps. 1234 is 4 * 256 + 210, and CV17 is 192 more than 4.
ROSTER = '[[node]]\nname = "shunter"\nkind = "loco"\ncvs = [[1, 3], [17, 196], [18, 210], [29, 38]]\n'
NAMED = "return [...document.querySelectorAll('#named > *')].map((one) => one.innerText)"


def ask(browser, number, value=None):
    """Types a variable, and presses Read; with a value Write. It waits for the task before."""
    browser.until_true("return !document.querySelector('#task button').disabled")
    browser.run(
        "const [number, value] = arguments; find('cv').value = number; find('value').value = value ?? '';"
        "document.querySelector(`#task [name=${value === null ? 'read' : 'write'}]`).click()",
        number, value,
    )


def said(browser, words):
    check(f"the panel says: {words}", browser.until("#task-said", words), words)


def try_tasks(browser, server, address):
    browser.go(address)
    browser.until("#connection", "Connected")
    browser.run("document.querySelector('#programming summary').click()")
    ask(browser, 29)
    said(browser, "CV29 is 38")
    ask(browser, 29, 6)
    said(browser, "CV29: 6 written")
    bits = ["CV29", "6: direction normal, 28 or 128 steps, short address, analog conversion"]
    check("what the bits of CV29 say", browser.until_is(NAMED, bits), bits)
    ask(browser, 29, 38)
    said(browser, "CV29: 38 written")
    browser.click("#identify")
    browser.until("#named", "1234")
    named = ["Address", "3", "Long address", "1234", "CV29"]
    browser.until_true("return page.programming.asked === null && page.programming.tasks.length === 0")
    check("the decoder's named variables", browser.run(NAMED)[:5], named)
    with Client(server) as other:
        other.write(["FAIL programming"])
        other.lines_until("FAIL OK")
        ask(browser, 1)
        said(browser, "CV1: no acknowledgement")
        other.write(["FAIL none", "MOUNT nothing"])
        other.lines_until("MOUNT OK")
        ask(browser, 1)
        said(browser, "CV1: no decoder")
    check("nothing is known of no decoder", browser.until_is(NAMED, []), [])
    # One read, two writes, four reads of the decoder, and two that failed.
    check("each result is in the list", browser.until_is("return find('results').childElementCount", 9), 9)
    check("the power is not that of the task", browser.text("#track"), "Track: off")


def try_programming(browser, path, port, address):
    with tempfile.TemporaryDirectory() as folder:
        file = pathlib.Path(folder, "decoder.toml")
        file.write_text("version = 2\n" + ROSTER)
        options = "--page", str(port), "--programmer", str(file), "--roster", str(file), "--rate", "100"
        with Server(path, *options) as server:
            browser.window()
            try_tasks(browser, server, address)
            for width, height in ((1600, 900), (1000, 800), (400, 800)):
                browser.size(width, height)
                browser.run("find('task-said').scrollIntoView({ block: 'center' })")
                wide = browser.run("return document.documentElement.scrollWidth")
                check(f"with the panel nothing stands beyond {width:,}", wide, width)
            browser.develop("Emulation.clearDeviceMetricsOverride", {})
        with Server(path, "--page", str(port)):
            browser.go(address)
            browser.until("#connection", "Connected")
            browser.run("document.querySelector('#programming summary').click()")
            ask(browser, 1)
            said(browser, "read CV1: no programming track, or it is busy")
    browser.run("sessionStorage.clear()")
    browser.close_others()
