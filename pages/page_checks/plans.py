"""The track plan on the page: its size at each width, its labels, and trains off the rails."""

import pathlib
import re
import tempfile

from .browser import take
from .common import IN_SIGHT, TOP, check
from serving import Client, Server

OVAL = ("--roster", "examples/oval-roster.toml", "--plan")
SIZES = ((1600, 900), (1000, 800), (400, 800))

# Whether all of the drawing is in its box.
FITS = """
const [box, drawing] = ['#drawing', '#drawing svg'].map((path) => document.querySelector(path).getBoundingClientRect());
return drawing.width > 200 && drawing.left >= box.left && drawing.right <= box.right && drawing.top >= box.top
  && drawing.bottom <= box.bottom;
"""
# The labels of blocks that are shown, and pairs of them that lie over each other.
SHOWN = "[...document.querySelectorAll('#drawing svg > g[aria-hidden] text')].filter((one) => one.checkVisibility({ visibilityProperty: true }))"
COVERED = f"""
const boxes = {SHOWN}.map((one) => [one.textContent, one.getBoundingClientRect()]);
const isOver = (one, other) => one.left < other.right - 1 && other.left < one.right - 1 && one.top < other.bottom - 1
  && other.top < one.bottom - 1;
return boxes.flatMap(([name, box], at) => boxes.slice(at + 1).filter(([, other]) => isOver(box, other)).map(([one]) => `${{name}}, ${{one}}`));
"""
# Whether the labels and the circles of the drawing are seen whole.
WHOLE = f"""
const box = document.querySelector('#drawing').getBoundingClientRect();
return [...{SHOWN}, ...document.querySelectorAll('#drawing .number')].map((one) => one.getBoundingClientRect()).every((one) =>
  one.top >= box.top && one.bottom <= box.bottom && one.left >= box.left && one.right <= box.right);
"""
# Whether the first row of decoders is seen, with its buttons, which are 44 pixels high.
SEEN = """
const [nodes, board] = ['#nodes', '#board'].map((path) => document.querySelector(path).getBoundingClientRect());
return Math.min(nodes.bottom, board.bottom) - nodes.top >= 44;
"""
COLOUR = "return getComputedStyle(document.querySelector(arguments[0]))[arguments[1]]"
ALARM = "rgb(255, 143, 135)"  # red, on the dark board


def submit(browser, block, front, facing):
    """Fills the form of a derailed train, and presses its button."""
    browser.run(
        "const [block, facing, front] = document.querySelectorAll('.derailment select, .derailment input');"
        "[block.value, facing.value, front.value] = arguments[0];",
        [block, facing, front],
    )
    browser.press("Put here")


def try_derailed(browser, path, port, address):
    """A train at a turnout that lies against it: what the page says, and how it is put back."""
    browser.anew()
    with Server(path, "--page", str(port), *OVAL, "examples/oval.toml", "--rate", "4") as server, Client(server) as other:
        browser.go(address)
        browser.until("#connection", "Connected")
        check("no train is derailed at first", browser.run("return document.getElementById('derailed').hidden"))
        browser.click("#on")
        take(browser, 3)
        browser.until(".throttle", "Slot 1, in use")
        other.send(0xB0, 1, 0x10)  # turnout 2 thrown, so that it joins siding and east
        browser.run("page.throttles[0].throttle.setSpeed(127)")
        words = "shunter derailed at turnout 2: it lay against the train"
        check("the page says what happened, and where", browser.until("#derailed", words, 30), words)
        check("in the line below the head, too", browser.until("#said", "shunter derailed at turnout 2"), "shunter derailed at turnout 2")
        check("as what is wrong", browser.run("return find('notice').dataset.is"), "bad")
        label = "main: shunter derailed"
        check("its label is in the plan", browser.until_is("return document.querySelector('#plan text.derailed')?.textContent", label), label)
        check("in red", browser.run(COLOUR, "#plan text.derailed", "fill"), ALARM)
        check("and so is its arrow", browser.run(COLOUR, "#plan .train.derailed path", "fill"), ALARM)
        tile = "#nodes [aria-label=shunter]"
        check("its decoder says it", browser.until(f"{tile} .body", "derailed at turnout 2"), "derailed at turnout 2")
        check("in red, too", browser.run(COLOUR, f"{tile} .body .claim", "color"), ALARM)
        check("and no longer that all is as asked", "as asked" in browser.text(tile), False)
        check("its throttle says it", browser.until(".throttle", "shunter: derailed at turnout 2"), "shunter: derailed at turnout 2")
        check("the layout counts it", browser.until("#summary", "1 derailed"), "1 derailed")
        browser.run("page.throttles[0].throttle.setSpeed(0)")
        browser.until("#nodes .motion", "stop")
        for width, height in SIZES:
            browser.size(width, height)
            browser.run("scrollTo(0, 0)")
            check(f"at {width:,} pixels its button is in sight", browser.run(IN_SIGHT, "#derailed button"))
            browser.press("Put back")
            check("and its form", browser.run(IN_SIGHT, "#derailed form"))
            wide = browser.run("return document.documentElement.scrollWidth")
            check(f"and nothing stands beyond {width:,}", wide, width)
            browser.press("Cancel")
        browser.develop("Emulation.clearDeviceMetricsOverride", {})
        browser.press("Put back")
        submit(browser, "siding", "100", "b")
        words = "Not put back: the train does not fit there"
        check("where it does not fit, the page says so", browser.until("#derailed form", words), words)
        submit(browser, "siding", "1000", "b")
        check("elsewhere it is put back", browser.until("#said", "shunter is put back in siding"), "shunter is put back in siding")
        browser.until_true("return document.getElementById('derailed').hidden")
        check("and no longer derailed", browser.text("#derailed"), "")
        check("the plan shows it there", browser.run("return page.plan.wordsOf('siding')"), "shunter")
        check("its decoder runs as asked", browser.until(f"{tile} .body", "as asked"), "as asked")


def try_sizes(browser, path, port, address):
    """The drawing fits its box at every width, and stays in sight."""
    with Server(path, "--page", str(port), *OVAL, "examples/oval.toml"):
        browser.go(address)
        browser.until("#connection", "Connected")
        browser.until_true("return document.querySelector('#drawing svg') !== null")
        for width, height in SIZES:
            browser.size(width, height)
            browser.run("document.querySelector('#plan').scrollIntoView({ block: 'nearest' })")
            check(f"at {width:,} pixels the drawing fits its box", browser.until_is(FITS, True))
            check("its labels are apart", browser.run(COVERED), [])
            names = browser.run(f"return {SHOWN}.map((one) => one.textContent).sort()")
            check("and all are shown", names, ["back: express", "east", "main: shunter", "siding", "west"])
            letters = browser.run(f"return Math.min(...{SHOWN}.map((one) => one.getBoundingClientRect().height))")
            check("in letters that can be read", letters >= 12)
            browser.run("document.querySelector('.node:last-child').scrollIntoView({ block: 'end' })")
            check("the plan stays in sight beside the last decoder", browser.run(IN_SIGHT, "#drawing svg"))
            browser.press("Drive")
            browser.until(".throttle", "in use")
            if width >= 900:
                check("also when a locomotive is taken", browser.run(IN_SIGHT, "#drawing svg"))
            browser.run("page.throttles.forEach((view) => view.remove())")
        browser.develop("Emulation.clearDeviceMetricsOverride", {})


def try_low_windows(browser, path, port, address):
    """In a low window nothing of the plan is cut off, and no part vanishes, whatever is open."""
    with Server(path, "--page", str(port), *OVAL, "examples/oval.toml", "--programmer", "examples/oval-roster.toml"):
        browser.go(address)
        browser.until("#connection", "Connected")
        browser.until_true("return document.querySelector('#drawing svg') !== null")
        browser.press("Drive")
        browser.until(".throttle", "in use")
        for width, height in ((900, 600), (1000, 700), (1280, 720)):
            browser.size(width, height)
            check(f"at {width:,} by {height} pixels the plan is whole", browser.until_is(WHOLE, True))
            check("decoders are seen", browser.until_is(SEEN, True))
            browser.run("document.querySelectorAll('#folds details').forEach((one) => { one.open = true; })")
            check("throttles have room", browser.until_is("return document.querySelector('#list').clientHeight >= 250", True))
            check("the page itself does not scroll", browser.run("return document.documentElement.scrollHeight"), height)
            browser.run("document.querySelectorAll('#folds details').forEach((one) => { one.open = false; })")
        browser.develop("Emulation.clearDeviceMetricsOverride", {})


def large_plan():
    """64 blocks, eight in each of eight rows."""
    lines = ["version = 1"]
    for row in range(8):
        for column in range(8):
            lines.append(f'[[block]]\nname = "platform-{row + 1}-part-{column + 1}"\nlength = 1000')
            lines.append(f"a = [{200 * column}, {100 * row}]\nb = [{200 * column + 180}, {100 * row}]")
        for column in range(1, 8):
            lines.append(f'[[joint]]\nends = ["platform-{row + 1}-part-{column}.b", "platform-{row + 1}-part-{column + 1}.a"]')
    for number, decoder in enumerate(("shunter", "express"), 1):
        lines.append(f'[[train]]\ndecoder = "{decoder}"\nblock = "platform-{4 + number}-part-4"\nfront = 500\nfacing = "b"\nlength = 300\nspeed = 500')
    return "\n".join(lines)


COUNT = f"return {SHOWN}.length"


def try_many_blocks(browser, path, port, address):
    """Labels of 64 blocks: what does not fit is left out, until it is chosen or the plan is larger."""
    with tempfile.NamedTemporaryFile("w", suffix=".toml") as file:
        file.write(large_plan())
        file.flush()
        with Server(path, "--page", str(port), *OVAL, file.name):
            browser.go(address)
            browser.until("#connection", "Connected")
            browser.until_true("return document.querySelectorAll('#drawing text').length === 64")
            for width, height in SIZES:
                browser.size(width, height)
                browser.run("document.querySelector('#plan').scrollIntoView({ block: 'nearest' })")
                check(f"at {width:,} pixels 64 blocks fit their box", browser.until_is(FITS, True))
                check("no label lies over another", browser.until_is(COVERED, []), [])
                count = browser.run(COUNT)
                check("those that do not fit are left out", 0 < count < 64)
                words = f"{64 - count} names left out"
                check("and counted", browser.until("#left-out", words), words)
                trains = [f"platform-{4 + number}-part-4: {name}" for number, name in enumerate(("shunter", "express"), 1)]
                names = browser.run(f"return {SHOWN}.map((one) => one.textContent)")
                check("those with trains are shown", set(trains) <= set(names))
                browser.run("document.querySelector('#drawing [tabindex][role=img]').focus({ focusVisible: true })")
                check("one with the focus is shown", browser.run(COUNT), count + 1)
                browser.run("document.activeElement.blur()")
                check("while it has it", browser.run(COUNT), count)
                for _ in range(5):
                    browser.click("#larger")
                more = browser.until_is(f"return {SHOWN}.length > {count}", True)
                check("a larger plan has room for more", more)
                wide = browser.run("return document.documentElement.scrollWidth")
                check(f"and nothing stands beyond {width:,}", wide, width)
                check("it is as large as it can be", browser.run("return find('larger').disabled"))
                for _ in range(5):
                    browser.click("#smaller")
                check("and then as small again", browser.until_is(FITS, True))
            browser.develop("Emulation.clearDeviceMetricsOverride", {})


def try_lists(browser, path, port, address):
    """A plan without a place for each end is a list, which says why."""
    oval = (TOP / "examples/oval.toml").read_text()
    for name, text, words in (
        ("one end", oval.replace("b = [700, 200]\n", ""), "No drawing: the plan gives no place to siding.b."),
        ("most", re.sub(r"(?m)^a = .*\n", "", oval), "No drawing: the plan gives no place to main.a, siding.a, east.a and 2 more."),
        ("all", re.sub(r"(?m)^[ab] = .*\n", "", oval), "No drawing: the plan gives no end a place (a = [x, y], b = [x, y])."),
    ):
        with tempfile.NamedTemporaryFile("w", suffix=".toml") as file:
            file.write(text)
            file.flush()
            with Server(path, "--page", str(port), *OVAL, file.name):
                browser.go(address)
                check(f"without places of {name} it is a list", browser.until("#plan ul", "main: shunter", 20), "main: shunter")
                check("which says why", browser.text("#drawing p"), words)


LABELS = "return [...document.querySelectorAll('#plan [role=button]')].map((one) => one.ariaLabel).sort()"
# Whether each leg of the turnouts, the closed one before the thrown one, is where trains run.
LEADS = """
return [...document.querySelectorAll('#plan [role=button]')].map((one) =>
  [...one.parentNode.querySelectorAll(':scope > :not([role])')].map((leg) => !leg.classList.contains('other')));
"""

# Two tracks with a crossover, whose turnouts are on one switch and take two seconds.
CROSSOVER = "version = 1\n" + "".join(
    f'[[block]]\nname = "{name}"\nlength = {length}\na = {a}\nb = {b}\n'
    for name, length, a, b in (
        ("north-west", 1000, [0, 0], [300, 0]),
        ("north-east", 1000, [400, 0], [700, 0]),
        ("link", 80, [350, 30], [370, 70]),
        ("south-west", 1000, [0, 100], [300, 100]),
        ("south-east", 1000, [400, 100], [700, 100]),
    )
) + "".join(
    f'[[turnout]]\nswitch = 1\ntime = 2000\ncommon = "{common}"\nclosed = "{closed}"\nthrown = "{thrown}"\n'
    for common, closed, thrown in (("north-west.b", "north-east.a", "link.a"), ("south-east.a", "south-west.b", "link.b"))
)


def try_turnouts(browser, path, port, address):
    """Turnouts are drawn as they lie: after a reload, both of a crossover, and while they move."""
    with Server(path, "--page", str(port), *OVAL, "examples/oval.toml") as server, Client(server) as other:
        browser.go(address)
        both = ["Turnout 1, closed: throw", "Turnout 2, closed: throw"]
        check("at first all are closed", browser.until_is(LABELS, both), both)
        other.send(0x83)
        for direction_and_output in (0x10, 0x00):
            other.send(0xB0, 1, direction_and_output)
        one = ["Turnout 1, closed: throw", "Turnout 2, thrown: close"]
        check("one that is thrown, and switched off", browser.until_is(LABELS, one), one)
        browser.go("about:blank")
        browser.go(address)
        check("also after a reload", browser.until_is(LABELS, one), one)
        check("its thrown leg leads on", browser.run(LEADS), [[True, False], [False, True]])
    with tempfile.NamedTemporaryFile("w", suffix=".toml") as file:
        file.write(CROSSOVER)
        file.flush()
        with Server(path, "--page", str(port), *OVAL, file.name):
            browser.go(address)
            browser.until("#connection", "Connected")
            browser.click("#on")
            closed, moving, back, thrown = (2 * [f"Turnout 1, {words}"] for words in ("closed: throw", "moving: close", "moving: throw", "thrown: close"))
            check("both turnouts of a crossover are drawn", browser.until_is(LABELS, closed), closed)
            button = "document.querySelector('#plan [role=button]')"
            for wanted in (moving, thrown, back, closed):
                if wanted in (moving, back):
                    browser.run(f"{button}.dispatchEvent(new MouseEvent('click', {{ bubbles: true }}))")
                check(f"by one press both move: {wanted[0]}", browser.until_is(LABELS, wanted), wanted)


def try_plans(browser, path, port, address):
    """All of these, by servers of their own."""
    for part in (try_derailed, try_sizes, try_low_windows, try_turnouts, try_many_blocks, try_lists):
        part(browser, path, port, address)
    browser.run("sessionStorage.clear()")
    browser.anew()
