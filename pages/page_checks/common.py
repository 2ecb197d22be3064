"""What the checks of the page share: the folder, and the lines of the table."""

import pathlib
import sys

TOP = pathlib.Path(__file__).resolve().parents[2]
PAGE = TOP / "pages/throttle.html"
sys.path.insert(0, str(TOP / "tests"))
# Whether an element is in the window, all of it.
IN_SIGHT = """
const { top, bottom, left, right } = document.querySelector(arguments[0]).getBoundingClientRect();
return top >= 0 && left >= 0 && bottom <= innerHeight && right <= innerWidth;
"""
# How many checks passed and failed.
counts = {True: 0, False: 0}


def check(name, found, wanted=True):
    """A line of the table."""
    same = found == wanted
    counts[same] += 1
    print(f"{'ok' if same else 'NO':2}  {name}", flush=True)
    if not same:
        print(f"    wanted: {wanted}\n    came:   {found}")
