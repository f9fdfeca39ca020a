"""The page as it is opened in a browser: its address, and how one waits for it."""

import urllib.parse
from pathlib import Path

from checkout import TOP

PAGE = TOP / "web" / "bfqhost.html"
# A page is ready if it has drawn a place.
READY = "return document.documentElement.dataset.step !== undefined"
STEP = "return document.documentElement.dataset.step"
TEXT = "return document.getElementById(arguments[0]).textContent"


def address(path=PAGE, **words):
    """The address of a page with words in its fragment."""
    return f"{Path(path).as_uri()}#{urllib.parse.urlencode(words)}"


def opened(it, url):
    """Opens a page, and waits until it has drawn a place."""
    it.open(url)
    it.until(READY)
