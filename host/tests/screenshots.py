#!/usr/bin/env python3
"""Makes the screenshots of docs/screenshots, of pages with made-up queues. It needs Debian's packages chromium and pngquant, and with
fonts-inter the pictures have the same letters as before.

    screenshots.py [FOLDER]
"""
import subprocess
import sys
import tempfile
from pathlib import Path

TESTS = Path(__file__).resolve().parent
sys.dont_write_bytecode = True
sys.path[:0] = [str(TESTS.parent), str(TESTS)]

from browser import Browser, Tab  # noqa: E402
from gate_host.showing.change_page import page_of_change  # noqa: E402
from gate_host.showing.pages import page_of_queue  # noqa: E402
from shown_things import AROUND, BROKEN, BUSY, CALM, CHANGE, ENDED, FROZEN, LOG  # noqa: E402

# Each picture: its page, its width and the most of its height, and whether it is dark.
PICTURES = {
    "busy": (page_of_queue(BUSY), 1180, 1500, False), "calm": (page_of_queue(CALM), 1180, 1000, False),
    "frozen": (page_of_queue(FROZEN), 1180, 640, False), "broken": (page_of_queue(BROKEN), 1180, 640, False),
    "ended": (page_of_queue(ENDED), 1180, 640, False), "change": (page_of_change(CHANGE, LOG, AROUND), 1180, 1300, False),
    "narrow": (page_of_queue(BUSY), 360, 1500, False), "dark": (page_of_queue(BUSY), 1180, 1500, True),
}
COLOURS = "64"


def shoot(browser, page, room, picture, width, most, is_dark):
    """Takes a picture. Scripts are off, since the time of the pages isn't now."""
    file = room / "page.html"
    file.write_text(page.replace('<span id="age"></span>', '<span id="age">(4 seconds ago)</span>'), encoding="utf-8")
    tab = Tab(browser, width, 400, is_dark, has_scripts=False)
    tab.load(file.as_uri())
    height = min(most, round(tab.height()))
    tab.ask("Emulation.setDeviceMetricsOverride", width=width, height=height, deviceScaleFactor=1, mobile=width < 600)
    tab.picture(picture)
    tab.close()


def main():
    folder = Path(sys.argv[1] if sys.argv[1:] else TESTS.parent.parent / "docs/screenshots").resolve()
    folder.mkdir(parents=True, exist_ok=True)
    with tempfile.TemporaryDirectory() as name:
        room = Path(name)
        browser = Browser(room / "profile")
        try:
            for name, (page, width, most, is_dark) in PICTURES.items():
                picture = folder / f"{name}.png"
                shoot(browser, page, room, picture, width, most, is_dark)
                subprocess.run(["pngquant", "--force", "--ext=.png", "--strip", COLOURS, str(picture)], check=True, timeout=60)
                print(f"{picture}: {picture.stat().st_size} bytes")
        finally:
            browser.close()


if __name__ == "__main__":
    main()
