"""The pages in Chromium: of made-up queues, with hostile texts, and of a real run of the host. Without it they are skipped."""
import http.server
import os
import sys
import tempfile
import threading
import unittest
from concurrent.futures import ThreadPoolExecutor
from dataclasses import replace
from pathlib import Path

sys.path.insert(0, str(Path(__file__).resolve().parent.parent))

from gate_host.showing.change_page import page_of_change  # noqa: E402
from gate_host.showing.logs import Entry  # noqa: E402
from gate_host.showing.looks import SCRIPT, STYLE, source_of  # noqa: E402
from gate_host.showing.pages import page_of_queue  # noqa: E402

from browser import CHROMIUM, Browser, Tab  # noqa: E402
from shown_things import AROUND, BROKEN, BUSY, CALM, CHANGE, ENDED, FROZEN, LOG, NOW  # noqa: E402
from stand_in import PROGRAM  # noqa: E402
from stories import Calm  # noqa: E402
from test_showing_core import HOSTILE, poisoned  # noqa: E402

PAGES = {
    "busy": page_of_queue(BUSY), "calm": page_of_queue(CALM), "frozen": page_of_queue(FROZEN), "broken": page_of_queue(BROKEN),
    "ended": page_of_queue(ENDED), "change": page_of_change(CHANGE, LOG, AROUND),
}
# Each text is seen as it was written, but for what a terminal obeys.
SEEN = "document.body.innerText"
# The least contrast of a text with its ground, for texts of this size.
CONTRAST = 4.5
MEASURE = """(() => {
  const parts = (text) => text.match(/[0-9.]+/g).map(Number);
  const light = (text) => { const [r, g, b] = parts(text).slice(0, 3).map((it) => it / 255).map((it) =>
    it <= 0.04045 ? it / 12.92 : ((it + 0.055) / 1.055) ** 2.4); return 0.2126 * r + 0.7152 * g + 0.0722 * b; };
  const ground = (it) => { for (; it; it = it.parentElement) {
    const found = getComputedStyle(it).backgroundColor; if ((parts(found)[3] ?? 1) > 0) return found; } return "rgb(255, 255, 255)"; };
  const found = {};
  for (const it of document.querySelectorAll("body *")) {
    if (![...it.childNodes].some((child) => child.nodeType === 3 && child.data.trim()) || it.closest("script, [hidden]")) continue;
    const [one, other] = [light(getComputedStyle(it).color), light(ground(it))].sort((a, b) => b - a);
    found[it.tagName + "." + it.className] = (one + 0.05) / (other + 0.05);
  }
  return found;
})()"""


class Quiet(http.server.SimpleHTTPRequestHandler):
    """Serves a folder, and says nothing. A file that was written twice in a second is sent twice."""

    def do_GET(self):
        del self.headers["If-Modified-Since"]
        super().do_GET()

    def log_message(self, *_):
        pass


@unittest.skipUnless(CHROMIUM, "chromium isn't installed")
class WithBrowser(unittest.TestCase):
    @classmethod
    def setUpClass(cls):
        room = tempfile.TemporaryDirectory()
        cls.addClassCleanup(room.cleanup)
        cls.room = Path(room.name)
        cls.folder = cls.room / "reports"
        cls.folder.mkdir()
        cls.browser = Browser(cls.room / "profile")
        cls.addClassCleanup(cls.browser.close)
        server = http.server.ThreadingHTTPServer(("127.0.0.1", 0), lambda *given: Quiet(*given, directory=str(cls.folder)))
        cls.addClassCleanup(server.server_close)
        cls.addClassCleanup(server.shutdown)
        threading.Thread(target=server.serve_forever, daemon=True).start()
        cls.address = f"http://127.0.0.1:{server.server_address[1]}"

    def tab(self, **more):
        tab = Tab(self.browser, **more)
        self.addCleanup(tab.close)
        return tab

    def write(self, name, page):
        (self.folder / name).write_text(page, encoding="utf-8")

    def show(self, tab, page, name="index.html"):
        self.write(name, page)
        tab.load(f"{self.address}/{name}")


class LookTests(WithBrowser):
    def test_each_page_light_and_dark_wide_and_narrow(self):
        """Nothing is refused or fails, nothing is loaded besides, nothing has to be scrolled sideways, and all is dark or light enough."""
        for width in (1200, 320):
            for is_dark in (False, True):
                tab = self.tab(width=width, is_dark=is_dark)
                for name, page in PAGES.items():
                    with self.subTest(page=name, width=width, is_dark=is_dark):
                        self.show(tab, page)
                        self.assertEqual(tab.errors(), [])
                        self.assertEqual([it for it in tab.requested() if not it.startswith("data:")], [f"{self.address}/index.html"])
                        self.assertLessEqual(tab.width(), width)
                        self.assertEqual({name: ratio for name, ratio in tab.run(MEASURE).items() if ratio < CONTRAST}, {})
        self.assertNotEqual(tab.run("getComputedStyle(document.body).backgroundColor"), "rgb(252, 251, 249)")

    def test_widths_between(self):
        """The times are of the day before the page was made, so that stands before each."""
        tab = self.tab(has_scripts=False)
        for width in (320, 360, 640, 800, 1023, 1024, 1400):
            tab.ask("Emulation.setDeviceMetricsOverride", width=width, height=800, deviceScaleFactor=1, mobile=False)
            self.show(tab, page_of_queue(replace(BUSY, at=NOW + 86400)))
            self.assertLessEqual(tab.width(), width)

    def test_it_can_be_read_without_scripts(self):
        tab = self.tab(has_scripts=False)
        self.show(tab, PAGES["busy"])
        said = tab.ask("DOM.getOuterHTML", nodeId=tab.ask("DOM.getDocument")["root"]["nodeId"])["outerHTML"]
        self.assertIn("14:05:20</time>", said)
        names = [name for role, name in tab.tree() if role == "StaticText"]
        for due in ("Batch 89 is being tested", "Parser: keep the place of each token", "14:05:20", "UTC", "waits for batch 89"):
            self.assertIn(due, names)
        self.assertEqual(tab.errors(), [])

    def test_what_a_screen_reader_is_told(self):
        for width in (1200, 320):
            tab = self.tab(width=width)
            self.show(tab, PAGES["busy"])
            tree = tab.tree()
            for due in (
                ("banner", ""), ("main", ""), ("contentinfo", ""), ("heading", "Batch 89 is being tested"), ("region", "Running"),
                ("region", "Waiting 5 changes in 3 batches"), ("table", "What waits, in the order of service"),
                ("columnheader", "Approved by"), ("rowheader", "409"), ("rowheader", "Batch 91 priority 5 waits for batch 89"),
                ("list", "The required checks of batch 89"), ("link", "409"), ("cell", "rosa" if width > 600 else " · approved by rosa"),
            ):
                self.assertTrue(due in tree, (due, width))

    def test_the_keyboard_reaches_all(self):
        tab = self.tab()
        self.show(tab, PAGES["busy"])
        found = []
        for _ in range(4):
            for kind in ("keyDown", "keyUp"):
                tab.ask("Input.dispatchKeyEvent", type=kind, key="Tab", code="Tab", windowsVirtualKeyCode=9)
            found.append(tab.run("document.activeElement.textContent"))
        self.assertEqual(found, ["Skip to the content", "409", "411", "420"])


class HostileTests(WithBrowser):
    def test_texts_are_shown_as_they_are(self):
        tab, narrow = self.tab(), self.tab(width=320)
        for text in HOSTILE:
            with self.subTest(text[:30]):
                self.write("change-409.html", page_of_change(
                    replace(CHANGE, title=text, author=text, report=f"author    {text}"), [Entry(NOW, f"{text}\n> {text}")], AROUND))
                for place, page in (("index.html", page_of_queue(poisoned(text))), ("change-409.html", None)):
                    if page:
                        self.write(place, page)
                    tab.load(f"{self.address}/{place}")
                    self.assertEqual(tab.errors(), [])
                    self.assertEqual(tab.run("document.querySelectorAll('script, img, svg, iframe, style').length"), 2)
                    due = "".join(it if it.isprintable() else "?" for it in text)[:300]
                    self.assertIn(due, tab.run(SEEN))
                    self.assertFalse(tab.run("[...document.links].some((it) => it.protocol !== 'http:')"))
                    if text in (HOSTILE[0], HOSTILE[-1]):
                        narrow.load(f"{self.address}/{place}")
                        self.assertLessEqual(narrow.width(), 320, place)

    def test_what_is_not_escaped_does_nothing_either(self):
        """The policy names the style and the script alone, so what is put into the page runs nowhere."""
        tab = self.tab()
        for evil in ("<script>document.title = 'taken'</script>", "<img src=x onerror=\"document.title = 'taken'\">",
                     "<style>body { display: none }</style>", "<base href='https://x'>"):
            self.show(tab, PAGES["calm"].replace("<h1>", f"{evil}<h1>"))
            self.assertNotEqual(tab.run("document.title"), "taken")
            self.assertEqual(tab.run("getComputedStyle(document.body).display"), "block")
            self.assertTrue([it for it in tab.errors() if "Content Security Policy" in it], evil)


class ScriptTests(WithBrowser):
    def test_it_renews_the_page(self):
        tab = self.tab(height=300)
        self.show(tab, PAGES["busy"])
        link = "document.querySelector('a[href=\"change-420.html\"]')"
        tab.run(f"scrollTo(0, 200); {link}.focus({{preventScroll: true}}); window.mark = 1")
        place = tab.run(f"Math.round({link}.getBoundingClientRect().top)")
        self.write("index.html", page_of_queue(replace(BUSY, broken=BROKEN.broken, troubles=("x", "y", "z"))))
        self.renew(tab)
        tab.until("the page is renewed", lambda: "main is broken" in tab.run(SEEN))
        # It is the same document, what was read is at the same place, and the same link is the one with the focus.
        found = tab.run(f"[mark, Math.round({link}.getBoundingClientRect().top), document.activeElement.getAttribute('href')]")
        self.assertEqual(found, [1, place, "change-420.html"])
        self.assertEqual(tab.run("document.title"), "main is broken · main of project.git")
        self.assertEqual(tab.errors(), [])

    def renew(self, tab):
        """As the script does by and by, when the page comes to be seen."""
        tab.run("document.dispatchEvent(new Event('visibilitychange'))")

    def test_it_renews_by_itself(self):
        """The pauses are made short, in the page and in its policy."""
        quick = SCRIPT.replace("fetched = 10000", "fetched = 50")

        def hurried(page):
            return page.replace(SCRIPT, quick).replace(source_of(SCRIPT).replace("'", "&#x27;"), source_of(quick).replace("'", "&#x27;"))
        tab = self.tab()
        self.show(tab, hurried(PAGES["busy"]))
        self.write("index.html", hurried(PAGES["calm"]))
        tab.until("the page is renewed", lambda: "Nothing runs, and nothing waits" in tab.run(SEEN))
        # While it is hidden it asks for nothing.
        tab.run("Object.defineProperty(document, 'hidden', {value: true, configurable: true})")
        tab.run("new Promise((it) => setTimeout(it, 200))")
        self.browser.events.clear()
        tab.run("new Promise((it) => setTimeout(it, 500))")
        self.assertEqual(tab.requested(), [])
        self.assertEqual(tab.errors(), [])

    def test_another_script_or_style_is_loaded_anew(self):
        tab = self.tab()
        self.show(tab, PAGES["busy"])
        tab.run("window.mark = 1")
        self.write("index.html", PAGES["calm"].replace(STYLE, f"{STYLE}/* another version */"))
        self.renew(tab)
        tab.until("the page is loaded", lambda: tab.run("window.mark") is None and "Nothing runs" in tab.run(SEEN))

    def test_what_is_wrong_with_the_server_changes_nothing(self):
        tab = self.tab()
        self.show(tab, PAGES["busy"])
        (self.folder / "index.html").unlink()
        self.renew(tab)
        tab.run("new Promise((it) => setTimeout(it, 300))")
        self.assertIn("Batch 89 is being tested", tab.run(SEEN))

    def test_times_are_in_the_zone_of_the_reader(self):
        tab = self.tab()
        tab.ask("Emulation.setTimezoneOverride", timezoneId="Asia/Dhaka")
        self.show(tab, PAGES["change"])
        self.assertIn("Asia/Dhaka", tab.run("document.querySelector('footer').innerText"))
        shown = tab.run("document.getElementById('made').textContent")
        # That is 20:05:20 there. On another day that stands before it, and in another year alone.
        self.assertTrue(shown.endswith("20:05:20") or shown == "30 Nov 2026", shown)

    def test_an_old_page_says_so_if_something_waits(self):
        tab = self.tab()
        for page, is_late in ((PAGES["busy"], True), (PAGES["calm"], False), (PAGES["ended"], False)):
            self.show(tab, page)
            self.assertEqual("older than it should be" in tab.run(SEEN), is_late)
            self.assertIn("ago)", tab.run("document.getElementById('age').textContent"))

    def test_as_a_file(self):
        tab = self.tab(height=300)
        quick = SCRIPT.replace("reloaded = 30000", "reloaded = 300")
        page = PAGES["busy"].replace(SCRIPT, quick)
        page = page.replace(source_of(SCRIPT).replace("'", "&#x27;"), source_of(quick).replace("'", "&#x27;"))
        self.write("file.html", page)
        tab.load((self.folder / "file.html").as_uri())
        tab.run("scrollTo(0, 150); window.mark = 1")
        tab.until("it is loaded again", lambda: tab.run("window.mark") is None and tab.run("document.readyState") == "complete")
        self.assertEqual(tab.run("scrollY"), 150)
        self.assertEqual(tab.errors(), [])


class Small(Calm):
    """A change that lands, and one that fails."""

    changes = (1, 5)
    sandbox = "off"

    def happen(self):
        self.push_named(1, "<script>alert(1)</script>", "true\n")
        self.push_named(5, "change 5", "exit 3\n")
        for change in self.changes:
            self.until(f"there is a report of change {change}", lambda: self.report(f"change-{change}"))
            self.say("rosa", change, "bors r+")
            self.until("it has landed or was refused", lambda: change in self.landed() | self.refused())

    def push_named(self, change, title, text):
        head = self.commit(["--detach", self.first], {f"parts/number-{change}": text}, title)
        self.must_git("push", "--quiet", "--force", "origin", f"HEAD:refs/heads/change/{change}", at=self.clone, person="ines")
        self.heads[change] = head


class Played:
    """A story that is played while other tests run."""

    def __init__(self):
        memory = Path("/dev/shm")
        self.room = tempfile.TemporaryDirectory(dir=memory if os.access(memory, os.W_OK) else None)
        self.thread = ThreadPoolExecutor(1)
        self.story = self.thread.submit(self.play)

    def play(self):
        story = Small(PROGRAM, self.room.name)
        story.play()
        return story

    def close(self):
        self.thread.shutdown()
        self.room.cleanup()


PLAYED = []


def setUpModule():
    if CHROMIUM and os.access(PROGRAM, os.X_OK):
        PLAYED.append(Played())
        unittest.addModuleCleanup(PLAYED[0].close)


@unittest.skipUnless(os.access(PROGRAM, os.X_OK), f"there is no program {PROGRAM}")
class RealTests(WithBrowser):
    def test_the_pages_of_a_host(self):
        story, tab = PLAYED[0].story.result(), self.tab()
        for name, due in (
            ("index.html", ("No host runs", "<script>alert(1)</script>", "it fails the check build (Failed)", '["build", "lint"]')),
            ("change-1.html", ("Change 1 has landed", "rosa wrote:", "bors r+", "Landed on main as")),
            ("change-5.html", ("Change 5 is open", "failed: it ended with status 1 after")),
        ):
            tab.load((story.repository / "gate/reports" / name).as_uri())
            said = tab.run(SEEN)
            for text in due:
                self.assertIn(text, said)
            self.assertEqual(tab.errors(), [])
        tab.run("document.querySelector('.where a').click()")
        tab.until("the link leads to the queue", lambda: "No host runs" in (tab.run("document.body?.innerText") or ""))


if __name__ == "__main__":
    unittest.main()
