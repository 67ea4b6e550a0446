"""What the tests of reports share: a program that stands in for `gate serve`, and the built program, which is the one that GATE_PROGRAM
names, or else the one in crates/gate_bot/out. Without that its tests are skipped, and say so."""
import json
import os
import sys
import tempfile
import time
import unittest
from pathlib import Path

HOST = Path(__file__).resolve().parent.parent
sys.path.insert(0, str(HOST))

from gate_host.places import Places  # noqa: E402

PROGRAM = Path(os.environ.get("GATE_PROGRAM") or HOST.parent / "crates/gate_bot/out/gate_bot")
is_built = unittest.skipUnless(os.access(PROGRAM, os.X_OK), f"there is no program {PROGRAM}")
EMPTY = "base none\nclock 0\n           batch branch  state     prio changes\n"
BATCH = "               1 staging ordered      0 7\n"
SECONDS = 20
# So many things happen by chance.
WALK = 300

# Stands in for `gate serve`. Each start writes its arguments and each request its line to a file beside it. How it behaves is read from
# another one each time: `bind` ends the start, `ends` and `fails` a request. `gone` has another process serve after its own end. With
# `stays` it goes on after its input was closed. Else it ends then, and tells so, if it was started with the option for that.
STAND_IN = """\
#!{python}
import json, os, sys, threading, time
from http.server import BaseHTTPRequestHandler, HTTPServer
from pathlib import Path
room = Path({room!r})
given = dict(zip(sys.argv[2::2], sys.argv[3::2]))
def mode():
    return (room / "mode").read_text().split()
def tell(what):
    with open(room / "seen", "a") as seen:
        seen.write(json.dumps(what) + "\\n")
class Answers(BaseHTTPRequestHandler):
    def do(self):
        body = self.rfile.read(int(self.headers.get("Content-Length") or 0)).decode()
        tell([self.command, self.path, body])
        words = mode()
        if "ends" in words:
            os._exit(3)
        if "silent" in words:
            time.sleep(60)
        text = (room / "texts" / self.path.strip("/").replace("/", "-"))
        status = 401 if self.headers["Authorization"] != "Bearer " + Path(given["--token"]).read_text().strip() else 200
        status = 503 if "fails" in words else status if self.command == "POST" or text.exists() else 404
        content = text.read_bytes() if status == 200 and self.command == "GET" else b""
        self.send_response(status)
        self.send_header("Content-Length", str(len(content)))
        self.end_headers()
        self.wfile.write(content)
    do_GET = do_POST = do
    def log_message(self, *_):
        pass
def end_with_input():
    sys.stdin.read()
    if "stays" not in mode():
        tell(["end of input"])
        os._exit(0)
tell(sys.argv[1:])
if "bind" in mode():
    left = int(mode()[1])
    (room / "mode").write_text(f"bind {{left - 1}}" if left > 1 else "good")
    sys.exit("gate: Bind")
if "fault" in mode():
    sys.exit("gate: File")
if "slow" in mode():
    while "slow" in mode():
        time.sleep(0.01)
server = HTTPServer(("127.0.0.1", int(given["--port"])), Answers)
if "gone" in mode() and os.fork():
    print(f"listening on 127.0.0.1:{{given['--port']}}", flush=True)
    os._exit(0)
if "gone" in mode():
    (room / "impostor").write_text(str(os.getpid()))
    server.handle_request()
    os._exit(0)
if "--until-input-ends" in sys.argv:
    threading.Thread(target=end_with_input, daemon=True).start()
print("hello" if "other" in mode() else f"listening on 127.0.0.1:{{given['--port']}}", flush=True)
server.serve_forever()
"""


class WithStandIn(unittest.TestCase):
    """A repository with records, and a program that stands in for the bot."""

    def setUp(self):
        room = tempfile.TemporaryDirectory()
        self.addCleanup(room.cleanup)
        self.room = Path(room.name)
        self.places = Places(self.room / "project.git")
        self.places.reports.mkdir(parents=True)
        self.places.records.mkdir()
        (self.room / "texts").mkdir()
        self.program = self.room / "program"
        self.program.write_text(STAND_IN.format(python=sys.executable, room=str(self.room)), encoding="utf-8")
        self.program.chmod(0o755)
        self.behave("good")
        self.put("queue", EMPTY)

    def behave(self, mode):
        part = self.room / "part"
        part.write_text(mode, encoding="utf-8")
        part.replace(self.room / "mode")

    def put(self, name, text):
        """What the program is to say of the queue or of a change."""
        (self.room / "texts" / name).write_text(text, encoding="utf-8")

    def seen(self):
        """What the program was started with and asked for, one after the other."""
        path = self.room / "seen"
        return [json.loads(line) for line in path.read_text(encoding="utf-8").splitlines()] if path.exists() else []

    def requests(self):
        return [it for it in self.seen() if it[0] in ("GET", "POST")]

    def starts(self):
        return [it for it in self.seen() if it[0] == "serve"]

    def until(self, what, is_so):
        late = time.monotonic() + SECONDS
        while not is_so():
            self.assertLess(time.monotonic(), late, what)
            time.sleep(0.02)


def is_there(process):
    """Whether a process is there, and more than a number."""
    status = Path(f"/proc/{process}/stat")
    try:
        return ") Z " not in status.read_text(encoding="utf-8")
    except FileNotFoundError:
        return False
