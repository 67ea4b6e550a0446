"""Tests of the pages of the queue as the receiver serves them: by values, at its socket, and behind nginx with the lines of deploy/."""
import base64
import http.client
import re
import shutil
import subprocess
import sys
import tempfile
import threading
import time
import unittest
import urllib.error
import urllib.request
from pathlib import Path
from socket import create_server
from unittest import mock

sys.path.insert(0, str(Path(__file__).resolve().parent.parent))

from gate_host.github import served_page  # noqa: E402
from gate_host.github.receiver import serve  # noqa: E402
from gate_host.github.served_page import Page, file_at, is_known  # noqa: E402
from gate_host.showing.looks import POLICY_IN_HEADER  # noqa: E402

try:
    import waitress
except ImportError:
    waitress = None

TOP = Path(__file__).resolve().parent.parent.parent
SITE, PAGE = TOP / "deploy/gate-webhooks.nginx", TOP / "docs/questions.md"
NGINX = shutil.which("nginx", path="/usr/sbin:/usr/bin")
FILES = {
    "index.html": "<p>queue</p>", "queue.json": "{}", "metrics.prom": "gate_up 1\n", "change-7.html": "<p>7</p>", "change-7": "ten lines",
    "log-7": "a log", "checks/1-0-build": "an output", "../settings": "a secret",
}


class WithReports(unittest.TestCase):
    def setUp(self):
        room = tempfile.TemporaryDirectory()
        self.addCleanup(room.cleanup)
        self.room = Path(room.name)
        self.room.chmod(0o755)
        self.folder = self.room / "gate/reports"
        for name, text in FILES.items():
            path = self.folder / name
            path.parent.mkdir(parents=True, exist_ok=True)
            path.write_text(text, encoding="utf-8")


class AnswerTests(WithReports):
    def get(self, place, method="GET", known=""):
        return Page(self.folder).answer(method, place, known)

    def test_which_files_there_are(self):
        for place, due in (
            ("/", "index.html"), ("/index.html", "index.html"), ("/queue.json", "queue.json"), ("/metrics", "metrics.prom"),
            ("/change-7.html", "change-7.html"), ("/change-2147483647.html", "change-2147483647.html"),
        ):
            self.assertEqual(file_at(place)[0], due)
        for place in (
            "", "//", "/change-7", "/log-7", "/checks/1-0-build", "/../settings", "/change-07.html", "/change-0.html", "/change--7.html",
            "/change-7.html/", "/change-7.html\n", "/change-\u0667.html", "/change-99999999999.html", "/change-../7.html", "/metrics.prom",
            "/index.html/../queue.json", "/queue.json\x00", "/.pages-written-up-to", "None", "/change-9999999999.html",
        ):
            self.assertIsNone(file_at(place), place)
            self.assertEqual(self.get(place).status, "404 Not Found")

    def test_what_is_answered(self):
        for place, kind, name in (
            ("/", "text/html; charset=utf-8", "index.html"), ("/change-7.html", "text/html; charset=utf-8", "change-7.html"),
            ("/queue.json", "application/json", "queue.json"), ("/metrics", "text/plain; version=0.0.4; charset=utf-8", "metrics.prom"),
        ):
            served = self.get(place)
            headers = dict(served.headers)
            self.assertEqual((served.status, served.body.decode(), headers["Content-Type"]), ("200 OK", FILES[name], kind))
            self.assertEqual(headers["Content-Length"], str(len(FILES[name])))
            self.assertEqual((headers["Cache-Control"], headers["X-Content-Type-Options"]), ("no-cache", "nosniff"))
            self.assertEqual(headers["Content-Security-Policy"], POLICY_IN_HEADER)
            head = self.get(place, "HEAD")
            self.assertEqual((head.status, dict(head.headers), head.body), ("200 OK", headers, b""))
        self.assertEqual(self.get("/change-8.html").status, "404 Not Found")
        for method in ("POST", "PUT", "DELETE", "get", ""):
            served = self.get("/", method)
            self.assertEqual((served.status, dict(served.headers)["Allow"]), ("405 Method Not Allowed", "GET, HEAD"))

    def test_what_a_client_has_already(self):
        tag = dict(self.get("/").headers)["ETag"]
        for known, due in (
            (tag, True), (f"W/{tag}", True), (f'"x", {tag}', True), ("*", True), ('"x"', False), ("", False), (tag[1:-1], False),
        ):
            self.assertEqual(is_known(tag, known), due, known)
            self.assertEqual(self.get("/", known=known).status, "304 Not Modified" if due else "200 OK")
        self.assertEqual(self.get("/", known=tag).body, b"")
        (self.folder / "index.html").write_text("<p>other</p>", encoding="utf-8")
        self.assertEqual(self.get("/", known=tag).status, "200 OK")

    def test_what_is_no_file(self):
        for make in (lambda path: path.symlink_to(self.room / "gate/settings"), Path.mkdir):
            (self.folder / "change-7.html").unlink(missing_ok=True)
            make(self.folder / "change-7.html")
            self.assertEqual(self.get("/change-7.html").status, "404 Not Found")
        with mock.patch.object(served_page, "MOST_BYTES", 3):
            self.assertEqual(self.get("/").status, "404 Not Found")


@unittest.skipIf(waitress is None, "waitress isn't installed")
class WithServer(WithReports):
    has_page = True

    def setUp(self):
        super().setUp()
        servers, began, create = [], threading.Event(), waitress.create_server

        def created(*given, **options):
            servers.append(create(*given, **options))
            return servers[0]
        (self.room / "webhooks").mkdir()
        page = Page(self.folder) if self.has_page else None
        given = ("secret", self.room / "webhooks", "127.0.0.1:0", lambda said: began.set(), page)
        with mock.patch.object(waitress, "create_server", created):
            threading.Thread(target=serve, args=given, daemon=True).start()
            self.assertTrue(began.wait(20))
        self.port = servers[0].effective_port

    def ask(self, method, place, **headers):
        connection = http.client.HTTPConnection("127.0.0.1", self.port, timeout=20)
        self.addCleanup(connection.close)
        connection.request(method, place, headers=headers)
        return connection.getresponse()


class SocketTests(WithServer):
    def test_the_page_beside_webhooks(self):
        for method, place, due in (
            ("GET", "/", 200), ("HEAD", "/", 200), ("GET", "/change-7.html?x=1", 200), ("GET", "/metrics", 200), ("POST", "/", 405),
            ("GET", "/webhook", 405), ("POST", "/webhook", 401), ("GET", "/%2e%2e/settings", 404), ("GET", "/log-7", 404),
            ("GET", "/..%2fsettings", 404), ("GET", "/checks/1-0-build", 404),
        ):
            self.assertEqual(self.ask(method, place).status, due, (method, place))
        answer = self.ask("GET", "/")
        self.assertEqual((answer.read().decode(), answer.headers["Content-Type"]), (FILES["index.html"], "text/html; charset=utf-8"))
        again = self.ask("GET", "/", **{"If-None-Match": answer.headers["ETag"]})
        self.assertEqual((again.status, again.read(), again.headers["ETag"]), (304, b"", answer.headers["ETag"]))
        self.assertEqual(self.ask("HEAD", "/").headers["Content-Length"], str(len(FILES["index.html"])))


class WithoutPageTests(WithServer):
    has_page = False

    def test_nothing_is_served_if_the_owner_has_not_asked_for_it(self):
        for place in ("/", "/index.html", "/change-7.html", "/metrics", "/queue.json"):
            self.assertEqual(self.ask("GET", place).status, 404, place)


@unittest.skipUnless(NGINX, "nginx isn't installed")
class NginxTests(WithServer):
    def begin(self, site):
        """Starts nginx with a site, and gives its port."""
        with create_server(("127.0.0.1", 0)) as free:
            port = free.getsockname()[1]
        site = re.sub(r"listen [^;]*;", f"listen 127.0.0.1:{port};", site)
        temporary = "".join(f"{it}_temp_path {self.room}/{it};\n" for it in ("client_body", "proxy", "fastcgi", "uwsgi", "scgi"))
        text = f"daemon off;\npid {self.room}/pid;\nerror_log stderr;\nevents {{}}\nhttp {{\naccess_log off;\n{temporary}{site}}}\n"
        (self.room / "nginx.conf").write_text(text, encoding="utf-8")
        nginx = subprocess.Popen([NGINX, "-e", "stderr", "-c", str(self.room / "nginx.conf")], stderr=subprocess.DEVNULL)
        self.addCleanup(nginx.wait)
        self.addCleanup(nginx.terminate)
        return port

    def get(self, port, place, **headers):
        """The status, the type and the text."""
        late = time.monotonic() + 20
        while True:
            try:
                asked = urllib.request.Request(f"http://127.0.0.1:{port}{place}", headers=headers)
                with urllib.request.urlopen(asked, timeout=20) as answer:
                    return answer.status, answer.headers["Content-Type"], answer.read().decode()
            except urllib.error.HTTPError as refused:
                return refused.code, "", ""
            except urllib.error.URLError:
                if time.monotonic() > late:
                    raise
                time.sleep(0.05)

    def test_the_lines_of_deploy(self):
        """Without their marks they ask for a password. The certificate is left out."""
        (self.room / "passwords").write_text("ines:{PLAIN}word\n", encoding="utf-8")
        site = SITE.read_text(encoding="utf-8").replace("127.0.0.1:8097", f"127.0.0.1:{self.port}")
        site = site.replace("/etc/nginx/gate-page.passwords", f"{self.room}/passwords")
        site = re.sub(r"(?m)^    ssl_.*\n", "", re.sub(r"(?m)^    #(location|    |})", r"    \1", site))
        port = self.begin(site)
        asked = {"Authorization": f"Basic {base64.b64encode(b'ines:word').decode()}"}
        for place, due in (("/", 200), ("/index.html", 200), ("/queue.json", 200), ("/change-7.html", 200)):
            self.assertEqual((self.get(port, place)[0], self.get(port, place, **asked)[0]), (401, due), place)
        for place in ("/metrics", "/log-7", "/x/index.html"):
            self.assertEqual(self.get(port, place, **asked)[0], 404, place)

    def test_the_lines_for_a_bare_repository(self):
        found, = re.findall(r"```nginx\n(.*?)```", PAGE.read_text(encoding="utf-8"), re.DOTALL)
        self.assertIn("/srv/git/project.git", found)
        port = self.begin(found.replace("/srv/git/project.git", str(self.room)))
        for place, kind, name in (
            ("/", "text/html; charset=utf-8", "index.html"), ("/index.html", "text/html; charset=utf-8", "index.html"),
            ("/change-7.html", "text/html; charset=utf-8", "change-7.html"),
            ("/queue.json", "application/json; charset=utf-8", "queue.json"),
            ("/metrics", "text/plain; charset=utf-8", "metrics.prom"),
        ):
            self.assertEqual(self.get(port, place), (200, kind, FILES[name]), place)
        for place in ("/log-7", "/change-7", "/checks/1-0-build", "/checks/", "/../settings", "/%2e%2e/settings", "/metrics.prom"):
            self.assertIn(self.get(port, place)[0], (400, 404), place)


if __name__ == "__main__":
    unittest.main()
