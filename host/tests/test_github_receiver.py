"""Tests of the receiver of webhooks at its socket, and of the spool between it and the host."""
import hmac
import http.client
import json
import os
import shutil
import socket
import ssl
import subprocess
import sys
import tempfile
import threading
import time
import unittest
from hashlib import sha256
from pathlib import Path
from unittest import mock

sys.path.insert(0, str(Path(__file__).resolve().parent.parent))

from gate_host.github import hints  # noqa: E402
from gate_host.github.hints import Hint, changes_in, take  # noqa: E402
from gate_host.github.receiver import PLACE, serve  # noqa: E402

try:
    import waitress
except ImportError:
    waitress = None

SITE = Path(__file__).resolve().parent.parent.parent / "deploy/gate-webhooks.nginx"
NGINX = shutil.which("nginx", path="/usr/sbin:/usr/bin")
OPENSSL = shutil.which("openssl")
SECRET = "correct horse"
BODY = json.dumps({"action": "opened", "number": 7, "pull_request": {"number": 7}}).encode()


def signed(body, secret=SECRET):
    return {"X-Hub-Signature-256": f"sha256={hmac.new(secret.encode(), body, sha256).hexdigest()}"}


@unittest.skipIf(waitress is None, "waitress isn't installed")
class WithReceiver(unittest.TestCase):
    """A receiver at work."""

    def setUp(self):
        room = tempfile.TemporaryDirectory()
        self.addCleanup(room.cleanup)
        self.folder = Path(room.name)
        servers = []
        create = waitress.create_server

        def created(*given, **options):
            servers.append(create(*given, **options))
            return servers[0]
        began = threading.Event()
        with mock.patch.object(waitress, "create_server", created):
            thread = threading.Thread(target=serve, args=(SECRET, self.folder, "127.0.0.1:0", lambda said: began.set()), daemon=True)
            thread.start()
            self.assertTrue(began.wait(20))
        # It ends with the tests.
        self.port = servers[0].effective_port

    def left(self):
        return sorted(it.read_bytes() for it in self.folder.iterdir())


class SocketTests(WithReceiver):
    def post(self, body, headers, method="POST", place=PLACE):
        connection = http.client.HTTPConnection("127.0.0.1", self.port, timeout=20)
        self.addCleanup(connection.close)
        try:
            connection.request(method, place, body, headers)
        except ConnectionError:
            # It was answered before all of it was sent.
            return 413
        return connection.getresponse().status

    def test_what_is_signed_is_kept(self):
        self.assertEqual((self.post(BODY, signed(BODY)), self.left()), (202, [BODY]))
        # One that comes again, by whoever has seen it, has the host look again.
        self.assertEqual((self.post(BODY, signed(BODY)), self.left()), (202, [BODY, BODY]))

    def test_what_is_refused_leaves_nothing(self):
        big = b'{"a":"' + b"x" * (2 * 1048576) + b'"}'
        for body, headers, due in (
            (BODY, {}, 401), (BODY, signed(BODY, "wrong"), 401), (BODY, signed(BODY + b" "), 401), (BODY, signed(BODY, ""), 401),
            (BODY, {"X-Hub-Signature-256": signed(BODY)["X-Hub-Signature-256"].upper()}, 401),
            (BODY, {"X-Hub-Signature": "sha1=" + "0" * 40}, 401), (BODY, {"X-Hub-Signature-256": "sha256=é".encode("latin-1")}, 401),
            (b"x", signed(b"x"), 400), (b"[]", signed(b"[]"), 400), (b"\xff", signed(b"\xff"), 400), (b"", signed(b""), 400),
            (b"[" * 100000, signed(b"[" * 100000), 400), (big, signed(big), 413),
        ):
            self.assertEqual(self.post(body, headers), due, (body[:40], headers))
        for method, place, due in (("GET", PLACE, 405), ("POST", "/", 404), ("POST", f"{PLACE}/x", 404), ("PUT", PLACE, 405)):
            self.assertEqual(self.post(BODY, signed(BODY), method, place), due, (method, place))
        self.assertEqual(self.left(), [])

    def test_a_client_that_stops_leaves_nothing(self):
        with socket.create_connection(("127.0.0.1", self.port), 20) as client:
            head = f"POST {PLACE} HTTP/1.1\r\nHost: x\r\nContent-Length: {len(BODY)}\r\n"
            client.sendall((head + "".join(f"{name}: {value}\r\n" for name, value in signed(BODY).items()) + "\r\n").encode() + BODY[:-1])
        self.assertEqual((self.post(BODY, {}), self.left()), (401, []))

    def test_no_more_than_so_many_wait(self):
        with mock.patch.object(hints, "MOST_WAITING", 2):
            self.assertEqual([self.post(BODY, signed(BODY)) for _ in range(3)], [202, 202, 503])
        self.assertEqual(len(self.left()), 2)

    def test_a_disk_that_is_full_is_told(self):
        with mock.patch.object(os, "fsync", side_effect=OSError(28, "No space left on device")):
            self.assertEqual(self.post(BODY, signed(BODY)), 503)
        self.assertEqual(self.left(), [])


@unittest.skipUnless(NGINX and OPENSSL, "nginx isn't installed")
class ProxyTests(WithReceiver):
    """The receiver behind nginx, with the file of deploy/."""

    def setUp(self):
        super().setUp()
        room = tempfile.TemporaryDirectory()
        self.addCleanup(room.cleanup)
        self.room = Path(room.name)
        self.room.chmod(0o755)
        self.start()

    def start(self):
        names = [OPENSSL, "req", "-x509", "-newkey", "rsa:2048", "-nodes", "-subj", "/CN=localhost", "-days", "2"]
        subprocess.run([*names, "-keyout", "key.pem", "-out", "cert.pem"], cwd=self.room, check=True, capture_output=True, timeout=60)
        with socket.create_server(("127.0.0.1", 0)) as free:
            self.tls = free.getsockname()[1]
        site = SITE.read_text(encoding="utf-8")
        for before, after in (
            ("listen 443 ssl", f"listen 127.0.0.1:{self.tls} ssl"), ("127.0.0.1:8097", f"127.0.0.1:{self.port}"),
            ("/etc/letsencrypt/live/gate.example.com/fullchain.pem", f"{self.room}/cert.pem"),
            ("/etc/letsencrypt/live/gate.example.com/privkey.pem", f"{self.room}/key.pem"),
        ):
            self.assertIn(before, site)
            site = site.replace(before, after)
        temporary = "".join(f"{it}_temp_path {self.room}/{it};\n" for it in ("client_body", "proxy", "fastcgi", "uwsgi", "scgi"))
        text = f"daemon off;\npid {self.room}/pid;\nerror_log stderr;\nevents {{}}\nhttp {{\naccess_log off;\n{temporary}{site}}}\n"
        (self.room / "nginx.conf").write_text(text, encoding="utf-8")
        nginx = subprocess.Popen([NGINX, "-e", "stderr", "-c", str(self.room / "nginx.conf")], stderr=subprocess.PIPE)
        self.addCleanup(nginx.communicate)
        self.addCleanup(nginx.terminate)

    def post(self, body, headers, place=PLACE):
        """The status that comes over TLS, once nginx is there."""
        trusted = ssl.create_default_context(cafile=str(self.room / "cert.pem"))
        trusted.check_hostname = False
        late = time.monotonic() + 20
        while True:
            connection = http.client.HTTPSConnection("127.0.0.1", self.tls, timeout=20, context=trusted)
            self.addCleanup(connection.close)
            try:
                connection.request("POST", place, body, headers)
                return connection.getresponse().status
            except ConnectionRefusedError:
                if time.monotonic() > late:
                    raise
                time.sleep(0.05)

    def test_what_comes_over_tls(self):
        large = b" " * 1048577
        for body, headers, place, due in (
            (BODY, signed(BODY), PLACE, 202), (BODY, signed(BODY, "another"), PLACE, 401), (BODY, {}, PLACE, 401),
            (BODY, signed(BODY), "/", 404), (BODY, signed(BODY), f"{PLACE}/", 404), (large, signed(large), PLACE, 413),
        ):
            self.assertEqual(self.post(body, headers, place), due, (headers, place))
        self.assertEqual(self.left(), [BODY])


class HintTests(unittest.TestCase):
    def test_where_to_look(self):
        for body, due in (
            ({"number": 7, "pull_request": {"number": 7}}, {7}), ({"issue": {"number": 8}}, {8}), ({"sha": "a" * 40}, set()),
            ({"ref": "refs/heads/main"}, set()), ({"number": True, "issue": 7, "pull_request": {"number": -1}}, set()),
            ({"issue": {"number": 2 ** 40}}, set()), ([], set()), (7, set()),
        ):
            self.assertEqual(changes_in(json.dumps(body).encode()), due, body)
        for body in (b"", b"\xff", b"[" * 100000):
            self.assertEqual(changes_in(body), set())

    def test_what_lies_there_is_taken_once(self):
        with tempfile.TemporaryDirectory() as room:
            folder = Path(room)
            self.assertEqual(take(folder), Hint())
            for body in (b'{"number":7}', b'{"number":8}', b'{"number":7}', b"x"):
                hints.leave(folder, body)
            (folder / f"{hints.NAME_OF_PART}x").write_bytes(b'{"number":9}')
            self.assertEqual(take(folder), Hint(frozenset({7, 8}), True))
            self.assertEqual(take(folder), Hint())


if __name__ == "__main__":
    unittest.main()
