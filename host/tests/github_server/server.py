"""The server: GitHub on a port of this machine, with its API below /api/v3, as GitHub Enterprise Server has it, and git at the top."""
import re
import socket
import threading
import time
import traceback
from http.server import BaseHTTPRequestHandler, ThreadingHTTPServer
from pathlib import Path
from typing import Optional
from urllib.parse import unquote, urlsplit

from .events import Events
from .git_http import Call, GitHttp, Reply, about_of, operation_of
from .model import World
from .people import People
from .pushes import Pushes
from .rest import Rest
from .routes import DOCS, Routes
from .shapes_of_checks import ShapesOfChecks
from .switches import Fault, Request, Switches
from .tokens import Asker, Refused, Tokens
from .webhooks import Webhooks

API = "/api/v3"
# Headers that could have a secret.
SECRET = ("authorization", "cookie", "proxy-authorization")
UNICORN = b"<html><body><h1>Whoa there!</h1><p>This page is taking too long to load.</p></body></html>"


class GitHub:
    """The server with all of its parts. It is a context, which ends it.

    world: what it knows, with its clock. people: what people and CI do. switches: what happens to requests, and the record of them.
    webhooks: what happens to webhooks, and the record of them. pushes: whether what follows from pushes takes its time.
    """

    def __init__(self, room: Path, port: int = 0) -> None:
        self.world, self.switches = World(), Switches()
        self.shapes, self.webhooks = ShapesOfChecks(self.world), Webhooks(self.world)
        self.tokens = Tokens(self.world)
        self.events = Events(self.world, self.shapes, self.webhooks)
        self.pushes = Pushes(self.world, self.shapes, self.events)
        self.people = People(self.world, self.events, self.pushes, Path(room))
        self.routes = Routes(self.world, self.shapes, self.tokens, self.people, self.webhooks)
        self.rest = Rest(self.world, self.routes, self.switches)
        self.git = GitHttp(self.world, self.people, self.pushes)
        # What went wrong in the server itself. Tests look whether it is empty.
        self.troubles: list = []
        handler = type("Handler", (Handler,), {"hub": self})
        self.server = Server(("127.0.0.1", port), handler)
        self.port = self.server.server_address[1]
        # The addresses of git and of the API.
        self.url = f"http://127.0.0.1:{self.port}"
        self.api = self.url + API
        self.shapes.site, self.shapes.api, self.rest.api = self.url, self.api, self.api
        self.thread = threading.Thread(target=self.server.serve_forever, kwargs={"poll_interval": 0.05}, name="server", daemon=True)
        self.thread.start()

    def installation_token(self) -> str:
        """A new token of the installation, without asking for it over HTTP."""
        app = self.world.app
        if app is None:
            raise LookupError("no app is installed")
        return self.tokens.give(app, dict(app.permissions), None).text

    def __enter__(self) -> "GitHub":
        return self

    def __exit__(self, *fault: object) -> None:
        self.close()

    def close(self) -> None:
        self.server.shutdown()
        self.server.server_close()
        self.thread.join(10)
        self.webhooks.close()

    # What happens to a request

    def route(self, call: Call) -> tuple:
        """The name of the operation of a request, its route and the names in its path. A repository may be named by its number."""
        if not call.path.startswith(f"{API}/"):
            return operation_of(call.path) or "unknown", None, {}
        call.path = call.path[len(API):]
        match = re.match(r"/repositories/(\d+)(?=/|\Z)", call.path)
        if match:
            named = [it for it in self.world.repositories.values() if it.id == int(match[1])]
            call.path = f"/repos/{named[0].full_name}{call.path[match.end():]}" if named else call.path
        found, names = self.routes.find(call.method, call.path)
        return found.operation if found else "unknown", found, names

    def asker(self, call: Call) -> tuple:
        """Who asks, or how it is refused."""
        try:
            return self.tokens.of_header(call.headers.get("Authorization")), None
        except Refused as refused:
            return Asker("unknown"), refused

    def act(self, call: Call, operation: str, found: tuple) -> Reply:
        asker, refused = self.asker(call)
        if found[0] is None and operation.startswith("git/"):
            return self.git.answer(call, asker)
        if refused:
            return self.rest.refusal(refused, None)
        return self.rest.answer(call, asker, *found)

    def answer(self, call: Call, request: Request, found: tuple) -> tuple:
        """The answer to a request, or none if the connection is cut; and whether it is cut within."""
        request.token = self.asker(call)[0].label
        fault, befores, afters = self.switches.plan(request)
        for action in befores:
            action()
        if fault and fault.seconds:
            time.sleep(fault.seconds)
        if fault and fault.cut == "before":
            return None, False
        if fault and fault.status:
            return self.faulty(fault, call), False
        reply = self.act(call, request.operation, found)
        request.acted = True
        for action in afters:
            action()
        return (None if fault and fault.cut == "after" else reply), bool(fault and fault.cut == "within")

    def faulty(self, fault: Fault, call: Call) -> Reply:
        headers = {**self.rest.headers_of(self.asker(call)[0]), **fault.headers}
        if fault.body is None and fault.status >= 500:
            return Reply(fault.status, {**headers, "Content-Type": "text/html"}, UNICORN)
        said = Refused(fault.status, (fault.body or {}).get("message", "Forbidden"), (fault.body or {}).get("documentation_url", DOCS))
        return Reply(fault.status, headers, self.rest.refusal(said, None).body)


class Server(ThreadingHTTPServer):
    """Each connection has a thread, which doesn't keep the tests from ending."""

    daemon_threads = True
    block_on_close = False
    request_queue_size = 64

    def handle_error(self, request: object, client_address: object) -> None:
        """Clients go away, which is nothing to tell of."""


class Handler(BaseHTTPRequestHandler):
    """A connection."""

    protocol_version = "HTTP/1.1"
    hub: GitHub
    # What is written goes out at once.
    disable_nagle_algorithm = True

    def log_message(self, format: str, *args: object) -> None:
        """The record of the requests is in the switches."""

    def read_body(self) -> bytes:
        if "chunked" not in self.headers.get("Transfer-Encoding", ""):
            return self.rfile.read(int(self.headers.get("Content-Length") or 0))
        parts = []
        while True:
            size = int(self.rfile.readline().split(b";")[0], 16)
            parts.append(self.rfile.read(size))
            self.rfile.readline()
            if size == 0:
                return b"".join(parts)

    def any_method(self) -> None:
        hub, address = self.hub, urlsplit(self.path)
        headers = {name.title().replace("Github", "GitHub"): value for name, value in self.headers.items()}
        call = Call(self.command, unquote(address.path), address.query, headers, self.read_body())
        path = call.path
        operation, *found = hub.route(call)
        shown = {name: value for name, value in headers.items() if name.lower() not in SECRET}
        request = hub.switches.note(self.command, path, address.query, operation, shown, about_of(call, operation))
        try:
            reply, is_half = hub.answer(call, request, tuple(found))
        except Exception:  # What is wrong here mustn't look like an answer of GitHub's.
            hub.troubles.append(traceback.format_exc())
            reply, is_half = Reply(500, {"Content-Type": "text/plain"}, traceback.format_exc().encode()), False
        self.send(request, reply, is_half)

    do_GET = do_POST = do_PUT = do_PATCH = do_DELETE = do_HEAD = any_method

    def send(self, request: Request, reply: Optional[Reply], is_half: bool) -> None:
        """Sends an answer, a half of it, or none, and notes which."""
        request.status = reply.status if reply and not is_half else 0
        if reply is not None:
            self.send_response(reply.status)
            for name, value in reply.headers.items():
                if name not in ("Server", "Date"):
                    self.send_header(name, value)
            self.send_header("Content-Length", str(len(reply.body)))
            head = b"".join(self._headers_buffer) + b"\r\n"
            self._headers_buffer = []
            body = b"" if self.command == "HEAD" or reply.status == 304 else reply.body
            whole = head + body
            self.wfile.write(whole[:len(head) + len(body) // 2] if is_half else whole)
            self.wfile.flush()
        if reply is None or is_half:
            self.close_connection = True
            try:
                self.connection.shutdown(socket.SHUT_RDWR)
            except OSError:
                pass

    def date_time_string(self, timestamp: Optional[float] = None) -> str:
        """The header Date, by the clock of the server."""
        return super().date_time_string(self.hub.world.clock.now() if timestamp is None else timestamp)

    def version_string(self) -> str:
        return "GitHub.com"
