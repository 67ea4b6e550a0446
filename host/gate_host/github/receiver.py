"""The receiver of webhooks: a process of its own, which knows the secret of the webhook and a folder, and neither the journal nor the bot
nor a token. It looks at nothing before it has checked the signature, and answers when the webhook is on the disk. If the owner wants that,
it serves the pages of the queue as well."""
import hmac
import importlib
import json
from hashlib import sha256
from pathlib import Path
from typing import Callable, Dict, Iterable, List, Mapping, Optional, Tuple

from .hints import Full, leave
from .served_page import Page

# GitHub sends up to 25 MB. What the host needs of a webhook is short.
MOST_BYTES = 1048576
PLACE = "/webhook"
# So long a client may be silent, and so many are read at a time. GitHub waits ten seconds.
SECONDS_OF_SILENCE, THREADS = 10, 4
Environment = Mapping[str, object]
Start = Callable[[str, List[Tuple[str, str]]], object]


class Receiver:
    """The application, as WSGI has it."""

    def __init__(self, secret: str, folder: Path, page: Optional[Page] = None):
        self.secret, self.folder, self.page = secret.encode(), folder, page

    def __call__(self, environment: Environment, start: Start) -> Iterable[bytes]:
        place = environment.get("PATH_INFO")
        if self.page and place != PLACE:
            served = self.page.answer(str(environment.get("REQUEST_METHOD")), str(place), str(environment.get("HTTP_IF_NONE_MATCH", "")))
            start(served.status, [*served.headers])
            return [served.body]
        status, said = self.answer(environment)
        body = f"{said}\n".encode()
        start(status, [("Content-Type", "text/plain"), ("Content-Length", str(len(body)))])
        return [body]

    def answer(self, environment: Environment) -> Tuple[str, str]:
        if environment.get("PATH_INFO") != PLACE:
            return "404 Not Found", "webhooks come elsewhere"
        if environment.get("REQUEST_METHOD") != "POST":
            return "405 Method Not Allowed", "a webhook is a POST"
        length = str(environment.get("CONTENT_LENGTH", ""))
        if not (length.isdecimal() and length.isascii() and len(length) < 16):
            return "411 Length Required", "the length is missing"
        if int(length) > MOST_BYTES:
            return "413 Payload Too Large", f"a webhook has at most {MOST_BYTES} bytes here"
        body = read(environment, int(length))
        if not self.is_signed(body, str(environment.get("HTTP_X_HUB_SIGNATURE_256", ""))):
            return "401 Unauthorized", "the signature isn't that of the secret"
        return self.take(body)

    def is_signed(self, body: bytes, signature: str) -> bool:
        """Whether the signature is that of the body by the secret. How long that takes doesn't tell how much of it is right."""
        due = f"sha256={hmac.new(self.secret, body, sha256).hexdigest()}"
        return hmac.compare_digest(due.encode(), signature.encode("utf-8", "replace"))

    def take(self, body: bytes) -> Tuple[str, str]:
        try:
            is_table = isinstance(json.loads(body), dict)
        except (ValueError, RecursionError):
            is_table = False
        if not is_table:
            return "400 Bad Request", "this is no object of JSON; have the webhook send application/json"
        try:
            leave(self.folder, body)
        except Full:
            return "503 Service Unavailable", "too many webhooks wait; the host takes none"
        except OSError as fault:
            return "503 Service Unavailable", f"it can't be kept: {fault.strerror}"
        return "202 Accepted", "taken"


def read(environment: Environment, length: int) -> bytes:
    stream = environment["wsgi.input"]
    return bytes(stream.read(length))  # type: ignore[attr-defined]


def serve(secret: str, folder: Path, listen: str, told: Callable[[str], None], page: Optional[Page] = None) -> None:
    """Serves until a signal ends it, on an address of this machine. TLS is the affair of a proxy before it."""
    waitress = importlib.import_module("waitress")
    options: Dict[str, object] = {
        "listen": listen, "threads": THREADS, "channel_timeout": SECONDS_OF_SILENCE, "max_request_body_size": MOST_BYTES, "ident": "",
        "connection_limit": 200, "clear_untrusted_proxy_headers": True,
    }
    server = waitress.create_server(Receiver(secret, folder, page), **options)
    address = f"http://{server.effective_host}:{server.effective_port}"
    told(f"takes webhooks at {address}{PLACE}" + (f", and serves the page of the queue at {address}/" if page else ""))
    server.run()
