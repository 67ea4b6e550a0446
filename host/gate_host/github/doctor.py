"""What a host of a repository on GitHub rests on, looked at one by one, for `gate-host doctor`."""
import os
import socket
from pathlib import Path
from typing import Iterator, List, Optional

from ..doctor import Checked, in_records, note, programs, told_by_host
from ..faults import Trouble
from ..places import Places, name_of_repository
from ..settings import read_roles, read_settings
from .credentials import secret_in
from .settings import GitHubSettings
from .starting import must_have_libraries
from .webhooks import no_webhooks

# So long the receiver may take to take a connection.
SECONDS = 5.0


def checks_on_github(places: Places, given: GitHubSettings, is_running: bool) -> List[Checked]:
    """All that can be looked at here and on GitHub, without disturbing a host that runs."""
    try:
        settings = read_settings(places.settings, os.geteuid())
        read_roles(places.roles, os.geteuid())
        name_of_repository(places)
    except Trouble as fault:
        return [Checked(False, str(fault))]
    here = [
        Checked(True, "settings, roles and folders are the owner's alone"), *programs(settings), *in_records(places, is_running),
        *told_by_host(places, is_running),
    ]
    has_receiver = given.webhook_secret is not None and os.path.lexists(given.webhook_secret)
    needed = [*libraries_checked(given), *credentials_checked(given)]
    webhooks = list(webhooks_checked(places, given, has_receiver))
    if not all(it.is_right for it in needed):
        return [*here, *needed, *webhooks, note("GitHub isn't asked before that is right")]
    from .questions import asked_of_github
    return [*here, *needed, *webhooks, *asked_of_github(places, settings, given, has_receiver)]


def libraries_checked(given: GitHubSettings) -> Iterator[Checked]:
    try:
        must_have_libraries("httpx", *(["jwt", "cryptography"] if given.key else []))
        yield Checked(True, "the libraries for GitHub are there")
    except Trouble as fault:
        yield Checked(False, str(fault))


def credentials_checked(given: GitHubSettings) -> Iterator[Checked]:
    """The file of the token, or of the app's key."""
    if given.token:
        yield secret_checked(given.token, "token")
    if given.key:
        found = secret_checked(given.key, "key of the app")
        fault = fault_of_key(given.key) if found.is_right else None
        yield found if fault is None else Checked(False, f"{given.key} {fault}: GitHub makes one at the app's page General > Private keys")


def secret_checked(path: Path, kind: str) -> Checked:
    try:
        secret_in(path)
    except (Trouble, OSError) as fault:
        return Checked(False, str(fault))
    return Checked(True, f"the {kind} is in {path}, which you alone can read")


def fault_of_key(path: Path) -> Optional[str]:
    """Why the content of a file isn't the key of an app, or none."""
    try:
        from cryptography.exceptions import UnsupportedAlgorithm
        from cryptography.hazmat.primitives.asymmetric.rsa import RSAPrivateKey
        from cryptography.hazmat.primitives.serialization import load_pem_private_key
    except ImportError:
        return None
    try:
        key = load_pem_private_key(secret_in(path).encode(), None)
    except TypeError:
        return "has a private key behind a password, and the host needs one without"
    except (ValueError, UnsupportedAlgorithm):
        return "has no private key, as a file of PEM has it"
    return None if isinstance(key, RSAPrivateKey) else "has a private key of another kind than RSA"


def webhooks_checked(places: Places, given: GitHubSettings, has_receiver: bool) -> Iterator[Checked]:
    """The secret of the webhook, and whether the receiver is at work."""
    if given.webhook_secret is None or not has_receiver:
        missing = f"there is no {given.webhook_secret}" if given.webhook_secret else f"{places.settings} names no webhook_secret"
        yield no_webhooks(f"{missing}, so the host takes no webhooks", given.poll_seconds)
        return
    try:
        must_have_libraries("waitress")
    except Trouble as fault:
        yield Checked(False, f"gate-host receive can't run: {fault}")
    yield secret_checked(given.webhook_secret, "secret of the webhook")
    yield receiver_checked(places, given.listen)


def receiver_checked(places: Places, listen: str) -> Checked:
    """Whether somebody takes connections at the receiver's address."""
    name, _, port = listen.rpartition(":")
    if not port.isdecimal() or int(port) == 0:
        return note(f"whether gate-host receive runs can't be told, since listen = {listen} names no port")
    try:
        socket.create_connection((name.strip("[]").replace("*", "") or "localhost", int(port)), SECONDS).close()
    except OSError as fault:
        said = f"nothing takes webhooks at {listen} ({fault.strerror or fault})"
        return Checked(False, f"{said}: gate-host receive {places.repository} starts the receiver")
    return Checked(True, f"the receiver takes webhooks at {listen}")
