"""The jobs of gate-host for a repository on GitHub: its folder is made, and its webhooks are taken. What needs a library says so."""
import argparse
import importlib.util
import os
import subprocess
from pathlib import Path

from ..faults import Trouble
from ..git import ALONE, clean_environment
from ..places import Places, make_identity, must_be_safe
from ..release import PROGRAM
from ..setting_up import make_folders, replace, with_lines
from ..settings import settings_in
from ..troubles import complain
from .settings import BY_APP, BY_TOKEN, FIRST_ROLES, FIRST_SETTINGS, REPOSITORY, GitHubSettings, github_in

# What is needed besides, with the names of Debian's packages.
NEEDED = {"httpx": "python3-httpx", "jwt": "python3-jwt", "cryptography": "python3-cryptography", "waitress": "python3-waitress"}


def must_have_libraries(*names: str) -> None:
    """Says which libraries are missing, in place of a fault deep within."""
    missing = [name for name in names if importlib.util.find_spec(name) is None]
    if missing:
        packages = " ".join(NEEDED[name] for name in missing)
        raise Trouble(f"this Python has no {' and no '.join(missing)}; Debian has them as {packages}, for /usr/bin/python3")


def set_up_github(folder: Path, arguments: argparse.Namespace) -> None:
    """Makes the folder of a host: a bare repository, which is the copy of the one on GitHub, with the settings beside it."""
    if not REPOSITORY.fullmatch(arguments.github):
        raise Trouble(f"--github takes OWNER/REPOSITORY, and not {arguments.github}")
    places = Places(folder)
    if places.settings.exists():
        raise Trouble(f"{folder} is set up already; change its settings in {places.settings}")
    if arguments.app and not arguments.app.isdecimal():
        raise Trouble(f"--app takes the number of the app, and not {arguments.app}")
    main = arguments.main or "main"
    text = first_settings(arguments, main, folder / "gate/records")
    settings_in(text)
    github_in(text)
    words = ["git", "init", "--quiet", "--bare", f"--initial-branch={main}", str(folder)]
    subprocess.run(words, env={**clean_environment(), **ALONE}, check=True, timeout=60)
    folder.chmod(0o755)
    make_folders(places)
    webhooks_of(places)
    make_identity(places)
    roles = with_lines(FIRST_ROLES.format(lines=""), arguments.reviewer, arguments.member)
    for path, content in ((places.settings, text), (places.roles, roles)):
        replace(path, content, 0o644)
    must_be_safe(places)
    print(f"{folder} is set up for {arguments.github}")
    print(f"put the {'key of the app' if arguments.app else 'token'} into {secret_of(arguments, folder / 'gate/records')}, with chmod 600")
    print(f"gate-host doctor {folder} says what is missing then")


def first_settings(arguments: argparse.Namespace, main: str, secrets: Path) -> str:
    secret = secret_of(arguments, secrets)
    credentials = BY_APP.format(app=arguments.app, key=secret) if arguments.app else BY_TOKEN.format(token=secret)
    places = f"web = {arguments.web}\n" if arguments.web else ""
    return FIRST_SETTINGS.format(
        main=main, staging=arguments.staging or "staging", trying=arguments.trying or "trying",
        program=Path(arguments.program or PROGRAM).resolve(), repository=arguments.github, credentials=credentials,
        secret=secrets / "webhook-secret", places=places,
    )


def secret_of(arguments: argparse.Namespace, secrets: Path) -> Path:
    """Where what GitHub knows the host by is put."""
    return secrets / ("app.pem" if arguments.app else "token")


def run(places: Places, given: GitHubSettings, is_all_again: bool) -> None:
    must_have_libraries("httpx", *(["jwt", "cryptography"] if given.key else []))
    from .hosting import run_on_github
    run_on_github(places, given, is_all_again)


def receive(places: Places, given: GitHubSettings) -> None:
    """Takes webhooks until a signal ends it."""
    must_have_libraries("waitress")
    from .credentials import secret_in
    from .receiver import serve
    from .served_page import Page
    if given.webhook_secret is None:
        raise Trouble(f"there is no webhook_secret in {places.settings}")
    os.umask(0o077)
    page = Page(places.reports) if given.serve_page else None
    serve(secret_in(given.webhook_secret), webhooks_of(places), given.listen, complain, page)


def webhooks_of(places: Places) -> Path:
    """Where the receiver leaves webhooks."""
    folder = places.folder / "webhooks"
    folder.mkdir(mode=0o700, exist_ok=True)
    return folder
