"""Who asks: by a person's token, by a token of the app's installation, or by one that the app has signed itself."""
import base64
import hashlib
import hmac
import json
import secrets
from dataclasses import dataclass
from typing import Optional

from .model import ROLES, App, Repository, User, World

MINUTE = 60
# How long a token of an installation is good, and how far ahead the one that the app signs may end.
GOOD_SECONDS, MOST_AHEAD = 60 * MINUTE, 10 * MINUTE
# What comes before the hash in a signature of RS256.
OF_SHA256 = bytes.fromhex("3031300d060960864801650304020105000420")
# What everybody may read of a public repository.
OF_PUBLIC = ("checks", "contents", "issues", "metadata", "pull_requests", "statuses")
LEVELS = {"": 0, "read": 1, "write": 2, "admin": 3}


class Refused(Exception):
    """A request is answered by this status, with this message."""

    def __init__(self, status: int, message: str, page: str = "", errors: Optional[list] = None) -> None:
        super().__init__(message)
        self.status, self.message, self.page, self.errors = status, message, page, errors


@dataclass(eq=False)
class Token:
    """A token of the installation."""

    text: str
    number: int
    expires_at: float
    permissions: dict
    # The identifiers of the repositories to which it is limited, or none.
    repositories: Optional[list] = None


@dataclass(eq=False)
class Asker:
    """Who asks, and with which token."""

    label: str
    user: Optional[User] = None
    app: Optional[App] = None
    token: Optional[Token] = None

    def reaches(self, repository: Repository) -> bool:
        """Whether the token of an installation is for a repository. What is public it reads anyway."""
        is_named = self.token is not None and (self.token.repositories is None or repository.id in self.token.repositories)
        return is_named and self.app is not None and repository.owner is self.app.owner

    def may(self, permission: str, level: str, role: str, repository: Repository) -> bool:
        """Whether a permission of the app is enough, or the role of a person."""
        if self.token and not self.reaches(repository):
            return level == "read" and permission in OF_PUBLIC
        if self.token:
            return LEVELS[self.token.permissions.get(permission, "")] >= LEVELS[level]
        return ROLES[repository.role_of(self.user)] >= ROLES[role]

    def sees(self, repository: Repository) -> bool:
        if self.token:
            return not repository.private or self.reaches(repository)
        return ROLES[repository.role_of(self.user)] > 0


def numbers_in(key: str) -> tuple:
    """The modulus and the exponent of a public key, as PEM has it (BEGIN PUBLIC KEY)."""
    content = base64.b64decode("".join(line for line in key.splitlines() if line and not line.startswith("-----")))

    def read(data: bytes) -> tuple:
        """The content of the first element in DER, and what comes after it."""
        length, start = data[1], 2
        if length & 0x80:
            start = 2 + (length & 0x7f)
            length = int.from_bytes(data[2:start], "big")
        return data[start:start + length], data[start + length:]

    outer, _ = read(content)
    _, after_algorithm = read(outer)
    bits, _ = read(after_algorithm)
    # The first byte tells how many bits of the last one don't count.
    both, _ = read(bits[1:])
    modulus, rest = read(both)
    exponent, _ = read(rest)
    return int.from_bytes(modulus, "big"), int.from_bytes(exponent, "big")


def decoded(part: str) -> bytes:
    return base64.urlsafe_b64decode(part + "=" * (-len(part) % 4))


def is_signed(app: App, signed: bytes, signature: bytes) -> bool:
    """Whether the app has signed this, by RSA with SHA-256."""
    size = (app.modulus.bit_length() + 7) // 8
    if len(signature) != size or not app.modulus:
        return False
    found = pow(int.from_bytes(signature, "big"), app.exponent, app.modulus).to_bytes(size, "big")
    due = OF_SHA256 + hashlib.sha256(signed).digest()
    return hmac.compare_digest(found, b"\x00\x01" + b"\xff" * (size - len(due) - 3) + b"\x00" + due)


class Tokens:
    """All tokens, and who asks with which."""

    def __init__(self, world: World) -> None:
        self.world = world
        self.given: dict = {}
        # How long the tokens are good that are given from now on.
        self.good_seconds: float = GOOD_SECONDS

    def give(self, app: App, permissions: dict, repositories: Optional[list]) -> Token:
        """A new token of the installation."""
        with self.world.lock:
            expires_at = self.world.clock.now() + self.good_seconds
            token = Token(f"ghs_{secrets.token_hex(18)}", len(self.given) + 1, expires_at, permissions, repositories)
            self.given[token.text] = token
            return token

    def expire(self) -> None:
        """Ends all tokens of the installation that were given so far."""
        with self.world.lock:
            for token in self.given.values():
                token.expires_at = self.world.clock.now() - 1

    def of_header(self, header: Optional[str]) -> Asker:
        """Who asks by the header Authorization: `token X`, `Bearer X`, or a password of any name."""
        if not header:
            return Asker("none")
        kind, _, rest = header.strip().partition(" ")
        if kind.lower() == "basic":
            try:
                name, _, password = base64.b64decode(rest).decode().partition(":")
            except ValueError:
                return Asker("unknown")
            return self.of_text(password if password not in ("", "x-oauth-basic") else name)
        return self.of_text(rest.strip()) if kind.lower() in ("token", "bearer") else Asker("unknown")

    def of_text(self, text: str) -> Asker:
        with self.world.lock:
            app, now = self.world.app, self.world.clock.now()
            token = self.given.get(text)
            if token and app:
                return Asker(f"installation:{token.number}", app.user, app, token) if now < token.expires_at else Asker("expired")
            user = next((it for it in self.world.users.values() if it.token and hmac.compare_digest(it.token, text)), None)
            if user:
                return Asker(f"user:{user.login}", user)
            return self.of_signed(text, now) if text.count(".") == 2 else Asker("unknown")

    def of_signed(self, text: str, now: float) -> Asker:
        """The app, by a token that it has signed itself. GitHub tells what is wrong with it."""
        page = "https://docs.github.com/rest"
        app = self.world.app
        head, claims, signature = text.split(".")
        try:
            algorithm, said = json.loads(decoded(head)), json.loads(decoded(claims))
            signed = decoded(signature)
        except ValueError:
            raise Refused(401, "A JSON web token could not be decoded", page) from None
        if "iss" not in said:
            raise Refused(401, "'Issuer' claim ('iss') must be an Integer", page)
        if app is None or str(said["iss"]) != str(app.id):
            raise Refused(404, "Integration not found", page)
        if algorithm.get("alg") != "RS256" or not is_signed(app, f"{head}.{claims}".encode(), signed):
            raise Refused(401, "A JSON web token could not be decoded", page)
        begun, ends = said.get("iat"), said.get("exp")
        if not isinstance(begun, (int, float)) or begun > now + 1:
            issued = "must be an Integer representing the time that the assertion was issued"
            raise Refused(401, f"'Issued at' claim ('iat') {issued}", page)
        if not isinstance(ends, (int, float)) or ends <= now:
            future = "must be a numeric value representing the future time at which the assertion expires"
            raise Refused(401, f"'Expiration time' claim ('exp') {future}", page)
        # GitHub counts from its own clock.
        if ends > now + MOST_AHEAD:
            raise Refused(401, "'Expiration time' claim ('exp') is too far in the future", page)
        return Asker("app", None, app)
