"""The repository on GitHub, as git reaches it: over HTTPS, by the same credentials as the API. Merges are made in the mirror on this
machine, and pushed."""
import base64
import re
from typing import Dict, Mapping, Optional, Sequence

from ..git import GitFailed, Ran, run_git
from ..places import Places
from ..repository import BRANCHES, FETCHED, Branch, Repository
from .credentials import Credentials

# How git names the user of a token there.
USER = "x-access-token"
# What git says if GitHub doesn't take the credentials, or if they don't permit what is asked.
NOT_TAKEN = re.compile(r"could not read Username|Authentication failed|returned error: 40[13]")
# A connection over which nothing came for so long is given up. Else git waits for as long as a large fetch may take, and the host with it.
SECONDS_OF_SILENCE = 300


class RemoteRepository(Repository):
    """A repository on another machine, with a mirror here."""

    def __init__(self, places: Places, address: str, credentials: Credentials, main: str, staging: str, trying: str):
        self.address, self.given = address, credentials
        super().__init__(places, main, staging, trying)

    def found(self) -> str:
        return self.address

    def credentials(self) -> Dict[str, str]:
        """They stand in the environment of git alone: neither in its arguments, which others see, nor in a file."""
        token = self.given.header().partition(" ")[2]
        word = base64.b64encode(f"{USER}:{token}".encode()).decode()
        return {
            "GIT_CONFIG_COUNT": "2", "GIT_CONFIG_KEY_0": f"http.{self.address}.extraHeader",
            "GIT_CONFIG_VALUE_0": f"Authorization: Basic {word}", "GIT_CONFIG_KEY_1": "http.followRedirects", "GIT_CONFIG_VALUE_1": "false",
            "GIT_HTTP_LOW_SPEED_LIMIT": "1", "GIT_HTTP_LOW_SPEED_TIME": str(SECONDS_OF_SILENCE),
        }

    def noted(self, ran: Ran) -> Ran:
        """Notes that GitHub didn't take the credentials. A landing that waits for others holds up the API, which would notice it too."""
        if ran.status != 0 and NOT_TAKEN.search(ran.said):
            self.given.refused()
        return ran

    def fetched(self, heads: Mapping[str, str]) -> Ran:
        return self.noted(super().fetched(heads))

    def push(self, commit: str, branch: str, before: Optional[str], held: Sequence[int] = ()) -> Ran:
        return self.noted(super().push(commit, branch, before, held))

    def all_branches(self) -> Dict[str, Branch]:
        """Each branch, as the server tells."""
        ran = self.noted(run_git(self.mirror, "ls-remote", "--heads", "--refs", self.remote, more=self.credentials()))
        if ran.status != 0:
            raise GitFailed(f"the branches can't be listed: {ran.said}")
        lines = (line.partition("\t") for line in ran.output.split("\n") if line)
        return {name: Branch(commit, "") for commit, _, name in lines if name.startswith(BRANCHES)}

    def keep_others(self, name: str, commit: str) -> str:
        """It is kept here alone: on GitHub a name more would be seen by all."""
        kept = f"kept/{name}/{commit}"
        self.must_have(kept, commit)
        return FETCHED + kept
