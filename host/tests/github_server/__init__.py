"""A server for tests that speaks as GitHub does: the part of its REST API, its webhooks and its git that a merge queue needs.

`GitHub` is the server, which server.py has. The package isn't called `github`, since that is what PyGithub, a real client, is called.

    with GitHub(room) as hub:
        team = hub.people.organization("team")
        project = hub.people.make_repository(team, "project", files={"README": "hello\\n"})
        pull = hub.people.propose(project, "ines", "topic", {"README": "hello all\\n"})
        hub.people.comment(pull, "vera", "bors r+")

Then hub.api is the address of the API, and hub.url + "/team/project.git" the one of git.

What it gives is what GitHub's documentation says, as known to its writers, who had no GitHub to look at. It leaves out GraphQL, search,
threads of reviews, teams, editing by the API but for comments and statuses, If-Modified-Since, and events that no merge queue needs. What
follows from a push follows at once, unless `pushes.held` is set; GitHub takes some seconds.
"""
from .people import NotPossible
from .server import GitHub

__all__ = ["GitHub", "NotPossible"]
