"""The webhooks of each event, with the payloads that GitHub's documentation has."""
from typing import Optional

from .bare import NONE, Commit, Person
from .model import CheckRun, Comment, Hook, Label, Pull, Repository, Review, Status, User, World, node
from .shapes_of_checks import ShapesOfChecks, local_date_of
from .webhooks import Webhooks

ZEN = "Keep it logically awesome."
# A push tells no more commits than these.
MOST_COMMITS = 2048


class Events:
    """What happens, told to all hooks that want it."""

    def __init__(self, world: World, shapes: ShapesOfChecks, webhooks: Webhooks) -> None:
        self.world, self.shapes, self.webhooks = world, shapes, webhooks

    def tell(self, event: str, repository: Repository, sender: User, payload: dict) -> None:
        """Sends an event to the hook of the app and to those of the repository."""
        app = self.world.app
        payload = {"repository": self.shapes.repository(repository), **payload}
        if repository.owner.kind == "Organization":
            payload["organization"] = self.shapes.organization(repository.owner)
        payload["sender"] = self.shapes.user(sender)
        for hook in self.world.hooks:
            is_of_app = hook.repository is None and app is not None and repository.owner is app.owner
            if hook.active and event in hook.events and (is_of_app or hook.repository is repository):
                installed = {"id": app.installation, "node_id": node("Integration", app.installation)} if app and is_of_app else None
                self.webhooks.tell(hook, event, {**payload, **({"installation": installed} if installed else {})})

    def ping(self, hook: Hook) -> None:
        """What a new hook gets once."""
        payload = {"zen": ZEN, "hook_id": hook.id, "hook": self.shapes.hook(hook)}
        if hook.repository:
            payload["repository"] = self.shapes.repository(hook.repository)
            payload["sender"] = self.shapes.user(hook.repository.owner)
        self.webhooks.tell(hook, "ping", payload)

    # Changes

    def pull_request(self, action: str, pull: Pull, sender: User, more: Optional[dict] = None) -> None:
        payload = {"action": action, "number": pull.number, "pull_request": self.shapes.pull(pull), **(more or {})}
        self.tell("pull_request", pull.repository, sender, payload)

    def labeled(self, action: str, pull: Pull, label: Label, sender: User) -> None:
        self.pull_request(action, pull, sender, {"label": self.shapes.label(pull.repository, label)})

    def comment(self, action: str, comment: Comment, sender: User, changes: Optional[dict] = None) -> None:
        payload = {
            "action": action, **({"changes": changes} if changes is not None else {}), "issue": self.shapes.issue(comment.issue),
            "comment": self.shapes.comment(comment),
        }
        self.tell("issue_comment", comment.issue.repository, sender, payload)

    def review(self, action: str, review: Review, sender: User) -> None:
        """Here a state is in lower case, and in the API in upper case. The pull request is as in lists."""
        shown = self.shapes.review(review)
        payload = {
            "action": action, "review": {**shown, "state": shown["state"].lower()}, "pull_request": self.shapes.small_pull(review.pull),
        }
        self.tell("pull_request_review", review.pull.repository, sender, payload)

    # Commits

    def status(self, repository: Repository, status: Status) -> None:
        shown = self.shapes.small_status(repository, status)
        branches = [
            self.shapes.small_branch(repository, ref[len("refs/heads/"):], sha) for ref, sha in repository.bare.refs().items()
            if ref.startswith("refs/heads/") and sha == status.sha
        ]
        payload = {
            "id": status.id, "sha": status.sha, "name": repository.full_name, "target_url": status.target_url,
            "avatar_url": shown["avatar_url"], "context": status.context, "description": status.description, "state": status.state,
            "commit": self.shapes.commit(repository, status.sha), "branches": branches, "created_at": shown["created_at"],
            "updated_at": shown["updated_at"],
        }
        self.tell("status", repository, status.creator, payload)

    def check_run(self, action: str, repository: Repository, run: CheckRun, sender: User) -> None:
        refs = repository.bare.refs().items()
        branch = next((ref[len("refs/heads/"):] for ref, sha in refs if ref.startswith("refs/heads/") and sha == run.sha), None)
        payload = {"action": action, "check_run": self.shapes.check_run_of_hook(repository, run, branch)}
        self.tell("check_run", repository, sender, payload)

    def push(self, repository: Repository, ref: str, old: Optional[str], new: Optional[str], pusher: User) -> None:
        bare, page = repository.bare, self.shapes.page_of(repository)
        is_known = bool(old and bare.sha(old))
        shas = bare.between(old if is_known else bare.sha(repository.default_branch), new) if new and ref.startswith("refs/heads/") else []
        head = new and bare.sha(new)
        payload = {
            "ref": ref, "before": old or NONE, "after": new or NONE, "repository": self.pushed_repository(repository),
            "pusher": {"name": pusher.login, "email": pusher.email}, "created": old is None, "deleted": new is None,
            "forced": bool(is_known and old and new and not bare.is_ancestor(old, new)), "base_ref": None,
            "compare": f"{page}/compare/{(old or NONE)[:12]}...{(new or NONE)[:12]}",
            "commits": [self.pushed_commit(repository, bare.read(sha)) for sha in shas[-MOST_COMMITS:]],
            "head_commit": self.pushed_commit(repository, bare.read(head)) if head else None,
        }
        self.tell("push", repository, pusher, payload)

    def pushed_repository(self, repository: Repository) -> dict:
        """In a push a repository has times as numbers, and its owner a name and an address."""
        shown = self.shapes.repository(repository)
        owner = {"name": repository.owner.login, "email": repository.owner.email, **shown["owner"]}
        times = {"created_at": int(repository.created_at), "pushed_at": int(repository.pushed_at)}
        is_owned = repository.owner.kind == "Organization"
        return {
            **shown, "owner": owner, **times, "url": self.shapes.page_of(repository), "stargazers": 0,
            "master_branch": repository.default_branch, **({"organization": repository.owner.login} if is_owned else {}),
        }

    def pushed_commit(self, repository: Repository, commit: Commit) -> dict:
        kinds: dict = {"A": [], "D": [], "M": []}
        for path, (kind, _, _) in repository.bare.changed(commit.sha).items():
            kinds.get(kind, kinds["M"]).append(path)

        def person(it: Person) -> dict:
            user = self.shapes.writer(it)
            return {"name": it.name, "email": it.email, **({"username": user.login} if user else {})}
        return {
            "id": commit.sha, "tree_id": commit.tree, "distinct": True, "message": commit.message.rstrip("\n"),
            "timestamp": local_date_of(commit.committer), "url": f"{self.shapes.page_of(repository)}/commit/{commit.sha}",
            "author": person(commit.author), "committer": person(commit.committer), "added": kinds["A"], "removed": kinds["D"],
            "modified": kinds["M"],
        }


def changed_from(**before: Optional[str]) -> dict:
    """What an edit tells of what was there before."""
    return {key: {"from": text} for key, text in before.items()}
