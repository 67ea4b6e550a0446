"""The objects of GitHub's API about commits: what CI says of them, branches and who may move them, and the app that asks."""
import base64
import fnmatch
from datetime import datetime, timezone
from typing import Optional
from urllib.parse import quote

from .bare import Commit, Person
from .model import App, CheckRun, Protection, Repository, Ruleset, Status, User, node, stamp
from .shapes import Shapes

# What each kind of rule says to who pushes against it.
FORBIDDEN = {
    "update": "Cannot update this protected ref.", "creation": "Cannot create ref due to creations being restricted.",
    "deletion": "Cannot delete this branch", "non_fast_forward": "Cannot force-push to this branch",
    "pull_request": "Changes must be made through a pull request.",
}


def date_of(person: Person) -> str:
    return stamp(float(person.date)) or ""


def local_date_of(person: Person) -> str:
    """The same with the writer's own zone, as webhooks of pushes have it."""
    return datetime.fromtimestamp(int(person.date), timezone.utc).strftime("%Y-%m-%dT%H:%M:%S+00:00")


class ShapesOfChecks(Shapes):
    """All objects."""

    # Commits

    def git_commit(self, repository: Repository, commit: Commit) -> dict:
        def person(it: Person) -> dict:
            return {"name": it.name, "email": it.email, "date": date_of(it)}
        own = self.url_of(repository)
        return {
            "author": person(commit.author), "committer": person(commit.committer), "message": commit.message.rstrip("\n"),
            "tree": {"sha": commit.tree, "url": f"{own}/git/trees/{commit.tree}"}, "url": f"{own}/git/commits/{commit.sha}",
            "comment_count": 0, "verification": {"verified": False, "reason": "unsigned", "signature": None, "payload": None},
        }

    def commit(self, repository: Repository, sha: str) -> dict:
        commit = repository.bare.read(sha)
        own, page = f"{self.url_of(repository)}/commits", f"{self.page_of(repository)}/commit"
        return {
            "sha": sha, "node_id": node("Commit", int(sha[:8], 16)), "commit": self.git_commit(repository, commit),
            "url": f"{own}/{sha}", "html_url": f"{page}/{sha}", "comments_url": f"{own}/{sha}/comments",
            "author": self.user(self.writer(commit.author)), "committer": self.user(self.writer(commit.committer)),
            "parents": [{"sha": it, "url": f"{own}/{it}", "html_url": f"{page}/{it}"} for it in commit.parents],
        }

    def whole_commit(self, repository: Repository, sha: str) -> dict:
        """What a commit by itself has besides: its files."""
        kinds = {"A": "added", "D": "removed"}
        changed = repository.bare.changed(sha)
        files = [
            {"sha": None, "filename": path, "status": kinds.get(kind, "modified"), "additions": come, "deletions": go,
             "changes": come + go}
            for path, (kind, come, go) in changed.items()
        ]
        come, go = sum(it["additions"] for it in files), sum(it["deletions"] for it in files)
        return {**self.commit(repository, sha), "stats": {"total": come + go, "additions": come, "deletions": go}, "files": files}

    def writer(self, person: Person) -> Optional[User]:
        """The user whose address a commit has."""
        return next((it for it in self.world.users.values() if it.email == person.email), None)

    def file(self, repository: Repository, ref: str, path: str, sha: str) -> dict:
        """A file at a commit or branch, with its content in lines of 60 characters."""
        own = f"{self.url_of(repository)}/contents/{quote(path)}?ref={quote(ref, safe='')}"
        blob, page = f"{self.url_of(repository)}/git/blobs/{sha}", f"{self.page_of(repository)}/blob/{ref}/{path}"
        content = repository.bare.git("cat-file", "blob", sha).encode()
        text = base64.b64encode(content).decode()
        return {
            "type": "file", "encoding": "base64", "size": len(content), "name": path.rpartition("/")[2], "path": path,
            "content": "".join(f"{text[at:at + 60]}\n" for at in range(0, len(text), 60)), "sha": sha, "url": own, "git_url": blob,
            "html_url": page, "download_url": f"{self.site}/raw/{repository.full_name}/{ref}/{path}",
            "_links": {"self": own, "git": blob, "html": page},
        }

    # What CI says

    def small_status(self, repository: Repository, status: Status) -> dict:
        """A status within the combined one. It doesn't say who gave it."""
        return {
            "url": f"{self.url_of(repository)}/statuses/{status.sha}",
            "avatar_url": f"{self.site}/avatars/u/{status.creator.id}?v=4", "id": status.id, "node_id": node("StatusContext", status.id),
            "state": status.state, "description": status.description, "target_url": status.target_url, "context": status.context,
            "created_at": stamp(status.created_at), "updated_at": stamp(status.created_at),
        }

    def status(self, repository: Repository, status: Status) -> dict:
        return {**self.small_status(repository, status), "creator": self.user(status.creator)}

    def combined(self, repository: Repository, sha: str, latest: list) -> dict:
        """The combined status, but for its list of statuses, which is cut into pages."""
        states = {it.state for it in latest}
        state = "failure" if states & {"failure", "error"} else ("success" if states == {"success"} else "pending")
        own = self.url_of(repository)
        return {
            "state": state, "statuses": [], "sha": sha, "total_count": len(latest), "repository": self.small_repository(repository),
            "commit_url": f"{own}/commits/{sha}", "url": f"{own}/commits/{sha}/status",
        }

    def check_run(self, repository: Repository, run: CheckRun) -> dict:
        own = f"{self.url_of(repository)}/check-runs/{run.id}"
        pulls = [it for it in repository.pulls.values() if it.head_sha == run.sha and it.head_repository is repository]
        return {
            "id": run.id, "name": run.name, "node_id": node("CheckRun", run.id), "head_sha": run.sha, "external_id": "", "url": own,
            "html_url": f"{self.page_of(repository)}/runs/{run.id}", "details_url": run.details_url, "status": run.status,
            "conclusion": run.conclusion, "started_at": stamp(run.started_at), "completed_at": stamp(run.completed_at),
            "output": {
                "title": run.title, "summary": run.summary, "text": None, "annotations_count": 0, "annotations_url": f"{own}/annotations",
            },
            "check_suite": {"id": run.suite}, "app": self.app(run.app), "pull_requests": [self.reference(it) for it in pulls],
        }

    def check_run_of_hook(self, repository: Repository, run: CheckRun, branch: Optional[str]) -> dict:
        """In a webhook a check run tells more of its suite."""
        shown = self.check_run(repository, run)
        suite = {
            "id": run.suite, "node_id": node("CheckSuite", run.suite), "head_branch": branch, "head_sha": run.sha, "status": run.status,
            "conclusion": run.conclusion, "url": f"{self.url_of(repository)}/check-suites/{run.suite}", "before": None, "after": run.sha,
            "pull_requests": shown["pull_requests"], "app": shown["app"], "created_at": stamp(run.started_at),
            "updated_at": stamp(run.completed_at or run.started_at),
        }
        return {**shown, "check_suite": suite}

    def reference(self, pull) -> dict:
        """A pull request within a check run."""
        def side(ref: str, sha: str, repository: Repository) -> dict:
            return {"ref": ref, "sha": sha, "repo": {"id": repository.id, "url": self.url_of(repository), "name": repository.name}}
        return {
            "url": f"{self.url_of(pull.repository)}/pulls/{pull.number}", "id": pull.id, "number": pull.number,
            "head": side(pull.head_ref, pull.head_sha, pull.head_repository or pull.repository),
            "base": side(pull.base_ref, pull.base_sha, pull.repository),
        }

    # The app

    def installation(self, app: App) -> dict:
        since = stamp(app.created_at)
        return {
            "id": app.installation, "account": self.user(app.owner), "repository_selection": "all",
            "access_tokens_url": f"{self.api}/app/installations/{app.installation}/access_tokens",
            "repositories_url": f"{self.api}/installation/repositories",
            "html_url": f"{self.site}/organizations/{app.owner.login}/settings/installations/{app.installation}", "app_id": app.id,
            "app_slug": app.slug, "target_id": app.owner.id, "target_type": app.owner.kind, "permissions": dict(app.permissions),
            "events": list(app.events), "created_at": since, "updated_at": since, "single_file_name": None,
            "has_multiple_single_files": False, "single_file_paths": [],
            "suspended_by": self.user(app.owner) if app.suspended_at else None, "suspended_at": stamp(app.suspended_at),
        }

    # Branches and who may move them

    def protection_of(self, repository: Repository, branch: str) -> Optional[Protection]:
        return next((it for it in repository.protections if fnmatch.fnmatchcase(branch, it.pattern)), None)

    def rulesets_of(self, repository: Repository, branch: str) -> list:
        """The rulesets at work that are about a branch."""
        def meets(patterns: list) -> bool:
            return any(
                it == "~ALL" or (it == "~DEFAULT_BRANCH" and branch == repository.default_branch)
                or fnmatch.fnmatchcase(f"refs/heads/{branch}", it) for it in patterns
            )
        return [it for it in repository.rulesets if it.enforcement == "active" and meets(it.include)]

    def small_branch(self, repository: Repository, name: str, sha: str) -> dict:
        is_protected = bool(self.protection_of(repository, name) or self.rulesets_of(repository, name))
        return {
            "name": name, "commit": {"sha": sha, "url": f"{self.url_of(repository)}/commits/{sha}"}, "protected": is_protected,
        }

    def branch(self, repository: Repository, name: str, sha: str) -> dict:
        own = f"{self.url_of(repository)}/branches/{name}"
        guard = self.protection_of(repository, name)
        names = guard.checks or [] if guard else []
        level = "off" if not names else ("everyone" if guard and guard.enforce_admins else "non_admins")
        return {
            **self.small_branch(repository, name, sha), "commit": self.commit(repository, sha),
            "_links": {"self": own, "html": f"{self.page_of(repository)}/tree/{name}"}, "protection_url": f"{own}/protection",
            "protection": {
                "enabled": guard is not None,
                "required_status_checks": {"enforcement_level": level, "contexts": names, "checks": self.checks_of(names)},
            },
        }

    @staticmethod
    def checks_of(names: list) -> list:
        return [{"context": it, "app_id": None} for it in names]

    def protection(self, repository: Repository, name: str, guard: Protection) -> dict:
        """The protection of a branch. What isn't asked for isn't there, as with GitHub."""
        own = f"{self.url_of(repository)}/branches/{name}/protection"
        shown: dict = {"url": own}
        if guard.checks is not None:
            part = f"{own}/required_status_checks"
            shown["required_status_checks"] = {
                "url": part, "strict": guard.strict, "contexts": guard.checks, "contexts_url": f"{part}/contexts",
                "checks": self.checks_of(guard.checks),
            }
        if guard.users is not None or guard.apps is not None:
            part, app = f"{own}/restrictions", self.world.app
            shown["restrictions"] = {
                "url": part, "users_url": f"{part}/users", "teams_url": f"{part}/teams", "apps_url": f"{part}/apps",
                "users": [self.user(self.world.user(it)) for it in guard.users or []], "teams": [],
                "apps": [self.app(app) for it in guard.apps or [] if app and it == app.slug],
            }
        if guard.reviews:
            shown["required_pull_request_reviews"] = {
                "url": f"{own}/required_pull_request_reviews", "dismiss_stale_reviews": False, "require_code_owner_reviews": False,
                "required_approving_review_count": guard.reviews, "require_last_push_approval": False,
            }
        off = dict.fromkeys((
            "required_linear_history", "block_creations", "required_conversation_resolution", "lock_branch", "allow_fork_syncing",
        ))
        return {
            **shown, "required_signatures": {"url": f"{own}/required_signatures", "enabled": False},
            "enforce_admins": {"url": f"{own}/enforce_admins", "enabled": guard.enforce_admins},
            **{key: {"enabled": False} for key in off}, "allow_force_pushes": {"enabled": guard.force_pushes},
            "allow_deletions": {"enabled": guard.deletions},
        }

    def small_ruleset(self, repository: Repository, ruleset: Ruleset) -> dict:
        own, since = f"{self.url_of(repository)}/rulesets/{ruleset.id}", stamp(ruleset.created_at)
        return {
            "id": ruleset.id, "name": ruleset.name, "target": "branch", "source_type": "Repository", "source": repository.full_name,
            "enforcement": ruleset.enforcement, "node_id": node("RepositoryRuleset", ruleset.id),
            "_links": {"self": {"href": own}, "html": {"href": f"{self.page_of(repository)}/rules/{ruleset.id}"}}, "created_at": since,
            "updated_at": since,
        }

    def ruleset(self, repository: Repository, ruleset: Ruleset, passes: bool, sees_actors: bool) -> dict:
        """A ruleset by itself. Who may pass it by is shown to those who may change it."""
        actors = [{"actor_id": it, "actor_type": "Integration", "bypass_mode": "always"} for it in ruleset.apps]
        actors += [{"actor_id": it, "actor_type": "RepositoryRole", "bypass_mode": "always"} for it in ruleset.roles]
        return {
            **self.small_ruleset(repository, ruleset), "conditions": {"ref_name": {"include": ruleset.include, "exclude": []}},
            "rules": ruleset.rules, "current_user_can_bypass": "always" if passes else "never",
            **({"bypass_actors": actors} if sees_actors else {}),
        }

    @staticmethod
    def rule_of_branch(repository: Repository, ruleset: Ruleset, rule: dict) -> dict:
        return {
            **rule, "ruleset_source_type": "Repository", "ruleset_source": repository.full_name, "ruleset_id": ruleset.id,
        }
