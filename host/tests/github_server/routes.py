"""The routes of the API that a merge queue needs, and what each answers."""
import re
from dataclasses import dataclass, field
from typing import Callable, Optional, Union

from .model import FLAGS, ROLES, Issue, Pull, Repository, World, seconds_of, stamp
from .people import People
from .pushes import HEADS, passes
from .shapes_of_checks import ShapesOfChecks
from .tokens import LEVELS, Asker, Refused, Tokens
from .webhooks import Webhooks

DOCS = "https://docs.github.com/rest"
# The lengths that GitHub takes.
MOST_IN_BODY, MOST_IN_DESCRIPTION, MOST_STATUSES = 65536, 140, 1000
STATES = ("error", "failure", "pending", "success")
SUSPENDED = "This installation has been suspended"


@dataclass
class Asked:
    """A request, read."""

    asker: Asker
    names: dict
    query: dict
    body: dict
    repository: Optional[Repository] = None

    @property
    def repo(self) -> Repository:
        if self.repository is None:
            raise Refused(404, "Not Found")
        return self.repository


@dataclass
class Listed:
    """A list, which is cut into pages. `within` is the object that has it under `key`, or none."""

    items: list
    shape: Callable
    within: Optional[dict] = None
    key: str = ""


@dataclass
class Made:
    """Something new, with status 201."""

    shown: dict


@dataclass
class Route:
    method: str
    path: str
    operation: str
    # Where GitHub's documentation has it.
    page: str
    answer: Callable
    # Who may: a permission of the app with its level, and the role that a person needs. Or `app` for the app by its own signature,
    # `installation`, or nothing.
    permission: str = ""
    level: str = "read"
    role: str = "read"
    pattern: "re.Pattern" = field(init=False)

    def __post_init__(self) -> None:
        kinds = {"number": r"\d+", "ref": ".+", "branch": ".+", "file": ".+"}
        parts = re.split(r"\{(\w+)\}", self.path)
        text = "".join(
            re.escape(part) if at % 2 == 0 else f"(?P<{part}>{kinds.get(part, '[^/]+')})" for at, part in enumerate(parts)
        )
        self.pattern = re.compile(text + r"\Z")


def invalid(resource: str, place: str, message: str, code: str = "custom") -> Refused:
    said = {"resource": resource, "code": code, "field": place, **({"message": message} if message else {})}
    return Refused(422, "Validation Failed", errors=[said])


def one_of(asked: Asked, name: str, allowed: tuple, default: str) -> str:
    """What a query says, if it is allowed. GitHub takes the default for others."""
    said = asked.query.get(name, default)
    return said if said in allowed else default


def time_in(asked: Asked, name: str) -> float:
    """A time of the query, or the beginning of time."""
    text = asked.query.get(name, "")
    try:
        return seconds_of(text) if text else 0.0
    except ValueError:
        raise Refused(422, f"Validation Failed: {name} is no time") from None


class Routes:
    """All routes. Who calls them holds the lock of the world."""

    def __init__(self, world: World, shapes: ShapesOfChecks, tokens: Tokens, people: People, webhooks: Webhooks) -> None:
        self.world, self.shapes, self.tokens, self.people, self.webhooks = world, shapes, tokens, people, webhooks
        self.routes = [*self.of_app(), *self.of_changes(), *self.of_commits(), *self.of_branches()]

    def of_app(self) -> list:
        here, own = "/apps/apps", "/repos/{owner}/{repo}"
        return [
            Route("GET", "/rate_limit", "rate-limit/get", "/rate-limit/rate-limit", self.rate_limit),
            Route("GET", "/user", "users/get-authenticated", "/users/users", self.get_user),
            Route("GET", "/users/{login}", "users/get-by-username", "/users/users", self.get_user_by_name),
            Route("GET", "/app", "apps/get-authenticated", here, lambda it: self.shapes.app(it.asker.app), "app"),
            Route("GET", "/app/hook/config", "apps/get-webhook-config-for-app", "/apps/webhooks", self.get_hook_config, "app"),
            Route("GET", "/app/hook/deliveries", "apps/list-webhook-deliveries", "/apps/webhooks", self.list_deliveries, "app"),
            Route("POST", "/app/hook/deliveries/{number}/attempts", "apps/redeliver-webhook-delivery", "/apps/webhooks", self.redeliver,
                  "app"),
            Route("GET", "/app/installations", "apps/list-installations", here, self.list_installations, "app"),
            Route("GET", "/app/installations/{number}", "apps/get-installation", here, self.get_installation, "app"),
            Route("POST", "/app/installations/{number}/access_tokens", "apps/create-installation-access-token", here, self.create_token,
                  "app"),
            Route("GET", f"{own}/installation", "apps/get-repo-installation", here, self.get_installation, "app"),
            Route("GET", "/installation/repositories", "apps/list-repos-accessible-to-installation", "/apps/installations",
                  self.list_repositories, "installation"),
        ]

    def of_changes(self) -> list:
        own, pulls, comments = "/repos/{owner}/{repo}", "/pulls/pulls", "/issues/comments"
        either = "issues|pull_requests"
        return [
            Route("GET", own, "repos/get", "/repos/repos", self.get_repository, "metadata"),
            Route("GET", f"{own}/pulls", "pulls/list", pulls, self.list_pulls, "pull_requests"),
            Route("GET", f"{own}/pulls/{{number}}", "pulls/get", pulls, lambda it: self.shapes.pull(self.pull(it)), "pull_requests"),
            Route("GET", f"{own}/pulls/{{number}}/commits", "pulls/list-commits", pulls, self.list_commits, "pull_requests"),
            Route("GET", f"{own}/pulls/{{number}}/reviews", "pulls/list-reviews", "/pulls/reviews", self.list_reviews, "pull_requests"),
            Route("GET", f"{own}/issues/comments", "issues/list-comments-for-repo", comments, self.list_all_comments, either),
            Route("GET", f"{own}/issues/comments/{{number}}", "issues/get-comment", comments, self.get_comment, either),
            Route("GET", f"{own}/issues/{{number}}", "issues/get", "/issues/issues", lambda it: self.shapes.issue(self.issue(it)), either),
            Route("GET", f"{own}/issues/{{number}}/comments", "issues/list-comments", comments, self.list_comments, either),
            Route("POST", f"{own}/issues/{{number}}/comments", "issues/create-comment", comments, self.create_comment, either, "write"),
            Route("GET", f"{own}/issues/{{number}}/events", "issues/list-events", "/issues/events", self.list_issue_events, either),
            Route("GET", f"{own}/issues/{{number}}/labels", "issues/list-labels-on-issue", "/issues/labels", self.list_labels, either),
        ]

    def of_commits(self) -> list:
        own, commits = "/repos/{owner}/{repo}", "/repos/{owner}/{repo}/commits/{ref}"
        statuses, checks = "/commits/statuses", "/checks/runs"
        return [
            Route("GET", f"{commits}/status", "repos/get-combined-status-for-ref", statuses, self.get_combined, "statuses"),
            Route("GET", f"{commits}/statuses", "repos/list-commit-statuses-for-ref", statuses, self.list_statuses, "statuses"),
            Route("GET", f"{commits}/check-runs", "checks/list-for-ref", checks, self.list_check_runs, "checks"),
            Route("GET", f"{own}/check-runs/{{number}}", "checks/get", checks, self.get_check_run, "checks"),
            # The same by its older address, which GitHub still serves.
            Route("GET", f"{own}/statuses/{{ref}}", "repos/list-commit-statuses-for-ref", statuses, self.list_statuses, "statuses"),
            Route("POST", f"{own}/statuses/{{ref}}", "repos/create-commit-status", statuses, self.create_status, "statuses", "write",
                  "write"),
            Route("GET", commits, "repos/get-commit", "/commits/commits", self.get_commit, "contents"),
            Route("GET", f"{own}/git/ref/{{ref}}", "git/get-ref", "/git/refs", self.get_ref, "contents"),
            Route("GET", f"{own}/contents/{{file}}", "repos/get-content", "/repos/contents", self.get_file, "contents"),
        ]

    def of_branches(self) -> list:
        own, branches, rules = "/repos/{owner}/{repo}", "/branches/branches", "/repos/rules"
        people = "/collaborators/collaborators"
        return [
            Route("GET", f"{own}/collaborators", "repos/list-collaborators", people, self.list_collaborators, "metadata", "read", "write"),
            Route("GET", f"{own}/collaborators/{{login}}/permission", "repos/get-collaborator-permission-level", people,
                  self.get_permission, "metadata", "read", "write"),
            Route("GET", f"{own}/branches", "repos/list-branches", branches, self.list_branches, "contents"),
            Route("GET", f"{own}/branches/{{branch}}/protection", "repos/get-branch-protection", "/branches/branch-protection",
                  self.get_protection, "administration", "read", "admin"),
            Route("GET", f"{own}/branches/{{branch}}", "repos/get-branch", branches, self.get_branch, "contents"),
            Route("GET", f"{own}/rulesets", "repos/get-repo-rulesets", rules, self.list_rulesets, "metadata"),
            Route("GET", f"{own}/rulesets/{{number}}", "repos/get-repo-ruleset", rules, self.get_ruleset, "metadata"),
            Route("GET", f"{own}/rules/branches/{{branch}}", "repos/get-branch-rules", rules, self.list_rules, "metadata"),
            Route("GET", f"{own}/hooks", "repos/list-webhooks", "/repos/webhooks", self.list_hooks, "repository_hooks", "read", "admin"),
            Route("GET", f"{own}/hooks/{{number}}", "repos/get-webhook", "/repos/webhooks", self.get_hook, "repository_hooks", "read",
                  "admin"),
        ]

    # Finding the route, and who may

    def find(self, method: str, path: str) -> tuple:
        """The route of a request with the names in its path, or none."""
        for route in self.routes:
            match = route.pattern.match(path)
            if match and route.method == method:
                return route, match.groupdict()
        return None, {}

    def admit(self, route: Route, asked: Asked) -> None:
        """Refuses who may not."""
        asker = asked.asker
        if asker.token and asker.app.suspended_at:
            raise Refused(403, SUSPENDED)
        if asker.label == "app" and route.permission != "app" and route.operation != "rate-limit/get":
            raise Refused(403, "Resource not accessible by integration")
        if route.permission in ("app", "installation") and asker.label.split(":")[0] != route.permission:
            raise Refused(401, "A JSON web token could not be decoded", DOCS) if route.permission == "app" else Refused(
                403, "You must authenticate with an installation access token in order to list repositories for an installation.")
        if "owner" not in asked.names:
            return
        if asker.label != "app" and not asker.sees(asked.repo):
            raise Refused(404, "Not Found")
        if route.permission != "app" and not any(
                asker.may(it, route.level, route.role, asked.repo) for it in route.permission.split("|")):
            if asker.token:
                raise Refused(403, "Resource not accessible by integration")
            is_of_people = route.operation == "repos/get-collaborator-permission-level"
            raise Refused(403, "Must have push access to view collaborator permission.") if is_of_people else Refused(404, "Not Found")
        if route.method != "GET" and asker.user is None and asker.label == "none":
            raise Refused(401, "Requires authentication")

    # The app

    def rate_limit(self, asked: Asked) -> dict:
        """The server puts the numbers in."""
        return {"resources": {}, "rate": {}}

    def get_user(self, asked: Asked) -> dict:
        if asked.asker.token or asked.asker.user is None:
            refused = asked.asker.token
            raise Refused(403, "Resource not accessible by integration") if refused else Refused(401, "Requires authentication")
        return self.shapes.whole_user(asked.asker.user)

    def get_user_by_name(self, asked: Asked) -> dict:
        user = self.world.users.get(asked.names["login"].lower())
        if user is None:
            raise Refused(404, "Not Found")
        return self.shapes.whole_user(user)

    def hook_of_app(self):
        return next((it for it in self.world.hooks if it.repository is None), None)

    def get_hook_config(self, asked: Asked) -> dict:
        hook = self.hook_of_app()
        if hook is None:
            raise Refused(404, "Not Found")
        return self.shapes.hook_config(hook)

    def list_deliveries(self, asked: Asked) -> Listed:
        own = [it for it in self.webhooks.deliveries if it.hook.repository is None and (it.statuses or it.lost)]

        def shape(it) -> dict:
            code = it.statuses[-1] if it.statuses else 0
            repository = it.payload.get("repository") or {}
            return {
                "id": it.id, "guid": it.guid, "delivered_at": stamp(it.delivered_at), "redelivery": it.redelivery, "duration": 0.1,
                "status": "OK" if 200 <= code < 300 else ("Invalid HTTP Response: " + str(code) if code else "failed to connect to host"),
                "status_code": code, "event": it.event, "action": it.action, "installation_id": asked.asker.app.installation,
                "repository_id": repository.get("id"), "throttled_at": None,
            }
        return Listed(own[::-1], shape)

    def redeliver(self, asked: Asked) -> Made:
        found = next((it for it in self.webhooks.deliveries if it.id == int(asked.names["number"])), None)
        if found is None:
            raise Refused(404, "Not Found")
        self.webhooks.again(found)
        return Made({})

    def list_installations(self, asked: Asked) -> Listed:
        return Listed([asked.asker.app], self.shapes.installation)

    def get_installation(self, asked: Asked) -> dict:
        app = asked.asker.app
        if int(asked.names.get("number", app.installation)) != app.installation:
            raise Refused(404, "Not Found")
        if "owner" in asked.names and asked.repo.owner is not app.owner:
            raise Refused(404, "Not Found")
        return self.shapes.installation(app)

    def create_token(self, asked: Asked) -> Made:
        """A token of the installation, for all of its repositories or for those that are named."""
        self.get_installation(asked)
        app, body = asked.asker.app, asked.body
        if app.suspended_at:
            raise Refused(403, SUSPENDED)
        wanted = body.get("permissions") or dict(app.permissions)
        if any(LEVELS.get(level, 9) > LEVELS[app.permissions.get(name, "")] for name, level in wanted.items()):
            raise Refused(422, "The permissions requested are not granted to this installation.")
        named = body.get("repositories") or body.get("repository_ids")
        chosen = [it for it in self.world.installed() if named and (it.name in named or it.id in named)]
        if named and len(chosen) != len(named):
            raise Refused(422, "There is at least one repository that does not exist or is not accessible to the parent installation.")
        token = self.tokens.give(app, wanted, [it.id for it in chosen] if named else None)
        shown = {
            "token": token.text, "expires_at": stamp(token.expires_at), "permissions": wanted,
            "repository_selection": "selected" if named else "all",
        }
        return Made({**shown, **({"repositories": [self.shapes.repository(it) for it in chosen]} if named else {})})

    def list_repositories(self, asked: Asked) -> Listed:
        own = [it for it in self.world.installed() if asked.asker.sees(it)]
        within = {"total_count": len(own), "repository_selection": "all", "repositories": []}
        return Listed(own, self.shapes.repository, within, "repositories")

    # Changes

    def get_repository(self, asked: Asked) -> dict:
        repository, asker = asked.repo, asked.asker
        role = repository.role_of(asker.user)
        if asker.token:
            role = {"write": "write", "read": "read"}.get(asker.token.permissions.get("contents", ""), "read")
        return self.shapes.whole_repository(repository, role)

    def pull(self, asked: Asked) -> Pull:
        found = asked.repo.pulls.get(int(asked.names["number"]))
        if found is None:
            raise Refused(404, "Not Found")
        return found

    def issue(self, asked: Asked) -> Union[Pull, Issue]:
        """A pull request, or an issue that is none."""
        return asked.repo.issues.get(int(asked.names["number"])) or self.pull(asked)

    def list_pulls(self, asked: Asked) -> Listed:
        """Pull requests, the newest first if nothing else is asked for."""
        state = one_of(asked, "state", ("open", "closed", "all"), "open")
        sort = one_of(asked, "sort", ("created", "updated"), "created")
        default = "desc" if "sort" not in asked.query or sort == "created" else "asc"
        direction = one_of(asked, "direction", ("asc", "desc"), default)
        found = [
            it for it in asked.repo.pulls.values() if state in ("all", it.state)
            and asked.query.get("base", it.base_ref) == it.base_ref
            and asked.query.get("head", "").lower() in ("", f"{it.head_owner.login}:{it.head_ref}".lower())
        ]
        found.sort(key=lambda it: (it.created_at if sort == "created" else it.updated_at, it.number), reverse=direction == "desc")
        return Listed(found, self.shapes.small_pull)

    def list_commits(self, asked: Asked) -> Listed:
        pull = self.pull(asked)
        shas = pull.repository.bare.between(pull.base_sha, pull.head_sha)
        return Listed(shas, lambda sha: self.shapes.commit(pull.repository, sha))

    def list_reviews(self, asked: Asked) -> Listed:
        """The reviews in the order of time."""
        pull = self.pull(asked)
        return Listed([it for it in asked.repo.reviews.values() if it.pull is pull], self.shapes.review)

    def list_issue_events(self, asked: Asked) -> Listed:
        """The events of an issue, of which there are no others here than pushes by force."""
        found = self.issue(asked)
        events = list(enumerate(found.forced, 1)) if isinstance(found, Pull) else []
        return Listed(events, lambda it: self.shapes.forced(asked.repo, it[0], *it[1]))

    def list_labels(self, asked: Asked) -> Listed:
        return Listed(list(self.issue(asked).labels), lambda it: self.shapes.label(asked.repo, it))

    def list_all_comments(self, asked: Asked) -> Listed:
        """The comments of all changes, and of issues that are none. Without `sort` a direction doesn't count."""
        since, sort = time_in(asked, "since"), one_of(asked, "sort", ("created", "updated"), "created")
        direction = one_of(asked, "direction", ("asc", "desc"), "desc") if "sort" in asked.query else "asc"
        found = [it for it in asked.repo.comments.values() if int(it.updated_at) >= since]
        found.sort(key=lambda it: (int(it.created_at if sort == "created" else it.updated_at), it.id), reverse=direction == "desc")
        return Listed(found, self.shapes.comment)

    def list_comments(self, asked: Asked) -> Listed:
        issue, since = self.issue(asked), time_in(asked, "since")
        found = [it for it in asked.repo.comments.values() if it.issue is issue and int(it.updated_at) >= since]
        return Listed(sorted(found, key=lambda it: it.id), self.shapes.comment)

    def get_comment(self, asked: Asked) -> dict:
        found = asked.repo.comments.get(int(asked.names["number"]))
        if found is None:
            raise Refused(404, "Not Found")
        return self.shapes.comment(found)

    def create_comment(self, asked: Asked) -> Made:
        issue, body = self.issue(asked), asked.body.get("body")
        if not isinstance(body, str) or not body.strip():
            raise invalid("IssueComment", "data", "Body cannot be blank", "unprocessable")
        if len(body) > MOST_IN_BODY:
            raise invalid("IssueComment", "data", f"Body is too long (maximum is {MOST_IN_BODY} characters)", "unprocessable")
        return Made(self.shapes.comment(self.people.comment(issue, asked.asker.user, body)))

    # Commits

    def sha(self, asked: Asked, status: int = 404) -> str:
        """The commit that a path names: by a branch, a tag, a ref, or its name or a part of that."""
        name = asked.names["ref"]
        found = asked.repo.bare.sha(name if name.startswith("refs/") or re.fullmatch("[0-9a-f]{4,40}", name) else f"refs/{name}")
        found = found or asked.repo.bare.sha(HEADS + name) or asked.repo.bare.sha(f"refs/tags/{name}")
        if found is None:
            raise Refused(422, f"No commit found for SHA: {name}") if status == 422 else Refused(404, "Not Found")
        return found

    def statuses_of(self, asked: Asked, sha: str) -> list:
        """All statuses of a commit, the newest first."""
        return [it for it in reversed(asked.repo.statuses) if it.sha == sha]

    def get_combined(self, asked: Asked) -> Listed:
        sha = self.sha(asked)
        latest: dict = {}
        for status in self.statuses_of(asked, sha):
            latest.setdefault(status.context, status)
        within = self.shapes.combined(asked.repo, sha, list(latest.values()))
        return Listed(list(latest.values()), lambda it: self.shapes.small_status(asked.repo, it), within, "statuses")

    def list_statuses(self, asked: Asked) -> Listed:
        return Listed(self.statuses_of(asked, self.sha(asked)), lambda it: self.shapes.status(asked.repo, it))

    def create_status(self, asked: Asked) -> Made:
        sha, body = self.sha(asked, 422), asked.body
        context, description = body.get("context") or "default", body.get("description")
        if body.get("state") not in STATES:
            raise invalid("Status", "state", "", "missing_field" if "state" not in body else "invalid")
        if description is not None and len(description) > MOST_IN_DESCRIPTION:
            raise invalid("Status", "description", f"description is too long (maximum is {MOST_IN_DESCRIPTION} characters)")
        if sum(1 for it in self.statuses_of(asked, sha) if it.context == context) >= MOST_STATUSES:
            raise invalid("Status", "sha", "This SHA and context has reached the maximum number of statuses.")
        made = self.people.status(asked.repo, asked.asker.user, sha, context, body["state"], description, body.get("target_url"))
        return Made(self.shapes.status(asked.repo, made))

    def list_check_runs(self, asked: Asked) -> Listed:
        """The check runs of a commit; of each app and name the latest one, if not all are asked for."""
        sha = self.sha(asked)
        found = [it for it in reversed(asked.repo.check_runs) if it.sha == sha]
        if one_of(asked, "filter", ("latest", "all"), "latest") == "latest":
            latest: dict = {}
            for run in found:
                latest.setdefault((run.app.id, run.name), run)
            found = list(latest.values())
        for name in ("name", "status"):
            said = asked.query.get("check_name" if name == "name" else name)
            found = [it for it in found if said in (None, getattr(it, name))]
        within = {"total_count": len(found), "check_runs": []}
        return Listed(found, lambda it: self.shapes.check_run(asked.repo, it), within, "check_runs")

    def get_check_run(self, asked: Asked) -> dict:
        found = next((it for it in asked.repo.check_runs if it.id == int(asked.names["number"])), None)
        if found is None:
            raise Refused(404, "Not Found")
        return self.shapes.check_run(asked.repo, found)

    def get_commit(self, asked: Asked) -> dict:
        return self.shapes.whole_commit(asked.repo, self.sha(asked, 422))

    def get_ref(self, asked: Asked) -> dict:
        ref = f"refs/{asked.names['ref']}"
        found = asked.repo.bare.refs().get(ref)
        if found is None:
            raise Refused(404, "Not Found")
        own = f"{self.shapes.url_of(asked.repo)}/git"
        target = {"sha": found, "type": "commit", "url": f"{own}/commits/{found}"}
        return {"ref": ref, "node_id": f"REF_{found[:12]}", "url": f"{own}/{ref}", "object": target}

    def get_file(self, asked: Asked) -> dict:
        """A file of a commit, or of the default branch. Folders aren't shown."""
        ref, path = asked.query.get("ref") or asked.repo.default_branch, asked.names["file"]
        commit = asked.repo.bare.sha(HEADS + ref) or asked.repo.bare.sha(ref)
        found = asked.repo.bare.git("ls-tree", commit, "--", path).split() if commit else []
        if found[1:2] != ["blob"]:
            raise Refused(404, "Not Found" if commit else f"No commit found for the ref {ref}")
        return self.shapes.file(asked.repo, ref, path, found[2])

    # Branches and people

    def list_collaborators(self, asked: Asked) -> Listed:
        def shape(login: str) -> dict:
            user, role = self.world.users[login], asked.repo.roles[login]
            flags = {flag: ROLES[role] > at for at, flag in enumerate(FLAGS)}
            return {**(self.shapes.user(user) or {}), "permissions": flags, "role_name": role}
        return Listed([it for it, role in asked.repo.roles.items() if role != "none"], shape)

    def get_permission(self, asked: Asked) -> dict:
        user = self.world.users.get(asked.names["login"].lower())
        if user is None:
            raise Refused(404, f"{asked.names['login']} is not a user")
        return self.shapes.permission(asked.repo, user)

    def tip(self, asked: Asked) -> str:
        found = asked.repo.bare.refs().get(HEADS + asked.names["branch"])
        if found is None:
            raise Refused(404, "Branch not found")
        return found

    def list_branches(self, asked: Asked) -> Listed:
        refs = asked.repo.bare.refs()
        names = [it[len(HEADS):] for it in sorted(refs) if it.startswith(HEADS)]
        return Listed(names, lambda it: self.shapes.small_branch(asked.repo, it, refs[HEADS + it]))

    def get_branch(self, asked: Asked) -> dict:
        return self.shapes.branch(asked.repo, asked.names["branch"], self.tip(asked))

    def get_protection(self, asked: Asked) -> dict:
        self.tip(asked)
        guard = self.shapes.protection_of(asked.repo, asked.names["branch"])
        if guard is None:
            raise Refused(404, "Branch not protected")
        return self.shapes.protection(asked.repo, asked.names["branch"], guard)

    def list_rulesets(self, asked: Asked) -> Listed:
        return Listed(list(asked.repo.rulesets), lambda it: self.shapes.small_ruleset(asked.repo, it))

    def get_ruleset(self, asked: Asked) -> dict:
        found = next((it for it in asked.repo.rulesets if it.id == int(asked.names["number"])), None)
        if found is None:
            raise Refused(404, "Not Found")
        sees_actors = asked.asker.may("administration", "write", "admin", asked.repo)
        return self.shapes.ruleset(asked.repo, found, passes(asked.repo, found, asked.asker), sees_actors)

    def list_rules(self, asked: Asked) -> Listed:
        """The rules at work for a branch, which needn't be there."""
        rulesets = self.shapes.rulesets_of(asked.repo, asked.names["branch"])
        found = [(ruleset, rule) for ruleset in rulesets for rule in ruleset.rules]
        return Listed(found, lambda it: self.shapes.rule_of_branch(asked.repo, *it))

    def list_hooks(self, asked: Asked) -> Listed:
        return Listed([it for it in self.world.hooks if it.repository is asked.repo], self.shapes.hook)

    def get_hook(self, asked: Asked) -> dict:
        own = [it for it in self.world.hooks if it.repository is asked.repo and it.id == int(asked.names["number"])]
        if not own:
            raise Refused(404, "Not Found")
        return self.shapes.hook(own[0])
