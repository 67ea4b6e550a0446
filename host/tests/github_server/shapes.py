"""The objects of GitHub's API, as its documentation has them: those of people, of repositories, of changes and of what is said."""
from typing import Optional, Union
from urllib.parse import quote

from .model import FLAGS, OLDER, ROLES, App, Comment, Hook, Issue, Label, Pull, Repository, Review, User, World, node, stamp

# The addresses that each repository has, below its own.
ADDRESSES = {
    "archive_url": "/{archive_format}{/ref}", "assignees_url": "/assignees{/user}", "blobs_url": "/git/blobs{/sha}",
    "branches_url": "/branches{/branch}", "collaborators_url": "/collaborators{/collaborator}", "comments_url": "/comments{/number}",
    "commits_url": "/commits{/sha}", "compare_url": "/compare/{base}...{head}", "contents_url": "/contents/{+path}",
    "contributors_url": "/contributors", "deployments_url": "/deployments", "downloads_url": "/downloads", "events_url": "/events",
    "forks_url": "/forks", "git_commits_url": "/git/commits{/sha}", "git_refs_url": "/git/refs{/sha}", "git_tags_url": "/git/tags{/sha}",
    "hooks_url": "/hooks", "issue_comment_url": "/issues/comments{/number}", "issue_events_url": "/issues/events{/number}",
    "issues_url": "/issues{/number}", "keys_url": "/keys{/key_id}", "labels_url": "/labels{/name}", "languages_url": "/languages",
    "merges_url": "/merges", "milestones_url": "/milestones{/number}",
    "notifications_url": "/notifications{?since,all,participating}", "pulls_url": "/pulls{/number}", "releases_url": "/releases{/id}",
    "stargazers_url": "/stargazers", "statuses_url": "/statuses/{sha}", "subscribers_url": "/subscribers",
    "subscription_url": "/subscription", "tags_url": "/tags", "teams_url": "/teams", "trees_url": "/git/trees{/sha}",
}
# The addresses that each user has, below its own.
OF_USER = {
    "followers_url": "/followers", "following_url": "/following{/other_user}", "gists_url": "/gists{/gist_id}",
    "starred_url": "/starred{/owner}{/repo}", "subscriptions_url": "/subscriptions", "organizations_url": "/orgs", "repos_url": "/repos",
    "events_url": "/events{/privacy}", "received_events_url": "/received_events",
}
KINDS = ("+1", "-1", "laugh", "hooray", "confused", "heart", "rocket", "eyes")


class Shapes:
    """The objects, with addresses of the API and of the site."""

    def __init__(self, world: World) -> None:
        self.world = world
        # They are known when the port is.
        self.api = self.site = ""

    # People

    def user(self, user: Optional[User]) -> Optional[dict]:
        if user is None:
            return None
        own = f"{self.api}/users/{quote(user.login, safe='')}"
        page = f"{self.site}/apps/{user.login[:-5]}" if user.login.endswith("[bot]") else f"{self.site}/{user.login}"
        return {
            "login": user.login, "id": user.id, "node_id": node(user.kind, user.id), "avatar_url": f"{self.site}/avatars/u/{user.id}?v=4",
            "gravatar_id": "", "url": own, "html_url": page, **{key: own + path for key, path in OF_USER.items()}, "type": user.kind,
            "site_admin": False,
        }

    def whole_user(self, user: User) -> dict:
        """What `GET /user` and `GET /users/LOGIN` give besides."""
        nothing = dict.fromkeys(("company", "location", "email", "hireable", "bio", "twitter_username"))
        numbers = dict.fromkeys(("public_repos", "public_gists", "followers", "following"), 0)
        since = stamp(0)
        return {**(self.user(user) or {}), "name": user.login, "blog": "", **nothing, **numbers, "created_at": since, "updated_at": since}

    def organization(self, user: User) -> dict:
        own = f"{self.api}/orgs/{user.login}"
        parts = {"repos_url": "/repos", "events_url": "/events", "hooks_url": "/hooks", "issues_url": "/issues"}
        return {
            "login": user.login, "id": user.id, "node_id": node("Organization", user.id), "url": own,
            **{key: own + path for key, path in parts.items()}, "members_url": f"{own}/members{{/member}}",
            "public_members_url": f"{own}/public_members{{/member}}", "avatar_url": f"{self.site}/avatars/u/{user.id}?v=4",
            "description": "",
        }

    def permission(self, repository: Repository, user: User) -> dict:
        role = repository.role_of(user)
        permissions = self.flags(role)
        return {
            "permission": OLDER[role], "role_name": role if role != "none" else "",
            "user": {**(self.user(user) or {}), "permissions": permissions, "role_name": role if role != "none" else ""},
        }

    @staticmethod
    def flags(role: str) -> dict:
        return {flag: ROLES[role] > at for at, flag in enumerate(FLAGS)}

    @staticmethod
    def association(repository: Repository, user: User) -> str:
        if user is repository.owner:
            return "OWNER"
        return "COLLABORATOR" if user.login.lower() in repository.roles else "NONE"

    def app(self, app: App) -> dict:
        since = stamp(app.created_at)
        return {
            "id": app.id, "slug": app.slug, "node_id": node("App", app.id), "owner": self.user(app.owner), "name": app.slug,
            "description": "", "external_url": f"{self.site}/{app.slug}", "html_url": f"{self.site}/apps/{app.slug}", "created_at": since,
            "updated_at": since, "permissions": dict(app.requested or app.permissions), "events": list(app.events),
        }

    # Repositories

    def url_of(self, repository: Repository) -> str:
        return f"{self.api}/repos/{repository.full_name}"

    def page_of(self, repository: Repository) -> str:
        return f"{self.site}/{repository.full_name}"

    def small_repository(self, repository: Repository) -> dict:
        """What stands for a repository within other objects."""
        own = self.url_of(repository)
        return {
            "id": repository.id, "node_id": node("Repository", repository.id), "name": repository.name,
            "full_name": repository.full_name, "private": repository.private, "owner": self.user(repository.owner),
            "html_url": self.page_of(repository), "description": None, "fork": repository.parent is not None, "url": own,
            **{key: own + path for key, path in ADDRESSES.items()},
        }

    def repository(self, repository: Repository) -> dict:
        page, forks = self.page_of(repository), self.forks_of(repository)
        issues = sum(1 for it in repository.pulls.values() if it.state == "open")
        without = page.split("://", 1)[1]
        return {
            **self.small_repository(repository), "created_at": stamp(repository.created_at),
            "updated_at": stamp(repository.updated_at), "pushed_at": stamp(repository.pushed_at), "git_url": f"git://{without}.git",
            "ssh_url": f"git@{without.split(':')[0]}:{repository.full_name}.git", "clone_url": f"{page}.git", "svn_url": page,
            "homepage": None, "size": 1, "stargazers_count": 0, "watchers_count": 0, "language": None, "has_issues": True,
            "has_projects": True, "has_downloads": True, "has_wiki": True, "has_pages": False, "has_discussions": False,
            "forks_count": forks, "mirror_url": None, "archived": False, "disabled": False, "open_issues_count": issues, "license": None,
            "allow_forking": True, "is_template": False, "web_commit_signoff_required": False, "topics": [],
            "visibility": "private" if repository.private else "public", "forks": forks, "open_issues": issues, "watchers": 0,
            "default_branch": repository.default_branch,
        }

    def forks_of(self, repository: Repository) -> int:
        return sum(1 for it in self.world.repositories.values() if it.parent is repository)

    def whole_repository(self, repository: Repository, role: str) -> dict:
        """What `GET /repos/OWNER/NAME` gives besides: what who asks may do, and where a fork is from."""
        from_where = repository.parent
        origin = self.repository(from_where) if from_where else None
        is_owned = repository.owner.kind == "Organization"
        ways = dict.fromkeys(("allow_squash_merge", "allow_merge_commit", "allow_rebase_merge"), True)
        others = dict.fromkeys(("allow_auto_merge", "delete_branch_on_merge", "allow_update_branch"), False)
        return {
            **self.repository(repository), "permissions": self.flags(role), "temp_clone_token": None, **ways, **others,
            **({"organization": self.user(repository.owner)} if is_owned else {}),
            **({"parent": origin, "source": origin} if origin else {}), "network_count": self.forks_of(repository),
            "subscribers_count": 0,
        }

    def hook(self, hook: Hook) -> dict:
        """A webhook of a repository. Its secret is never shown."""
        own = f"{self.url_of(hook.repository)}/hooks/{hook.id}" if hook.repository else f"{self.api}/app/hook"
        shown: dict = {
            "type": "Repository" if hook.repository else "App", "id": hook.id, "name": "web", "active": hook.active,
            "events": list(hook.events), "config": self.hook_config(hook), "updated_at": stamp(hook.created_at),
            "created_at": stamp(hook.created_at),
        }
        if hook.repository is None:
            return {**shown, "app_id": self.world.app.id if self.world.app else 0, "deliveries_url": f"{own}/deliveries"}
        code, is_new = hook.last_status, hook.last_status is None
        said = "unused" if is_new else ("active" if code is not None and 200 <= code < 300 else "invalid")
        return {
            **shown, "url": own, "test_url": f"{own}/test", "ping_url": f"{own}/pings", "deliveries_url": f"{own}/deliveries",
            "last_response": {"code": code, "status": said, "message": None if is_new else "OK"},
        }

    @staticmethod
    def hook_config(hook: Hook) -> dict:
        return {"content_type": hook.content_type, "insecure_ssl": "0", "url": hook.url, **({"secret": "********"} if hook.secret else {})}

    # Changes

    def label(self, repository: Repository, label: Label) -> dict:
        return {
            "id": label.id, "node_id": node("Label", label.id), "url": f"{self.url_of(repository)}/labels/{quote(label.name, safe='')}",
            "name": label.name, "color": label.color, "default": False, "description": None,
        }

    def side(self, ref: str, sha: str, owner: User, repository: Optional[Repository]) -> dict:
        """The head or the base of a pull request. A fork that is gone is none."""
        shown = self.repository(repository) if repository else None
        return {"label": f"{owner.login}:{ref}", "ref": ref, "sha": sha, "user": self.user(owner), "repo": shown}

    def addresses_of(self, pull: Union[Pull, Issue]) -> dict:
        if isinstance(pull, Issue):
            part = f"/issues/{pull.number}"
            return {"html_url": self.page_of(pull.repository) + part, "issue_url": self.url_of(pull.repository) + part}
        own = f"{self.url_of(pull.repository)}/pulls/{pull.number}"
        issue = f"{self.url_of(pull.repository)}/issues/{pull.number}"
        page = f"{self.page_of(pull.repository)}/pull/{pull.number}"
        return {
            "url": own, "html_url": page, "diff_url": f"{page}.diff", "patch_url": f"{page}.patch", "issue_url": issue,
            "commits_url": f"{own}/commits", "review_comments_url": f"{own}/comments",
            "review_comment_url": f"{self.url_of(pull.repository)}/pulls/comments{{/number}}", "comments_url": f"{issue}/comments",
            "statuses_url": f"{self.url_of(pull.repository)}/statuses/{pull.head_sha}",
        }

    def small_pull(self, pull: Pull) -> dict:
        """A pull request as lists and webhooks of reviews have it. It doesn't say `merged`."""
        repository, urls = pull.repository, self.addresses_of(pull)
        links = {
            "self": "url", "html": "html_url", "issue": "issue_url", "comments": "comments_url", "review_comments": "review_comments_url",
            "review_comment": "review_comment_url", "commits": "commits_url", "statuses": "statuses_url",
        }
        return {
            **urls, "id": pull.id, "node_id": node("PullRequest", pull.id), "number": pull.number, "state": pull.state, "locked": False,
            "title": pull.title, "user": self.user(pull.user), "body": pull.body, "created_at": stamp(pull.created_at),
            "updated_at": stamp(pull.updated_at), "closed_at": stamp(pull.closed_at), "merged_at": stamp(pull.merged_at),
            "merge_commit_sha": pull.merge_commit_sha, "assignee": None, "assignees": [], "requested_reviewers": [],
            "requested_teams": [], "labels": [self.label(repository, it) for it in pull.labels], "milestone": None, "draft": pull.draft,
            "head": self.side(pull.head_ref, pull.head_sha, pull.head_owner, pull.head_repository),
            "base": self.side(pull.base_ref, pull.base_sha, repository.owner, repository),
            "_links": {key: {"href": urls[name]} for key, name in links.items()},
            "author_association": self.association(repository, pull.user), "auto_merge": None, "active_lock_reason": None,
        }

    def pull(self, pull: Pull) -> dict:
        """A pull request by itself."""
        bare = pull.repository.bare
        commits = bare.between(pull.base_sha, pull.head_sha)
        lines = [it for sha in commits for it in bare.changed(sha).items()]
        is_open = pull.state == "open"
        states = {True: "clean", False: "dirty", None: "unknown"}
        return {
            **self.small_pull(pull), "merged": pull.merged, "mergeable": pull.mergeable if is_open else None,
            "rebaseable": pull.mergeable if is_open else None, "mergeable_state": states[pull.mergeable] if is_open else "unknown",
            "merged_by": self.user(pull.merged_by), "comments": self.comments_on(pull), "review_comments": 0,
            "maintainer_can_modify": pull.head_repository is not pull.repository, "commits": len(commits),
            "additions": sum(it[1][1] for it in lines), "deletions": sum(it[1][2] for it in lines),
            "changed_files": len({it[0] for it in lines}),
        }

    @staticmethod
    def comments_on(issue: Union[Pull, Issue]) -> int:
        return sum(1 for it in issue.repository.comments.values() if it.issue is issue)

    def issue(self, pull: Union[Pull, Issue]) -> dict:
        """An issue, or a pull request as the issue that it is too; that one has an object `pull_request`."""
        repository, urls = pull.repository, self.addresses_of(pull)
        of_pull = {}
        if isinstance(pull, Pull):
            places = {key: urls[key] for key in ("url", "html_url", "diff_url", "patch_url")}
            of_pull = {"draft": pull.draft, "pull_request": {**places, "merged_at": stamp(pull.merged_at)}}
        own = urls["issue_url"]
        return {
            "url": own, "repository_url": self.url_of(repository), "labels_url": f"{own}/labels{{/name}}",
            "comments_url": f"{own}/comments", "events_url": f"{own}/events", "html_url": urls["html_url"], "id": pull.issue_id,
            "node_id": node("Issue", pull.issue_id), "number": pull.number, "title": pull.title, "user": self.user(pull.user),
            "labels": [self.label(repository, it) for it in pull.labels], "state": pull.state, "locked": False, "assignee": None,
            "assignees": [], "milestone": None, "comments": self.comments_on(pull), "created_at": stamp(pull.created_at),
            "updated_at": stamp(pull.updated_at), "closed_at": stamp(pull.closed_at),
            "author_association": self.association(repository, pull.user), "active_lock_reason": None, **of_pull,
            "body": pull.body, "reactions": self.reactions(own), "timeline_url": f"{own}/timeline", "performed_via_github_app": None,
            "state_reason": None,
        }

    @staticmethod
    def reactions(address: str) -> dict:
        return {"url": f"{address}/reactions", "total_count": 0, **dict.fromkeys(KINDS, 0)}

    def comment(self, comment: Comment) -> dict:
        repository, urls, app = comment.issue.repository, self.addresses_of(comment.issue), self.world.app
        own = f"{self.url_of(repository)}/issues/comments/{comment.id}"
        return {
            "url": own, "html_url": f"{urls['html_url']}#issuecomment-{comment.id}", "issue_url": urls["issue_url"], "id": comment.id,
            "node_id": node("IssueComment", comment.id), "user": self.user(comment.user), "created_at": stamp(comment.created_at),
            "updated_at": stamp(comment.updated_at), "author_association": self.association(repository, comment.user),
            "body": comment.body, "reactions": self.reactions(own),
            "performed_via_github_app": self.app(app) if app and comment.user is app.user else None,
        }

    def forced(self, repository: Repository, number: int, at: float, sha: str, user: User) -> dict:
        """The event of a push by force to the head of a pull request."""
        own = self.url_of(repository)
        return {
            "id": number, "node_id": node("HeadRefForcePushedEvent", number), "url": f"{own}/issues/events/{number}",
            "actor": self.user(user), "event": "head_ref_force_pushed", "commit_id": sha, "commit_url": f"{own}/commits/{sha}",
            "created_at": stamp(at), "performed_via_github_app": None,
        }

    def review(self, review: Review) -> dict:
        urls = self.addresses_of(review.pull)
        page = f"{urls['html_url']}#pullrequestreview-{review.id}"
        return {
            "id": review.id, "node_id": node("PullRequestReview", review.id), "user": self.user(review.user), "body": review.body,
            "state": review.state, "html_url": page, "pull_request_url": urls["url"],
            "author_association": self.association(review.pull.repository, review.user),
            "_links": {"html": {"href": page}, "pull_request": {"href": urls["url"]}}, "submitted_at": stamp(review.submitted_at),
            "commit_id": review.commit,
        }
