"""Tests of the client of GitHub's API, over answers that are values, and of secrets in files."""
import sys
import tempfile
import unittest
from pathlib import Path

sys.path.insert(0, str(Path(__file__).resolve().parent.parent))

try:
    import httpx
    import jwt
except ImportError:
    httpx = jwt = None

from gate_host.faults import Trouble  # noqa: E402
from gate_host.github.pauses import pause_after  # noqa: E402

PLACE = "https://api.github.test"


class PauseTests(unittest.TestCase):
    def test_how_long_nothing_is_asked(self):
        for status, headers, faults, due in (
            (200, {}, 0, None), (404, {}, 0, None), (304, {}, 3, None), (403, {}, 0, None), (429, {}, 0, 60.0),
            (403, {"retry-after": "7"}, 0, 7.0), (429, {"retry-after": "7"}, 0, 7.0), (403, {"retry-after": "99999"}, 0, 3600.0),
            (403, {"x-ratelimit-remaining": "0", "x-ratelimit-reset": "1042"}, 0, 42.0), (403, {"x-ratelimit-remaining": "5"}, 0, None),
            (403, {"x-ratelimit-remaining": "0", "x-ratelimit-reset": "900"}, 0, 1.0), (403, {"x-ratelimit-remaining": "0"}, 0, 60.0),
            (403, {"retry-after": "soon"}, 0, None), (403, {"x-ratelimit-remaining": "0", "x-ratelimit-reset": "9" * 20}, 0, 60.0),
            (500, {}, 0, 1.0), (502, {}, 3, 8.0), (503, {}, 400, 60.0),
        ):
            self.assertEqual(pause_after(status, headers, 1000.0, faults), due, (status, headers))


@unittest.skipIf(httpx is None, "httpx isn't installed")
class ApiTests(unittest.TestCase):
    def setUp(self):
        self.asked, self.answers, self.time = [], [], 1000.0
        self.refusals = 0

    def header(self):
        return f"Bearer token-{self.refusals}"

    def refused(self):
        self.refusals += 1

    def api(self, *answers):
        from gate_host.github.api import Api
        self.answers = list(answers)
        return Api(PLACE, self, httpx.Client(transport=httpx.MockTransport(self.answer)), lambda: self.time)

    def answer(self, request):
        self.asked.append((request.method, str(request.url)[len(PLACE):], request.headers.get("if-none-match"),
                           request.headers["authorization"], request.content.decode()))
        answer = self.answers.pop(0)
        if isinstance(answer, Exception):
            raise answer
        return answer

    def test_a_list_is_read_page_by_page(self):
        link = {"link": f'<{PLACE}/x?page=2>; rel="next", <{PLACE}/x?page=9>; rel="last"'}
        api = self.api(httpx.Response(200, json=[1, 2], headers=link), httpx.Response(200, json=[3]))
        self.assertEqual(list(api.all("/x", state="open")), [1, 2, 3])
        self.assertEqual([it[1] for it in self.asked], ["/x?per_page=100&state=open", "/x?page=2"])

    def test_a_next_page_elsewhere_gets_no_token(self):
        from gate_host.github.api import Refused
        for place in ("https://evil.test/x", "https://api.github.test.evil.test/x"):
            api = self.api(httpx.Response(200, json=[1], headers={"link": f'<{place}>; rel="next"'}))
            with self.assertRaises(Refused):
                list(api.all("/x"))
        self.assertEqual(len(self.asked), 2)

    def test_an_answer_that_is_the_same_is_not_sent_again(self):
        tagged = httpx.Response(200, json={"a": 1}, headers={"etag": '"t"'})
        api = self.api(tagged, httpx.Response(304), httpx.Response(200, json={"a": 2}), httpx.Response(200, json={"a": 3}))
        self.assertEqual([api.get("/x") for _ in range(4)], [{"a": 1}, {"a": 1}, {"a": 2}, {"a": 3}])
        self.assertEqual([it[2] for it in self.asked], [None, '"t"', '"t"', None])

    def test_what_is_asked_for_no_more_is_not_kept(self):
        tagged = [httpx.Response(200, json=[number], headers={"etag": f'"{number}"'}) for number in range(40)]
        api = self.api(*tagged[:20], httpx.Response(304), *tagged[20:])
        for number in range(20):
            api.get("/x", since=number)
        self.time += 500
        self.assertEqual(api.get("/x", since=7), [7])
        self.time += 200
        for number in range(20, 40):
            api.get("/x", since=number)
        self.assertEqual([it.body for it in api.kept.values()], [[7], *([number] for number in range(20, 40))])

    def test_a_full_page_is_read_anew_as_a_next_one_may_have_come(self):
        full, link = list(range(100)), {"link": f'<{PLACE}/x?page=2>; rel="next"'}
        api = self.api(
            httpx.Response(200, json=full, headers={"etag": '"t"'}),
            httpx.Response(200, json=full, headers={"etag": '"t"', **link}),
            httpx.Response(200, json=[100], headers={"etag": '"u"'}), httpx.Response(304), httpx.Response(304))
        self.assertEqual([list(api.all("/x")) for _ in range(3)], [full, [*full, 100], [*full, 100]])
        self.assertEqual([it[2] for it in self.asked], [None, None, None, '"t"', '"u"'])

    def test_nothing_is_asked_during_a_pause(self):
        from gate_host.github.api import Later
        api = self.api(httpx.Response(403, json={}, headers={"retry-after": "30"}), httpx.Response(200, json={}))
        for later in (0, 29):
            self.time = 1000.0 + later
            with self.assertRaises(Later):
                api.get("/x")
        self.time = 1030.0
        self.assertEqual((api.get("/x"), len(self.asked)), ({}, 2))

    def test_all_messages_of_a_refusal_are_told_and_nothing_else(self):
        from gate_host.github.api import words_of
        for body, due in (
            ({"message": "No"}, "No"), ({"message": "No", "errors": [{"message": "too quickly"}, {"code": "x"}, "y"]}, "No; too quickly"),
            ({"message": 7}, "Unprocessable Entity"), (["x"], "Unprocessable Entity"), ({"message": "x" * 400}, "x" * 300),
        ):
            self.assertEqual(words_of(httpx.Response(422, json=body)), due)

    def test_a_limit_that_only_words_tell_is_one(self):
        from gate_host.github.api import Later, Refused
        for said, kind in (
            ("You have exceeded a secondary rate limit. Please wait a few minutes before you try again.", Later),
            ("You have triggered an abuse detection mechanism.", Later), ("Resource not accessible by integration", Refused),
        ):
            api = self.api(httpx.Response(403, json={"message": said}))
            with self.assertRaises(Exception) as caught:
                api.get("/x")
            self.assertEqual((type(caught.exception), api.not_before), (kind, 1060.0 if kind is Later else 0.0))

    def test_whether_something_may_have_acted(self):
        from gate_host.github.api import Later, Refused, Unanswered
        for answer, kind in (
            (httpx.ConnectError("no"), Later), (httpx.ReadTimeout("no"), Unanswered), (httpx.RemoteProtocolError("no"), Unanswered),
            (httpx.Response(502), Unanswered), (httpx.Response(403, json={}, headers={"retry-after": "1"}), Later),
            (httpx.Response(422, json={"message": "no such head"}), Refused), (httpx.Response(200, text="<html>"), Refused),
            (httpx.Response(302, headers={"location": "https://evil.test"}), Refused),
        ):
            with self.assertRaises(Exception) as caught:
                self.api(answer).post("/x", {"body": "x"})
            self.assertIs(type(caught.exception), kind, answer)
        self.assertEqual([it[4] for it in self.asked], ['{"body": "x"}'] * 8)

    def test_pauses_grow_with_faults_in_a_row(self):
        from gate_host.github.api import Later
        api, pauses = self.api(*[httpx.Response(500)] * 3, httpx.Response(200, json={}), httpx.Response(500)), []
        for _ in range(5):
            try:
                api.get("/x")
            except Later:
                pauses.append(api.not_before - self.time)
            self.time = max(self.time, api.not_before)
        self.assertEqual(pauses, [1.0, 2.0, 4.0, 1.0])

    def test_a_token_that_is_not_taken_is_renewed_once(self):
        from gate_host.github.api import Later
        api = self.api(httpx.Response(401, json={}), httpx.Response(200, json={}), *[httpx.Response(401, json={"message": "Bad"})] * 2)
        self.assertEqual(api.get("/x"), {})
        for said in ("GitHub doesn't take the credentials: Bad", "GitHub is asked again in 60 seconds"):
            with self.assertRaisesRegex(Later, said):
                api.get("/x")
        self.assertEqual([it[3][-1] for it in self.asked], ["0", "1", "1", "2"])

    def test_what_lacks_a_right_is_asked_for_with_new_credentials_the_next_time(self):
        from gate_host.github.api import Refused
        api = self.api(httpx.Response(403, json={"message": "No"}), httpx.Response(404, json={}), httpx.Response(200, json={}))
        for status in (403, 404):
            with self.assertRaises(Refused) as refused:
                api.get("/x")
            self.assertEqual(refused.exception.status, status)
        self.assertEqual((api.get("/x"), [it[3][-1] for it in self.asked]), ({}, ["0", "1", "1"]))


def new_key():
    from cryptography.hazmat.primitives.asymmetric import rsa
    return rsa.generate_private_key(public_exponent=65537, key_size=2048)


def written(key):
    from cryptography.hazmat.primitives.serialization import Encoding, NoEncryption, PrivateFormat
    return key.private_bytes(Encoding.PEM, PrivateFormat.PKCS8, NoEncryption())


@unittest.skipIf(jwt is None, "PyJWT isn't installed")
class CredentialTests(unittest.TestCase):
    def setUp(self):
        room = tempfile.TemporaryDirectory()
        self.addCleanup(room.cleanup)
        self.room = Path(room.name)

    def file(self, content, mode=0o600, name="secret"):
        path = self.room / name
        path.unlink(missing_ok=True)
        path.write_bytes(content)
        path.chmod(mode)
        return path

    def test_a_secret_is_in_a_file_that_nobody_else_reads(self):
        from gate_host.github.credentials import secret_in
        self.assertEqual(secret_in(self.file(b"abc\n")), "abc")
        for content, mode in ((b"abc", 0o640), (b"abc", 0o604), (b"", 0o600), (b"\n", 0o600), (b"\xff", 0o600), (b"x" * 65537, 0o600)):
            with self.assertRaises(Trouble):
                secret_in(self.file(content, mode))
        link = self.room / "link"
        link.symlink_to(self.file(b"abc"))
        for path in (link, self.room / "none", self.room):
            with self.assertRaises(Trouble):
                secret_in(path)

    def test_a_token_is_read_again_when_it_is_refused(self):
        from gate_host.github.credentials import TokenInFile
        token = TokenInFile(self.file(b"one"))
        self.file(b"two")
        before = token.header()
        token.refused()
        self.assertEqual((before, token.header()), ("Bearer one", "Bearer two"))

    def test_a_token_is_one_word_and_no_fault_tells_it(self):
        from gate_host.faults import Unable
        from gate_host.github.credentials import TokenInFile
        token = TokenInFile(self.file(b"one"))
        for content in (b"two\nthree\n", b"two three", b"two\0", b"two\rthree"):
            path = self.file(content)
            for read, kind in ((lambda: TokenInFile(path), Trouble), (token.refused, Unable)):
                with self.assertRaisesRegex(kind, "one word has to stand there") as caught:
                    read()
                self.assertNotIn("two", str(caught.exception))
        self.assertEqual(token.header(), "Bearer one")

    def test_an_app_says_who_it_is_and_gets_a_token_for_an_hour(self):
        from gate_host.github.credentials import AppWithKey
        key = new_key()
        path = self.file(written(key))
        now, words = [1_700_000_000.0], []

        def token_of(word):
            words.append(jwt.decode(word, key.public_key(), algorithms=["RS256"], options={"verify_exp": False, "verify_iat": False}))
            return f"token-{len(words)}", now[0] + 3600
        app = AppWithKey("12", path, token_of, lambda: now[0])
        found = []
        for later in (0, 3200, 3299.0, 3301.0):
            now[0] = 1_700_000_000.0 + later
            found.append(app.header())
        app.refused()
        found.append(app.header())
        self.assertEqual(found, ["Bearer token-1"] * 3 + ["Bearer token-2", "Bearer token-3"])
        self.assertEqual(words[0], {"iat": 1_700_000_000 - 60, "exp": 1_700_000_000 + 540, "iss": "12"})

    def test_an_app_that_gets_no_token_asks_by_and_by(self):
        from gate_host.faults import Unable
        from gate_host.github.credentials import AppWithKey
        now, asked = [1000.0], []

        def token_of(word):
            asked.append(now[0])
            if len(asked) < 4:
                raise Unable("GitHub answers 401")
            return "token", now[0] + 3600
        app = AppWithKey("12", self.file(written(new_key())), token_of, lambda: now[0])
        while len(asked) < 4:
            try:
                app.header()
            except Unable as fault:
                self.assertEqual(str(fault), "GitHub answers 401")
            now[0] += 0.5
        self.assertEqual((asked, app.header()), ([1000.0, 1001.0, 1003.0, 1007.0], "Bearer token"))

    def test_what_is_no_private_key_of_rsa_can_not_sign(self):
        from cryptography.hazmat.primitives.asymmetric import ec
        from cryptography.hazmat.primitives.serialization import BestAvailableEncryption, Encoding, PrivateFormat, PublicFormat
        from gate_host.github.credentials import signed_by
        key = new_key()
        for content in (
            key.public_key().public_bytes(Encoding.PEM, PublicFormat.SubjectPublicKeyInfo),
            written(ec.generate_private_key(ec.SECP256R1())),
            key.private_bytes(Encoding.PEM, PrivateFormat.PKCS8, BestAvailableEncryption(b"x")), b"no key",
        ):
            with self.assertRaisesRegex(Trouble, "has no such key"):
                signed_by("12", content.decode(), 0)

    def test_a_secret_that_can_not_be_read_ends_a_start_and_no_host_at_work(self):
        from gate_host.faults import Unable
        from gate_host.github.credentials import AppWithKey, TokenInFile
        key = written(new_key())
        path = self.file(key)
        app = AppWithKey("12", path, lambda word: ("token", 0.0), lambda: 0.0)
        token = TokenInFile(self.file(b"one", name="token"))
        bad = self.file(b"no key", name="bad")
        for make in (lambda: AppWithKey("12", bad, lambda word: ("", 0.0)), lambda: TokenInFile(self.room / "none")):
            with self.assertRaises(Trouble):
                make()
        for content, mode in ((b"no key", 0o600), (key, 0o644)):
            self.file(content, mode)
            with self.assertRaises(Unable):
                app.header()
        self.file(key)
        self.assertEqual(app.header(), "Bearer token")
        self.file(b"two", 0o644, name="token")
        with self.assertRaises(Unable):
            token.refused()
        self.assertEqual(token.header(), "Bearer one")


if __name__ == "__main__":
    unittest.main()
