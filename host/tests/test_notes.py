"""Tests of what notes say, by tables of values."""
import json
import unittest

from playing import A, B, Play, BEFORE
from gate_host.core.facts import PushTold, Said
from gate_host.core.notes import (
    Acceptance, AcceptanceLeft, Comment, CommentLeft, PushLeft, Report, ReportLeft, Strange, note_in, objection_to, table_of,
)


class NoteTests(unittest.TestCase):
    def test_pushes_and_acceptances(self):
        for body, due in (
            ({"kind": "push"}, Strange("n", "eve")), ({"kind": "push", "heads": 7}, Strange("n", "eve")),
            ({"kind": "push", "heads": [], "moves": 7}, Strange("n", "eve")), ({"kind": "push", "heads": []}, PushTold("n", "eve", (), ())),
            ({"kind": "accept", "commit": A}, Acceptance("n", "eve", A)), ({"kind": "accept"}, Strange("n", "eve")),
            ({"kind": "accept", "commit": "x"}, Strange("n", "eve")),
            ({"kind": "push", "heads": [[7, A], [True, A], [0, A], [4294967296, A], ["7", A], [7, "x"], [7], 7, [4294967295, B]],
              "moves": [[A, B], [A], [A, 7], "x"]}, PushTold("n", "eve", ((7, A), (4294967295, B)), ((A, B),))),
        ):
            self.assertEqual(note_in("n", "eve", body), due, body)

    def test_reports(self):
        good = {"kind": "status", "commit": A, "name": "build", "state": "pending", "description": ""}
        self.assertEqual(note_in("n", "eve", good), Report("n", "eve", A, "build", "pending", ""))
        for name, value in (
            ("commit", A[1:]), ("commit", 7), ("name", ""), ("name", "a\nb"), ("name", "x" * 256), ("name", 7), ("name", "\ud800"),
            ("state", "fine"), ("state", []), ("description", None), ("description", "x" * 301),
            ("description", "a\nb"), ("description", "a\x7fb"),
        ):
            self.assertEqual(note_in("n", "eve", {**good, name: value}), Strange("n", "eve"), (name, value))
        self.assertEqual(note_in("n", "eve", {**good, "description": "\ud800"}).description, "?")

    def test_comments(self):
        for body in ({}, {"change": 7}, {"change": 7, "text": 7}, {"change": True, "text": "x"}, {"change": 7.0, "text": "x"},
                     {"change": "7", "text": "x"}, {"change": 10 ** 40, "text": "x"}, {"change": 7, "text": "x" * 8001}):
            self.assertEqual(note_in("n", "eve", body), Strange("n", "eve"), body)
        self.assertEqual(note_in("n", "eve", {"change": 7, "text": "bors \ud800", "head": A}).text, "bors ?")

    def test_a_comment_is_about_what_its_writer_has_seen(self):
        known = Play(*BEFORE).known
        moved = f"and the change is at {B} now. Look at that first."
        for text, seen, is_readable, due in (
            ("bors r+", B, True, ""), ("bors r+", None, True, ""), ("so", A, True, ""), ("so", B, False, ""),
            ("bors r+", A, True, f"it was about {A}, {moved}"), ("bors r+", "x" * 40, True, f"it was about another commit, {moved}"),
            ("bors r+", 7, True, f"it was about another commit, {moved}"), ("bors r+", A, False, f"it was about {A}, {moved}"),
            ("bors r+", B, False, f"{B} can't be read whole in the repository. Push it again, or push another commit."),
        ):
            comment = note_in("n", "eve", {"change": 7, "text": text, "head": seen})
            self.assertEqual(objection_to(known, Said("n", 7, "eve", text, comment.seen, is_readable)), due, (text, seen))
            self.assertEqual(objection_to(Play(*BEFORE[:2]).known, Said("n", 7, "eve", text, comment.seen, is_readable)), "")

    def test_what_is_left_is_read_again(self):
        for left, due in (
            (CommentLeft("rosa", 7, "bors r+", A), Comment("n", "eve", 7, "bors r+", A)),
            (PushLeft(None, ((7, A),), ((A, B),)), PushTold("n", "eve", ((7, A),), ((A, B),))),
            (PushLeft("rosa"), PushTold("n", "eve", (), ())), (AcceptanceLeft("rosa", A), Acceptance("n", "eve", A)),
            (ReportLeft("ci", A, "on arm", "error", "at 7"), Report("n", "eve", A, "on arm", "error", "at 7")),
        ):
            table = json.loads(json.dumps(table_of(left)))
            self.assertEqual((note_in("n", "eve", table), table["person"]), (due, left.person))


if __name__ == "__main__":
    unittest.main()
