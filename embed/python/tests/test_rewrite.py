"""What calls return. The expected values were worked out by hand from docs/LANGUAGE.md and docs/FORMAT.md."""

import json
import unittest
from pathlib import Path
from typing import Any

from sno_rewrite import Entry, Listing, Match, Refusal, Statement, Text, rewrite, rewrite_document

EXAMPLES = Path(__file__).resolve().parents[3] / "examples"

DOCUMENT = b"""{"texts":[{"name":"T","text":"abc"}],"statements":[{"text":"T","pattern":"'b'","object":"'X'"}]}"""
LINES = b"texts 1\nT 1 |aXc|\nentries 1\n0 statement 1 T 0 matched 1 2\n  -> |aXc|\nrefused 0\n"
JSON = (
    b'{"entries":[{"after":"aXc","bindings":[],"end":2,"entry":0,"matched":true,"start":1,"statement":1,"text":"T",'
    b'"version":0}],"refused":[],"texts":[{"name":"T","text":"aXc","version":1}]}\n'
)


def entry(index: int, statement: int, text: str, version: int, **members: Any) -> Entry:
    """An entry that failed, but for the members that are given."""
    usual: dict[str, Any] = {
        "matched": False,
        "start": None,
        "end": None,
        "repeated": None,
        "bindings": (),
        "after": None,
    }
    return Entry(index, statement, text, version, **(usual | members))


class Rewrite(unittest.TestCase):
    def test_replaces_a_match(self) -> None:
        found = rewrite(texts={"T": "abc"}, statements=[Statement("T", "'b'", "'X'")])
        changed = entry(0, 1, "T", 0, matched=True, start=1, end=2, after="aXc")
        self.assertEqual(found, Listing((Text("T", "aXc", 1),), (changed,), ()))

    def test_lists_all_matches(self) -> None:
        found = rewrite(
            texts={"T": "a&1&", "U": "b"},
            statements=[
                Statement("T", "'&' . A", "'&amp;'", all=True),
                {"text": "U", "pattern": "'&'", "all": True},
            ],
        )
        both = (Match(1, 2, (("A", "&"),)), Match(3, 4, (("A", "&"),)))
        changed = entry(0, 1, "T", 0, matched=True, after="a&amp;1&amp;", all=both)
        self.assertEqual(found.entries, (changed, entry(1, 2, "U", 0)))

    def test_lists_variables_failures_and_refusals(self) -> None:
        found = rewrite(
            texts=[("A", "k=v"), ("B", "aaab")],
            statements=[
                {"text": "A", "pattern": "BREAK('=') . K '=' REM . V", "object": "V '=' K"},
                {"text": "B", "pattern": "SPAN('a') 'a'"},
                {"text": "C", "pattern": "'x'"},
            ],
        )
        turned = entry(
            0, 1, "A", 0, matched=True, start=0, end=3, bindings=(("K", "k"), ("V", "v")), after="v=k"
        )
        wanted = Listing(
            (Text("A", "v=k", 1), Text("B", "aaab", 0)),
            (turned, entry(1, 2, "B", 0)),
            (Refusal(3, "no text"),),
        )
        self.assertEqual(found, wanted)

    def test_takes_patterns_as_a_mapping_and_as_pairs(self) -> None:
        patterns = {"DIGIT": "ANY('0123456789')", "DIGITS": "DIGIT ARBNO(DIGIT)"}
        changed = entry(0, 1, "T", 0, matched=True, start=1, end=3, bindings=(("N", "1"),), after="v1,25")
        wanted = Listing((Text("T", "v1,25", 1),), (changed,), ())
        for given in patterns, list(patterns.items()), [list(pair) for pair in patterns.items()], patterns.items():
            with self.subTest(given=given):
                statements = [Statement("T", "DIGITS . N '.'", "N ','")]
                self.assertEqual(rewrite(texts={"T": "v1.25"}, statements=statements, patterns=given), wanted)

    def test_keeps_the_order_of_texts(self) -> None:
        wanted = (Text("B", "1", 0), Text("A", "2", 0))
        self.assertEqual(rewrite(texts={"B": "1", "A": "2"}).texts, wanted)
        self.assertEqual(rewrite(texts=iter([("B", "1"), ("A", "2")])).texts, wanted)

    def test_lists_a_repeated_statement(self) -> None:
        found = rewrite(texts={"T": "aaa"}, statements=(Statement("T", "'a'", "'b'", repeat=10) for _ in range(1)))
        changed = entry(0, 1, "T", 0, matched=True, repeated=3, after="bbb")
        self.assertEqual(found, Listing((Text("T", "bbb", 1),), (changed,), ()))

    def test_lists_a_cursor_as_a_number(self) -> None:
        found = rewrite(texts={"T": "abc"}, statements=[Statement("T", "@P 'c'")])
        self.assertEqual(found.entries, (entry(0, 1, "T", 0, matched=True, start=2, end=3, bindings=(("P", 2),)),))

    def test_an_empty_object_deletes_and_none_replaces_nothing(self) -> None:
        found = rewrite(
            texts={"T": "abc"},
            statements=[Statement("T", "'b'", ""), {"text": "T", "pattern": "'a'", "object": None, "repeat": None}],
        )
        deleted = entry(0, 1, "T", 0, matched=True, start=1, end=2, after="ac")
        seen = entry(1, 2, "T", 1, matched=True, start=0, end=1)
        self.assertEqual(found, Listing((Text("T", "ac", 1),), (deleted, seen), ()))

    def test_keeps_every_ascii_character(self) -> None:
        characters = "".join(map(chr, range(128)))
        found = rewrite(texts={"T": characters}, statements=[Statement("T", "REM . ALL", "ALL '!'")])
        self.assertEqual(found.texts, (Text("T", characters + "!", 1),))
        self.assertEqual(found.entries[0].bindings, (("ALL", characters),))

    def test_anchors_statements_that_say_nothing(self) -> None:
        statements = [Statement("T", "'b'", anchored=anchored) for anchored in (None, False, True)]
        for anchor, matched in (False, [True, True, False]), (True, [False, True, False]):
            found = rewrite(texts={"T": "abc"}, statements=statements, anchor=anchor)
            self.assertEqual([each.matched for each in found.entries], matched)

    def test_refuses_a_statement_that_takes_too_many_trials(self) -> None:
        statements = [Statement("T", "'b'", "'X'")]
        found = rewrite(texts={"T": "abc"}, statements=statements, trials=1)
        self.assertEqual(found, Listing((Text("T", "abc", 0),), (), (Refusal(1, "too many trials"),)))
        self.assertEqual(rewrite(texts={"T": "abc"}, statements=statements, trials=2).refused, ())

    def test_lists_nothing_for_nothing(self) -> None:
        self.assertEqual(rewrite(), Listing((), (), ()))

    def test_what_it_returns_is_frozen(self) -> None:
        found = rewrite(texts={"T": "abc"}, statements=[Statement("T", "'b' . B")])
        for value, name in (found, "texts"), (found.texts[0], "text"), (found.entries[0], "bindings"):
            with self.assertRaises(AttributeError):
                setattr(value, name, None)
        self.assertEqual(len({found, found}), 1)


class RewriteDocument(unittest.TestCase):
    def test_lists_in_lines_and_as_json(self) -> None:
        self.assertEqual(rewrite_document(DOCUMENT), (LINES, 0))
        self.assertEqual(rewrite_document(DOCUMENT, json=True), (JSON, 0))

    def test_takes_all_kinds_of_bytes(self) -> None:
        self.assertEqual(rewrite_document(bytearray(DOCUMENT)), (LINES, 0))
        self.assertEqual(rewrite_document(memoryview(DOCUMENT)), (LINES, 0))

    def test_lists_the_examples(self) -> None:
        documents = sorted(EXAMPLES.glob("*.json"))
        if not documents:
            self.skipTest("the folder examples/ isn't there")
        compared = 0
        for document in documents:
            options = document.with_suffix(".options")
            arguments = options.read_text().split() if options.exists() else []
            if "--workers" in arguments:
                continue
            status = document.with_suffix(".status")
            wanted = document.with_suffix(".listing").read_bytes(), int(status.read_text()) if status.exists() else 0
            with self.subTest(document=document.name):
                given = {"json": "--json" in arguments, "anchor": "--anchor" in arguments}
                self.assertEqual(rewrite_document(document.read_bytes(), **given), wanted)
            compared += 1
        self.assertGreater(compared, 5)


class WrongArguments(unittest.TestCase):
    def test_a_misspelt_member_is_refused(self) -> None:
        for name in "anchor", "Object", "":
            statement = {"text": "T", "pattern": "'a'", name: True}
            with self.subTest(name=name), self.assertRaisesRegex(ValueError, f"statement 2: '{name}' is no member"):
                rewrite(texts={"T": "a"}, statements=[Statement("T", "'a'"), statement])

    def test_a_missing_member_is_refused(self) -> None:
        for name, statement in ("pattern", {"text": "T"}), ("text", {"pattern": "'a'"}):
            with self.subTest(name=name), self.assertRaisesRegex(ValueError, f"statement 1: the member '{name}'"):
                rewrite(texts={"T": "a"}, statements=[statement])

    def test_a_member_of_another_kind_is_refused(self) -> None:
        usual = {"text": "T", "pattern": "'a'", "object": "'b'"}
        wrong: list[dict[str, Any]] = [
            {"text": None},
            {"text": b"T"},
            {"pattern": 3},
            {"object": ["'b'"]},
            {"anchored": "yes"},
            {"anchored": 1},
            {"repeat": "3"},
            {"repeat": 3.0},
            {"repeat": True},
        ]
        for members in wrong:
            with self.subTest(members=members), self.assertRaisesRegex(TypeError, "statement 1: "):
                rewrite(texts={"T": "a"}, statements=[usual | members])

    def test_other_arguments_of_another_kind_are_refused(self) -> None:
        wrong: list[dict[str, Any]] = [
            {"texts": "T"},
            {"texts": 3},
            {"texts": ["ab"]},
            {"texts": [("T", "a", "b")]},
            {"texts": [("T", None)]},
            {"texts": {1: "a"}},
            {"texts": {"T": b"a"}},
            {"patterns": "P"},
            {"patterns": [("P", 3)]},
            {"statements": {"text": "T", "pattern": "'a'"}},
            {"statements": "T"},
            {"statements": Statement("T", "'a'")},
            {"statements": [("T", "'a'")]},
            {"anchor": 1},
            {"trials": "3"},
            {"trials": 3.0},
            {"trials": True},
        ]
        for given in wrong:
            with self.subTest(given=given), self.assertRaises(TypeError):
                rewrite(**given)
        for document in "text", 3, None, [1]:
            with self.subTest(document=document), self.assertRaises(TypeError):
                rewrite_document(document)  # type: ignore[arg-type]
        with self.assertRaises(TypeError):
            rewrite_document(DOCUMENT, json=1)  # type: ignore[arg-type]

    def test_a_bad_limit_is_refused(self) -> None:
        for trials in 0, -1, 1_000_000_001, 2**32 + 1:
            with self.subTest(trials=trials), self.assertRaisesRegex(ValueError, "trials has to be from 1"):
                rewrite(texts={"T": "a"}, trials=trials)
            with self.subTest(trials=trials), self.assertRaisesRegex(ValueError, "trials has to be from 1"):
                rewrite_document(DOCUMENT, trials=trials)

    def test_half_of_a_surrogate_pair_is_refused(self) -> None:
        with self.assertRaises(ValueError):
            rewrite(texts={"T": "\ud800"})

    def test_the_document_is_what_was_given(self) -> None:
        from sno_rewrite._documents import document_of

        statements = [Statement("T", "'a'", anchored=False), Statement("T", "'b'", "'c'", True, 3)]
        made = document_of({"T": 'a"\n'}, statements, ())
        wanted = {
            "patterns": [],
            "texts": [{"name": "T", "text": 'a"\n'}],
            "statements": [
                {"text": "T", "pattern": "'a'", "anchored": False},
                {"text": "T", "pattern": "'b'", "object": "'c'", "anchored": True, "repeat": 3},
            ],
        }
        self.assertEqual(json.loads(made), wanted)


if __name__ == "__main__":
    unittest.main()
