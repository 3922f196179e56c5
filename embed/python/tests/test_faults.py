"""The faults of documents, and the parts of their lines."""

import pickle
import unittest
from typing import Any

from sno_rewrite import Fault, Statement, rewrite, rewrite_document

TEXTS = {"T": "abc"}
GOOD = Statement("T", "'a'")

# What is given, the line, what is at fault, its number, the part of a statement, the reason and the place.
CASES: list[tuple[dict[str, Any], str, str, int | None, str | None, str, int | None]] = [
    ({"patterns": {"2nd": "'a'"}}, "pattern 1: bad name", "pattern", 1, None, "bad name", None),
    ({"patterns": {"A": "'a'", "REM": "'a'"}}, "pattern 2: reserved name", "pattern", 2, None, "reserved name", None),
    ({"patterns": [("P", "'a'"), ("P", "'b'")]}, "pattern 2: duplicate", "pattern", 2, None, "duplicate", None),
    ({"patterns": {"P": "LEN(x)"}}, "pattern 1: bad number at 4", "pattern", 1, None, "bad number", 4),
    ({"patterns": {"E": "*E 'a' | 'a'"}}, "patterns: unguarded E", "patterns", None, None, "unguarded E", None),
    ({"patterns": [(f"P{n}", "") for n in range(65)]}, "patterns: too many", "patterns", None, None, "too many", None),
    ({"texts": {"my text": "a"}}, "text 1: bad name", "text", 1, None, "bad name", None),
    ({"texts": {"T": "caf\u00e9"}}, "text 1: not ASCII", "text", 1, None, "not ASCII", None),
    ({"texts": {"T": "", "U": "a" * 65_537}}, "text 2: too long", "text", 2, None, "too long", None),
    ({"texts": [("T", ""), ("T", "")]}, "text 2: duplicate", "text", 2, None, "duplicate", None),
    ({"texts": [(f"T{n}", "") for n in range(1025)]}, "texts: too many", "texts", None, None, "too many", None),
    ({"statements": [GOOD, Statement("", "'a'")]}, "statement 2: bad name", "statement", 2, None, "bad name", None),
    (
        {"statements": [GOOD, GOOD, Statement("T", "'abc")]},
        "statement 3: pattern: open quote at 0",
        "statement",
        3,
        "pattern",
        "open quote",
        0,
    ),
    (
        {"statements": [Statement("T", "'a'", "ARB")]},
        "statement 1: object: reserved name at 0",
        "statement",
        1,
        "object",
        "reserved name",
        0,
    ),
    (
        {"statements": [Statement("T", "'a' " * 1025)]},
        "statement 1: pattern: too long at 4096",
        "statement",
        1,
        "pattern",
        "too long",
        4096,
    ),
    (
        {"statements": [Statement("T", "'a'", "'b'", repeat=0)]},
        "statement 1: bad repeat",
        "statement",
        1,
        None,
        "bad repeat",
        None,
    ),
    # A statement that replaces nothing can't be repeated.
    (
        {"statements": [GOOD, Statement("T", "'a'", repeat=3)]},
        "statement 2: bad repeat",
        "statement",
        2,
        None,
        "bad repeat",
        None,
    ),
]

DOCUMENTS: list[tuple[bytes, str, str]] = [
    (b"", "input: not JSON", "not JSON"),
    (b"[", "input: not JSON", "not JSON"),
    (b'{"texts":[{"name":"T","text":"\xff"}]}', "input: not JSON", "not JSON"),
    (b"[]", "input: wrong shape", "wrong shape"),
    (b'{"texts":{}}', "input: wrong shape", "wrong shape"),
    (b" " * 16_777_217, "input: longer than 16777216 bytes", "longer than 16777216 bytes"),
]


def parts(fault: Fault) -> tuple[Any, ...]:
    return fault.status, fault.line, fault.what, fault.number, fault.part, fault.reason, fault.place


class Faults(unittest.TestCase):
    def test_each_part_of_a_line(self) -> None:
        for given, *wanted in CASES:
            with self.subTest(line=wanted[0]):
                with self.assertRaises(Fault) as raised:
                    rewrite(**({"texts": TEXTS} | given))
                self.assertEqual(parts(raised.exception), (2, *wanted))
                self.assertEqual(str(raised.exception), wanted[0])

    def test_bytes_that_are_no_document(self) -> None:
        for document, line, reason in DOCUMENTS:
            with self.subTest(line=line):
                with self.assertRaises(Fault) as raised:
                    rewrite_document(document)
                self.assertEqual(parts(raised.exception), (2, line, "input", None, None, reason, None))

    def test_a_line_without_parts(self) -> None:
        fault = Fault(4, "out of memory")
        self.assertEqual(parts(fault), (4, "out of memory", None, None, None, None, None))

    def test_a_fault_can_be_pickled(self) -> None:
        fault = Fault(2, "statement 3: pattern: open quote at 0")
        self.assertEqual(parts(pickle.loads(pickle.dumps(fault))), parts(fault))


if __name__ == "__main__":
    unittest.main()
