"""Books in the library, used by threads, and beside a service of the same document."""

import gc
import importlib.machinery
import importlib.util
import json
import os
import subprocess
import sys
import tempfile
import unittest
from concurrent.futures import ThreadPoolExecutor
from pathlib import Path
from typing import Any

from sno_rewrite import Book, DeskError, Fault, Refusal, Statement, Text

TOP = Path(__file__).resolve().parents[3]
SNO = Path(os.environ.get("SNO", TOP / "crates/sno/out/sno"))


def book(**options: Any) -> Book:
    return Book(texts={"T": "the cat", "N": ""}, statements=[Statement("T", "'the'", "'a'")], **options)


def lines_of_the_service() -> Any:
    """The module tests/serve, which has a document and many lines."""
    sys.path.insert(0, str(TOP / "tests"))
    loader = importlib.machinery.SourceFileLoader("serve_lines", str(TOP / "tests/serve"))
    spec = importlib.util.spec_from_loader("serve_lines", loader)
    assert spec
    loaded = importlib.util.module_from_spec(spec)
    try:
        loader.exec_module(loaded)
    finally:
        sys.path.pop(0)
    return loaded


class Books(unittest.TestCase):
    def test_each_call(self) -> None:
        with book() as held:
            entry = held.submit("T", "'cat' . WHAT", "'dog'")
            self.assertEqual((entry["entry"], entry["after"], entry["bindings"]), (1, "a dog", [["WHAT", "cat"]]))
            self.assertEqual(held.read("T"), {"name": "T", "text": "a dog", "version": 2})
            self.assertEqual(held.read("T", at=1), {"name": "T", "text": "a cat", "version": 1})
            self.assertEqual(held.read("T", at=3), {"reason": "no version"})
            self.assertEqual([it["statement"] for it in held.since(0)], [1, 2])
            self.assertEqual([it["entry"] for it in held.since(1, limit=2, text="T")], [1])
            self.assertEqual(held.submit("U", "'a'"), {"reason": "no text"})
            self.assertEqual(held.submit("T", "'dog'", if_version=1), {"reason": "changed", "version": 2})
            self.assertEqual(held.submit("T", "'z'", trials=5), {"reason": "too many trials"})
            tried = held.submit("T", "WHO", "NEW", bind={"WHO": "a d", "NEW": "it's d"}, check=True)
            self.assertEqual((tried["entry"], tried["after"], tried["findings"]), (2, "it's dog", []))
            self.assertEqual([(it["name"], it["length"]) for it in held.texts()], [("T", 5), ("N", 0)])
            with self.assertRaisesRegex(DeskError, "pattern: unknown name at 0"):
                held.submit("T", "CAT")
            listing = held.listing()
            self.assertEqual(listing.texts, (Text("T", "a dog", 2), Text("N", "", 0)))
            self.assertEqual([it.statement for it in listing.entries], [1, 2])
            self.assertEqual(listing.refused, (Refusal(3, "no text"), Refusal(5, "too many trials")))

    def test_lines(self) -> None:
        held = book()
        self.assertEqual(held.line('{"id":7.5,"read":"N"}'), b'{"id":7.5,"name":"N","text":"","version":0}\n')
        self.assertEqual(held.line(b'{"read":"N"}\n'), b'{"name":"N","text":"","version":0}\n')
        self.assertEqual(held.line(memoryview(b'{"read":"N"}')), b'{"name":"N","text":"","version":0}\n')
        self.assertEqual(held.line(b""), b'{"error":"not JSON"}\n')
        self.assertEqual(held.line("\0"), b'{"error":"not JSON"}\n')
        with self.assertRaises(TypeError):
            held.line(3)  # type: ignore[arg-type]
        self.assertEqual(held.line(b" " * 16_777_217), b'{"error":"longer than 16777216 bytes"}\n')

    def test_a_line_with_a_long_reply_is_done_once(self) -> None:
        held = book()
        many = "z" * 65_536
        self.assertEqual(held.submit("N", "''", "MANY", bind={"MANY": many})["after"], many)
        self.assertEqual(held.read("N")["version"], 1)
        self.assertEqual(len(held.since(0)), 2)
        self.assertEqual(held.listing().texts[1].text, many)

    def test_documents(self) -> None:
        held = Book.from_document(b'{"texts":[{"name":"T","text":"ab"}]}', anchor=True, trials=3)
        self.assertFalse(held.submit("T", "'b'")["matched"])
        with self.assertRaises(Fault) as raised:
            Book.from_document(b"[")
        self.assertEqual((raised.exception.status, raised.exception.line), (2, "input: not JSON"))
        with self.assertRaises(ValueError):
            book(trials=0)
        with self.assertRaises(TypeError):
            Book.from_document("{}")  # type: ignore[arg-type]
        with self.assertRaises(TypeError):
            book(anchor=1)

    def test_a_closed_book(self) -> None:
        held = book()
        held.close()
        held.close()
        for call in lambda: held.line("{}"), lambda: held.read("T"), held.listing:
            self.assertRaisesRegex(ValueError, "closed", call)

    def test_threads_at_one_book(self) -> None:
        held = book()
        with ThreadPoolExecutor(8) as pool:
            entries = list(pool.map(lambda _: held.submit("N", "RPOS(0)", "'x'"), range(800)))
        self.assertEqual(sorted(it["entry"] for it in entries), list(range(1, 801)))
        self.assertEqual(held.read("N"), {"name": "N", "text": "x" * 800, "version": 800})

    def test_books_of_threads(self) -> None:
        def length_of(number: int) -> int:
            held = book()
            for _ in range(number):
                held.submit("N", "RPOS(0)", "'x'")
            return len(held.read("N")["text"])

        with ThreadPoolExecutor(8) as pool:
            self.assertEqual(list(pool.map(length_of, range(60))), list(range(60)))

    def test_books_are_freed(self) -> None:
        for _ in range(20_000):
            book()
        gc.collect()

    def test_replies_are_those_of_a_service(self) -> None:
        """Byte for byte, over the lines of tests/serve, but for those that ask for more trials than a service lets them: a book has no ceiling."""
        serve = lines_of_the_service()
        lines = [line.encode() for line, reply in serve.KNOWN if "trials: at most" not in reply.get("error", "")]
        with tempfile.TemporaryDirectory() as name:
            document, listing = Path(name) / "document.json", Path(name) / "listing.json"
            document.write_text(json.dumps(serve.DOCUMENT))
            given = b"".join(line + b"\n" for line in lines)
            done = subprocess.run([SNO, "serve", "--listing", listing, document], input=given, capture_output=True)
            self.assertEqual(done.returncode, 0, done.stderr)
            held = Book.from_document(document.read_bytes())
            for line, reply in zip(lines, done.stdout.splitlines(keepends=True), strict=True):
                self.assertEqual(held.line(line), reply, line)
            with held._lock:
                listed = held._filled(held._functions.sno_handle_listing, 1)
            self.assertEqual(listed, listing.read_bytes())
        self.assertGreater(len(lines), 60)


    def test_a_book_has_no_ceiling_of_trials(self) -> None:
        held = book()
        accepted = held.line(b'{"id":1,"text":"N","pattern":"RPOS(0)","object":"\'x\'","trials":1000000000}')
        self.assertEqual(json.loads(accepted)["entry"], 1)
        refused = held.line(b'{"id":2,"text":"N","pattern":"RPOS(0)","trials":1000000001}')
        self.assertEqual(json.loads(refused), {"id": 2, "error": "bad trials"})


if __name__ == "__main__":
    unittest.main()
