"""What holds for both ways of seeking patterns, in C and by ctypes: references, memory, arguments, texts and threads.

SNO_REWRITE_PURE=1 chooses ctypes; embed/run runs these tests both ways.
"""

import copy
import ctypes.util
import gc
import importlib
import importlib.util
import inspect
import itertools
import mmap
import os
import pickle
import random
import re
import sys
import threading
import time
import unittest
import weakref
from collections.abc import Callable, Iterator
from contextlib import suppress
from pathlib import Path
from typing import Any

from sno_rewrite import patterns
from sno_rewrite._finders import Finder, functions
from sno_rewrite._library import VARIABLE, load
from sno_rewrite.patterns import Match, PatternError, TrialsError

from .test_library import PACKAGE, run

NUMBER = "SPAN('0123456789') . N"
# Tries every way to put its rounds together, so it takes twice as many trials for each further character.
SLOW = "ARBNO(ARBNO('a')) 'b'"


class Odd(str):
    """A string that gives itself out as another one."""

    def __len__(self) -> int:
        return 2

    def encode(self, *arguments: Any, **options: Any) -> bytes:
        return b"zz"


class Part(bytes):
    pass


def ways() -> list[Any]:
    """The modules that seek patterns; `_fast` may be missing."""
    found = [importlib.import_module("sno_rewrite._plain")]
    with suppress(ImportError):
        found.append(importlib.import_module("sno_rewrite._fast"))
    return found


class Ways(unittest.TestCase):
    def test_the_way(self) -> None:
        is_there = importlib.util.find_spec("sno_rewrite._fast") is not None
        wanted = "_fast" if is_there and not os.environ.get("SNO_REWRITE_PURE") else "_plain"
        self.assertEqual(Finder.__module__, f"sno_rewrite.{wanted}")


class Arguments(unittest.TestCase):
    def setUp(self) -> None:
        self.pattern = patterns.compile(NUMBER)
        found = self.pattern.search("a12b345")
        assert found
        self.found = found

    def test_only_str_and_bytes_are_texts(self) -> None:
        wrong: list[Any] = [None, 5, bytearray(b"a1"), memoryview(b"a1"), ["a1"], mmap.mmap(-1, 4096)]
        calls: list[Callable[[Any], Any]] = [
            self.pattern.search, self.pattern.match, self.pattern.fullmatch, self.pattern.finditer,
            self.pattern.findall, self.pattern.replace, lambda text: self.pattern.sub("'x'", text),
            lambda text: self.pattern.sub(lambda found: "x", text),
        ]  # fmt: skip
        for text in wrong:
            message = f"^expected str or bytes, and not {type(text).__name__}$"
            for call in calls:
                with self.subTest(text=text, call=call), self.assertRaisesRegex(TypeError, message):
                    call(text)

    def test_places_are_as_in_slices(self) -> None:
        class Index:
            def __index__(self) -> int:
                return 3

        for pos, wanted in (True, 1), (Index(), 4), (-(10**30), 1), (-1, 1):
            found = self.pattern.search("a12b345", pos)  # type: ignore[arg-type]
            self.assertEqual(found and found.start(), wanted, pos)
        self.assertIsNone(self.pattern.search("a12b345", 10**30))
        end = patterns.search("''", "abc")
        self.assertEqual(end and end.span(), (0, 0))
        end = patterns.compile("''").search("abc", 10**30)
        self.assertEqual(end and (end.span(), end.pos), ((3, 3), sys.maxsize))
        for pos in None, "1", 1.0:
            for call in self.pattern.search, self.pattern.finditer:
                with self.subTest(pos=pos, call=call), self.assertRaises(TypeError):
                    call("a12", pos)  # type: ignore[operator]

    def test_names_of_arguments(self) -> None:
        found = self.pattern.search(string="a12b345", pos=3)
        assert found
        self.assertEqual((found.start(group="N"), found.end(group=0), found.span(group="N")), (4, 7, (4, 7)))
        self.assertEqual(found.pos, 3)
        self.assertEqual(str(inspect.signature(found.span)).partition(" ->")[0].count("group"), 1)

    def test_wrong_groups(self) -> None:
        found = self.found
        for group in "M", 1, -1, 10**30, 0.0, None, b"N", [], "N ":
            for call in found.group, found.start, found.__getitem__:
                with self.subTest(group=group, call=call):
                    with self.assertRaisesRegex(IndexError, f"^no such group: {re.escape(repr(group))}$"):
                        call(group)  # type: ignore[arg-type]
        with self.assertRaises(IndexError):
            found.group("N", "M")

    def test_wrong_calls(self) -> None:
        found: Any = self.found
        wrong: list[Callable[[], Any]] = [
            lambda: found.start("N", "N"), lambda: found.start(0, group="N"), lambda: found.start(name="N"),
            lambda: found.groups("N"), lambda: found.groupdict(1, 2), lambda: found.group(name="N"),
            self.pattern.search, lambda: Match(), lambda: Match("a"),  # type: ignore[call-arg]
        ]  # fmt: skip
        for call in wrong:
            with self.assertRaises(TypeError):
                call()

    def test_wrong_finders(self) -> None:
        finder: Any = self.pattern._finder
        for arguments in (), (1,), (self.pattern, "a"), (self.pattern, "a", 0, 0), ("a", 0, self.pattern):
            for call in finder.first, finder.matches:
                with self.subTest(arguments=arguments), self.assertRaises(TypeError):
                    call(*arguments)
        for arguments in (), (1, 2, 3, 4, 5), (1, "'a'", "", 5, Match), (None, "'a'", "", 5, str):
            with self.subTest(arguments=arguments), self.assertRaises((TypeError, ValueError, AttributeError)):
                Finder(*arguments)  # type: ignore[call-arg]
        with self.assertRaises(TypeError):
            Finder(functions(load().path), "'a'", "", 5, str).first(None, "a", 0)  # type: ignore[arg-type]

    def test_files_that_are_no_library(self) -> None:
        for way in ways():
            with self.subTest(way=way), self.assertRaises(OSError):
                way.functions("/nowhere/libsno_rewrite.so")
            with self.subTest(way=way), self.assertRaisesRegex(AttributeError, "sno_handle_open_pattern"):
                way.functions(ctypes.util.find_library("c"))

    def test_classes(self) -> None:
        self.assertIsInstance(self.found, Match)
        self.assertEqual((Match.__module__, Match.__name__), ("sno_rewrite.patterns", "Match"))
        self.assertEqual(repr(self.found), "<sno_rewrite.patterns.Match object; span=(1, 3), match='12'>")
        self.assertTrue(Match[str])
        self.assertIs(copy.copy(self.found), self.found)
        self.assertIs(copy.deepcopy(self.found), self.found)
        fault = pickle.loads(pickle.dumps(PatternError("x")))
        self.assertEqual((type(fault), fault.args, PatternError.__module__), (PatternError, ("x",), Match.__module__))


class Texts(unittest.TestCase):
    def test_kinds_of_strings(self) -> None:
        text = Odd("a12b345")
        found = patterns.search(NUMBER, text)
        assert found
        self.assertIs(found.string, text)
        self.assertEqual((found.span(), found["N"], type(found["N"])), ((1, 3), "12", str))
        self.assertEqual(patterns.findall(NUMBER, text), ["12", "345"])
        self.assertIs(patterns.sub("'z'", "'x'", text), text)
        part = Part(b"a12")
        inside = patterns.search(NUMBER, part)
        self.assertEqual(inside and (inside["N"], type(inside["N"]), inside.string is part), (b"12", bytes, True))

    def test_no_text_is_changed_and_no_copy_is_shown(self) -> None:
        # Of a buffer that can change the caller makes the copy.
        buffer = bytearray(b"a12")
        found = patterns.search(NUMBER, bytes(buffer))
        buffer[1:] = b"xx"
        self.assertEqual(found and (found["N"], found.string), (b"12", b"a12"))

    def test_characters_that_have_no_utf_8(self) -> None:
        for call in patterns.search, patterns.finditer, patterns.findall:
            with self.assertRaises(UnicodeEncodeError):
                call("'a'", "\ud800a")
        with self.assertRaises(UnicodeEncodeError):
            patterns.compile("'\ud800'")
        with self.assertRaises(UnicodeEncodeError):
            patterns.compile("'a'", "A = '\ud800'\n")

    def test_null_bytes(self) -> None:
        self.assertEqual(patterns.findall("'b' . B", "a\0b\0b"), ["b", "b"])
        self.assertEqual(patterns.sub("'b'", "'c'", b"a\0b\0b"), b"a\0c\0c")

    def test_places_in_any_characters(self) -> None:
        chance = random.Random(2)
        expression = re.compile("(?P<A>a)")
        pattern = patterns.compile("'a' . A @C")
        for _ in range(300):
            text = "".join(chance.choice("aaéß€😀") for _ in range(chance.randrange(12)))
            for pos in range(len(text) + 2):
                wanted = [(one.span(), one["A"], one.end()) for one in expression.finditer(text, pos)]
                found = [(one.span(), one["A"], one["C"]) for one in pattern.finditer(text, pos)]
                self.assertEqual(found, wanted, (text, pos))

    def test_cut_characters(self) -> None:
        # The match, a variable in it, and what replaces it.
        for text in "aé", "é", "aaé":
            matches = patterns.finditer("LEN(1)", text)
            self.assertEqual([next(matches).group() for _ in text[:-1]], list(text[:-1]))
            with self.assertRaisesRegex(ValueError, f"^the cursor {len(text)} is within a character$"):
                next(matches)
            self.assertEqual(list(matches), [])
        with self.assertRaisesRegex(ValueError, "^the cursor 1 is within a character$"):
            patterns.search("LEN(1) . A LEN(1)", "é")
        with self.assertRaises(UnicodeDecodeError):
            patterns.sub("LEN(1)", "", "é", 1)

    def test_new_texts_of_any_length(self) -> None:
        for count in 0, 1, 300, 2000, 70_000:
            self.assertEqual(patterns.subn("'a'", "'é12345678'", "a" * count), ("é12345678" * count, count))


class Variables(unittest.TestCase):
    def test_many_variables(self) -> None:
        names = [f"V{number}" for number in range(50)]
        found = patterns.search(" ".join(f"LEN(1) . {name}" for name in names), "".join(map(chr, range(48, 98))))
        self.assertEqual(found and found.groupdict(), {name: chr(48 + place) for place, name in enumerate(names)})

    def test_other_variables_in_each_match(self) -> None:
        pattern = patterns.compile("('a' . A | 'b' . B | 'c' . C) (LEN(1) . A | '')")
        found = [one.groupdict() for one in pattern.finditer("abc ba")]
        self.assertEqual(found, [{"A": "b"}, {"C": "c", "A": " "}, {"B": "b", "A": "a"}])

    def test_many_assignments(self) -> None:
        found = patterns.search("ARB $ V LEN(1) $ W 'b'", "a" * 2000 + "b")
        self.assertEqual(found and found.groups(), ("a" * 1999, "a"))

    def test_names_of_all_lengths(self) -> None:
        names = ["N" * length for length in range(64, 0, -1)]
        found = patterns.search(" ".join(f"LEN(1) . {name}" for name in names), "".join(map(chr, range(48, 112))))
        self.assertEqual(found and found.groupdict(), {name: chr(48 + place) for place, name in enumerate(names)})

    def test_names_that_are_other_objects(self) -> None:
        found = patterns.search(NUMBER, "a12")
        self.assertEqual(found and found["".join(["N"])], "12")
        self.assertEqual(found and found.span(Odd("N")), (1, 3))


def calls_of(pattern: patterns.Pattern, text: str, slow: patterns.Pattern) -> Iterator[Callable[[], Any]]:
    """Calls with a pattern and a text; some are refused."""
    yield lambda: pattern.search(text)
    yield lambda: pattern.search(text, len(text))
    yield lambda: pattern.match(text, 1)
    yield lambda: pattern.fullmatch(text)
    yield lambda: list(pattern.finditer(text))
    yield lambda: next(pattern.finditer(text))
    yield lambda: list(itertools.islice(pattern.finditer(text), 3))
    yield lambda: pattern.findall(text)
    yield lambda: [(one.groups(), one.group(0, "N"), one.groupdict(), repr(one)) for one in pattern.finditer(text)]
    yield lambda: [one["M"] for one in pattern.finditer(text)]
    yield lambda: pattern.sub("'<' N '>'", text)
    yield lambda: pattern.sub("'<' N '>'", text + "é")
    yield lambda: pattern.subn(lambda found: 1 / 0, text)
    yield lambda: pattern.sub("(", text)
    yield lambda: slow.search(text)
    yield lambda: list(slow.finditer(text))
    yield lambda: slow.sub("'b'", text)
    yield lambda: pattern.search(text, None)  # type: ignore[arg-type]
    yield lambda: pattern.search([text])  # type: ignore[type-var]


def kept(call: Callable[[], Any]) -> None:
    with suppress(TypeError, ValueError, IndexError, RuntimeError, ZeroDivisionError):
        call()


def used_memory() -> int:
    return int(Path("/proc/self/statm").read_text().split()[1]) * os.sysconf("SC_PAGE_SIZE")


class Memory(unittest.TestCase):
    def test_references(self) -> None:
        pattern = patterns.Pattern(NUMBER)
        slow = patterns.Pattern("'z'", trials=3)
        text = "a12b345" * 2
        objects = (text, pattern, slow, pattern._finder, Match, Finder, TrialsError, "N", None)
        for call in calls_of(pattern, text, slow):
            kept(call)
        gc.collect()
        for number, call in enumerate(calls_of(pattern, text, slow)):
            before = [sys.getrefcount(one) for one in objects]
            for _ in range(100):
                kept(call)
            gc.collect()
            after = [sys.getrefcount(one) for one in objects]
            # Elsewhere in Python some are referred to now and then; each turn would be 100.
            gained = [now - then for now, then in zip(after, before)]
            self.assertTrue(all(abs(count) < 50 for count in gained), (number, gained))

    def test_memory_is_given_back(self) -> None:
        text = "a12b345" * 2000
        names = " ".join(f"'a12b345' . V{number}" for number in range(100))
        rest: Any = patterns.search("'a' REM . R", text)
        uses: list[Callable[[], Any]] = [
            lambda: patterns.search(NUMBER, text),
            lambda: next(patterns.finditer(NUMBER, text)),
            lambda: list(itertools.islice(patterns.finditer(NUMBER, text), 3)),
            lambda: list(patterns.finditer("'a' 'c'", text)),
            lambda: patterns.sub(NUMBER, "'<' N '>'", text[:7000]),
            lambda: patterns.Pattern(f"{NUMBER} | '{'x' * 3_900}'"),
            lambda: kept(lambda: patterns.Pattern(f"'{'x' * 3_900}' LEN(")),
            lambda: patterns.Pattern(names).search(text),
            lambda: (rest["R"], rest.groups(), rest.groupdict(), rest.group(0, "R")),
        ]
        for number, use in enumerate(uses):
            for _ in range(50):
                use()
            gc.collect()
            before = used_memory()
            for _ in range(1000):
                use()
            gc.collect()
            # If each turn kept its text, pattern, names or new text, that would be more.
            self.assertLess(used_memory() - before, 2_000_000, number)

    def test_cycles_are_collected(self) -> None:
        class Own(patterns.Pattern):
            pass

        class Text(str):
            own: Any

        pattern = Own(NUMBER)
        text = Text("a12b345")
        found = pattern.search(text)
        matches = pattern.finditer(text)
        next(matches)
        pattern.own, text.own = found, matches  # type: ignore[attr-defined]
        ends = weakref.ref(pattern), weakref.ref(text)
        del pattern, text, found, matches
        gc.collect()
        self.assertEqual([end() for end in ends], [None, None])

    def test_matches_go_on_without_their_pattern(self) -> None:
        matches = patterns.Pattern(NUMBER).finditer("".join(["a12", "b345"]))
        gc.collect()
        found = list(matches)
        del matches
        gc.collect()
        self.assertEqual([one["N"] for one in found], ["12", "345"])
        self.assertEqual(found[0].re.search("7").span(), (0, 1))

    def test_a_lack_of_memory(self) -> None:
        program = (
            "import resource\n"
            "from sno_rewrite import patterns\n"
            "text, pattern = b'a' * 16_000_000, patterns.compile(\"'a'\")\n"
            "calls = [pattern.search, pattern.finditer, lambda text: pattern.sub(\"'b'\", text)]\n"
            "for call in calls:\n"
            "    call(b'a')\n"
            "used = int(open('/proc/self/statm').read().split()[0]) * resource.getpagesize()\n"
            "resource.setrlimit(resource.RLIMIT_AS, (used + (8 << 20), -1))\n"
            "for call in calls:\n"
            "    try:\n"
            "        call(text)\n"
            "    except MemoryError:\n"
            "        print(call(b'a') is not None)\n"
        )
        self.assertEqual(run(program, PACKAGE.parent, {VARIABLE: load().path}), b"True\n" * 3)

    def test_a_child_process(self) -> None:
        pattern = patterns.compile(NUMBER)
        matches = pattern.finditer("1 2 3")
        next(matches)
        child = os.fork()
        if not child:
            right = [one["N"] for one in matches] == ["2", "3"] and pattern.findall("4") == ["4"]
            os._exit(0 if right else 1)
        self.assertEqual(os.waitpid(child, 0)[1], 0)
        self.assertEqual([one["N"] for one in matches], ["2", "3"])


class Iterators(unittest.TestCase):
    def test_the_end(self) -> None:
        matches = patterns.finditer(NUMBER, "a1")
        self.assertIs(iter(matches), matches)
        self.assertEqual([one.span() for one in matches], [(1, 2)])
        self.assertEqual(list(matches), [])
        self.assertEqual(list(patterns.compile(NUMBER).finditer("a1", 99)), [])

    def test_a_refusal_is_the_end(self) -> None:
        matches = patterns.compile("'b'", trials=3).finditer("aabaaaab")
        self.assertEqual(next(matches).span(), (2, 3))
        with self.assertRaisesRegex(TrialsError, "^more than 3 trials$"):
            next(matches)
        self.assertEqual(list(matches), [])

    def test_the_pattern_is_used_meanwhile(self) -> None:
        pattern = patterns.compile(NUMBER)

        def shown(found: Match[str]) -> str:
            inner = pattern.search(f"x{len(found.group())}")
            return f"{found['N']}/{inner and inner['N']}"

        self.assertEqual(pattern.sub(shown, "a12b345"), "a12/2b345/3")


class Both(unittest.TestCase):
    """Random patterns and texts by `_fast` and by `_plain`, if the module in C is there."""

    def test_random_patterns(self) -> None:
        path = load().path
        parts = [(way, way.functions(path), type("Kind", (way.FoundMatch,), {})) for way in ways()]
        chance = random.Random(3)
        leaves = ("'a'", "'é'", "ANY('ab')", "SPAN('ab')", "BREAK('b')", "LEN(1)", "ARB", "''", "REM", "POS(1)")
        counts = {"found": 0, "refused": 0}
        for _ in range(1500):
            rule = chance.choice(leaves)
            for _ in range(chance.randrange(4)):
                other = chance.choice(leaves)
                forms = f"{rule} | {other}", f"({rule}) {other}", f"({rule}) . X", f"({rule}) $ Y", f"@C ({rule}) @D"
                rule = chance.choice(forms)
            rule += chance.choice(("", " = '<' X '>'", " = Y :first", " :anchored"))
            # In a long text most matches are sought in batches.
            text: Any = "".join(chance.choice("abcé€") for _ in range(chance.randrange(chance.choice((9, 9, 80)))))
            text = text.encode() if chance.randrange(4) == 0 else text
            pos, trials = chance.randrange(-1, 6), chance.choice((4, 100, 1_000_000))
            found = [tried(*part, rule, trials, (text, pos)) for part in parts]
            self.assertEqual(found[0], found[-1], (rule, text, pos, trials))
            counts["refused" if isinstance(found[0][-1], str) else "found"] += 1
        self.assertGreater(min(counts.values()), 100, counts)


def tried(way: Any, functions: Any, kind: Any, rule: str, trials: int, where: tuple[Any, int]) -> list[Any]:
    """What a finder finds, each match with all that can be read of it, and at last the new text or a refusal."""
    text, pos = where
    seen: list[Any] = []
    try:
        finder = way.Finder(functions, rule, "", trials, kind)
        first = finder.first("P", text, pos)
        seen.append(first and first.span())
        for one in finder.matches("P", text, pos):
            values = {name: (one[name], one.span(name)) for name in one.groupdict()}
            seen.append((one.span(), one.group(), one.groups(), one._shown(), values, one.pos, one.re, one.string))
        seen.append(finder.replaced(text))
    except (ValueError, RuntimeError) as fault:
        seen.append(f"{type(fault).__name__}: {fault}")
    return seen


class Threads(unittest.TestCase):
    def run_all(self, works: list[Callable[[], None]]) -> None:
        faults: list[BaseException] = []

        def guarded(work: Callable[[], None]) -> None:
            try:
                work()
            except BaseException as fault:
                faults.append(fault)

        threads = [threading.Thread(target=guarded, args=(work,)) for work in works]
        for thread in threads:
            thread.start()
        for thread in threads:
            thread.join()
        self.assertEqual(faults, [])

    def test_one_pattern(self) -> None:
        # Texts for which the interpreter's lock is kept, and for which it is released.
        pattern = patterns.compile(f"{NUMBER} ARB . A 'b'")

        def work(number: int) -> None:
            for turn in range(20):
                for gap in "", "é", "a" * 3000:
                    text = f"{'.' * 2000}{number}{gap}b{turn}{gap}b"
                    self.assertEqual(pattern.findall(text), [(f"{number}", gap), (f"{turn}", gap)])
                    wanted = f"{'.' * 2000}<{number}><{turn}>"
                    self.assertEqual(pattern.sub("'<' N '>'", text), wanted)

        self.run_all([lambda number=number: work(number) for number in range(8)])  # type: ignore[misc]

    def test_one_iterator(self) -> None:
        if Finder.__module__.endswith("_plain"):
            # It is a generator, which is for one thread at a time.
            return
        count = 4000
        matches = patterns.compile(NUMBER).finditer("".join(f"{'.' * 50}{number}é" for number in range(count)))
        lists: list[list[str]] = [[] for _ in range(8)]
        self.run_all([lambda mine=mine: mine.extend(one["N"] for one in matches) for mine in lists])  # type: ignore[misc]
        self.assertEqual(sorted(int(one) for mine in lists for one in mine), list(range(count)))

    def test_other_threads_go_on_during_a_search(self) -> None:
        trials = 1_000_000
        for call in "search", "sub":
            while True:
                seconds, pauses = self.beside(call, patterns.compile(SLOW, trials=trials))
                if seconds > 0.3 or trials == 1_000_000_000:
                    break
                trials = min(4 * trials, 1_000_000_000)
            # If a search kept the others from running, there would be a few pauses before it and after it.
            self.assertGreater(pauses, 30, call)

    def beside(self, call: str, pattern: patterns.Pattern) -> tuple[float, int]:
        """The seconds of a call in another thread, and how many pauses of a millisecond this one made meanwhile."""
        begun = threading.Event()

        def work() -> None:
            begun.set()
            kept(lambda: pattern.search("a" * 40) if call == "search" else pattern.sub("'b'", "a" * 40))

        thread = threading.Thread(target=work)
        start = time.monotonic()
        thread.start()
        begun.wait()
        pauses = 0
        while thread.is_alive():
            time.sleep(0.001)
            pauses += 1
        return time.monotonic() - start, pauses


if __name__ == "__main__":
    unittest.main()
