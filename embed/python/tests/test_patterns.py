"""Patterns that are read once. What is wanted was worked out by hand from docs/LANGUAGE.md."""

import random
import threading
import unittest

from sno_rewrite import Statement, patterns, rewrite
from sno_rewrite.patterns import HistoryError, PatternError, TrialsError

NUMBER = "SPAN('0123456789') . N"


class Searches(unittest.TestCase):
    def test_search(self) -> None:
        found = patterns.compile(NUMBER).search("a12b345")
        assert found
        self.assertEqual((found.start(), found.end(), found.span(), found.group()), (1, 3, (1, 3), "12"))
        self.assertEqual((found.group("N"), found["N"], found.span("N")), ("12", "12", (1, 3)))
        self.assertEqual((found.groupdict(), found.groups()), ({"N": "12"}, ("12",)))
        self.assertEqual((found.string, found.pos, found.re.pattern), ("a12b345", 0, NUMBER))

    def test_no_match(self) -> None:
        self.assertIsNone(patterns.search(NUMBER, "abc"))
        self.assertIsNone(patterns.search(NUMBER, ""))

    def test_from_a_place(self) -> None:
        pattern = patterns.compile(NUMBER)
        wanted = {0: (1, 3), 2: (2, 3), 3: (4, 7), 6: (6, 7), -9: (1, 3)}
        for pos, span in wanted.items():
            found = pattern.search("a12b345", pos)
            self.assertEqual(found and found.span(), span, pos)
        self.assertIsNone(pattern.search("a12b345", 7))
        self.assertIsNone(pattern.search("a12b345", 99))

    def test_match_begins_at_the_place(self) -> None:
        pattern = patterns.compile(NUMBER)
        self.assertIsNone(pattern.match("a12"))
        found = pattern.match("a12", 1)
        self.assertEqual(found and found.span(), (1, 3))

    def test_fullmatch_ends_at_the_end(self) -> None:
        pattern = patterns.compile("'a' ARB . X 'b' | 'c'")
        found = pattern.fullmatch("abab")
        self.assertEqual(found and found.group("X"), "ba")
        self.assertIsNone(pattern.fullmatch("abc"))
        self.assertTrue(pattern.fullmatch("c"))
        self.assertTrue(pattern.fullmatch("xab", 1))

    def test_finditer(self) -> None:
        spans = [found.span() for found in patterns.finditer(NUMBER, "a12b345")]
        self.assertEqual(spans, [(1, 3), (4, 7)])

    def test_null_strings(self) -> None:
        # After a run the null string at its end doesn't count.
        spans = [found.span() for found in patterns.finditer("SPAN('a') | ''", "aabab")]
        self.assertEqual(spans, [(0, 2), (3, 4), (5, 5)])

    def test_findall(self) -> None:
        self.assertEqual(patterns.findall("SPAN('ab')", "ab-ba"), ["ab", "ba"])
        self.assertEqual(patterns.findall("SPAN('ab') . X", "ab-ba"), ["ab", "ba"])
        self.assertEqual(patterns.findall("LEN(1) . X LEN(1) . Y", "abcd"), [("a", "b"), ("c", "d")])

    def test_two_loops_at_once(self) -> None:
        pattern = patterns.compile("LEN(1) . X")
        pairs = [a.group() + b.group() for a in pattern.finditer("ab") for b in pattern.finditer("xy")]
        self.assertEqual(pairs, ["ax", "ay", "bx", "by"])

    def test_definitions(self) -> None:
        pattern = patterns.compile("*PAIR . P", "WORD = SPAN(LETTER)\nPAIR = *WORD '=' *WORD\n")
        self.assertEqual(pattern.findall("a=b 1=2 cc=d"), ["a=b", "cc=d"])


class Assignments(unittest.TestCase):
    def test_the_last_assignment_counts(self) -> None:
        found = patterns.search("ARB $ V 'b'", "aab")
        self.assertEqual(found and found.groupdict(), {"V": "aa"})

    def test_cursors_are_numbers(self) -> None:
        found = patterns.search("'a' @C 'b' . B", "xab")
        assert found
        self.assertEqual((found.group("C"), found.span("C"), found.group("B")), (2, (2, 2), "b"))
        self.assertEqual(found.group(0, "C"), ("ab", 2))

    def test_unknown_groups(self) -> None:
        found = patterns.search("'a' . A | 'b' . B", "b")
        assert found
        self.assertEqual(found.groupdict(), {"B": "b"})
        for group in ("A", "C", 1, "0"):
            with self.assertRaises(IndexError):
                found.group(group)


class Replacements(unittest.TestCase):
    def test_sub(self) -> None:
        pattern = patterns.compile(NUMBER)
        self.assertEqual(pattern.sub("'<' N '>'", "a12b345"), "a<12>b<345>")
        self.assertEqual(pattern.subn("'<' N '>'", "a12b345"), ("a<12>b<345>", 2))
        self.assertEqual(pattern.subn("'<' N '>'", "a12b345", 1), ("a<12>b345", 1))
        self.assertEqual(pattern.subn("", "a12b345"), ("ab", 2))
        self.assertEqual(pattern.subn("'x'", "abc"), ("abc", 0))
        self.assertEqual(patterns.sub("'é'", "'e'", "dé"), "de")

    def test_sub_by_a_function(self) -> None:
        pattern = patterns.compile(NUMBER)
        self.assertEqual(pattern.subn(lambda found: str(int(found["N"]) + 1), "a9b99"), ("a10b100", 2))
        self.assertEqual(pattern.subn(lambda found: "", "1-2-3", 2), ("--3", 2))
        self.assertEqual(patterns.subn("'a'", lambda found: b"bb", b"aca"), (b"bbcbb", 2))

    def test_replace_by_the_rule(self) -> None:
        self.assertEqual(patterns.compile(f"{NUMBER} = '<' N '>' :first").replace("a12b345"), "a<12>b345")
        self.assertEqual(patterns.compile("'a' = 'b'").replace(b"\xffa"), b"\xffb")

    def test_a_count_with_an_object(self) -> None:
        with self.assertRaises(ValueError):
            patterns.sub("'a'", "'b'", "aaa", 2)

    def test_a_long_text(self) -> None:
        self.assertEqual(patterns.sub("'a'", "'bb'", "a" * 100_000), "bb" * 100_000)


class Characters(unittest.TestCase):
    def test_places_are_in_characters(self) -> None:
        found = patterns.search("'b' . B @C", "éébé")
        assert found
        self.assertEqual((found.span(), found.span("B"), found["C"], found.group()), ((2, 3), (2, 3), 3, "b"))
        self.assertEqual([one.span() for one in patterns.finditer("'é'", "éaé€é")], [(0, 1), (2, 3), (4, 5)])
        found = patterns.search("'é'", "éaé", )
        self.assertEqual(found and found.span(), (0, 1))
        found = patterns.compile("'é'").search("éaé", 1)
        self.assertEqual(found and found.span(), (2, 3))

    def test_bytes(self) -> None:
        found = patterns.search("'b' . B", "éb".encode())
        assert found
        self.assertEqual((found.span(), found.group("B"), found.string), ((2, 3), b"b", "éb".encode()))

    def test_a_cut_character(self) -> None:
        with self.assertRaises(ValueError):
            patterns.search("LEN(1)", "é")

    def test_quotes(self) -> None:
        self.assertEqual(patterns.findall("'a=' | ':'", "a=:"), ["a=", ":"])
        self.assertEqual(patterns.sub("\"'=\"", "'x'", "a'=b"), "axb")


class BesideListings(unittest.TestCase):
    """A loop over all matches, and `sub`, beside a statement for all matches in a document."""

    LEAVES = ("'a'", "'b'", "'ab'", "ANY('ab')", "SPAN('a')", "BREAK('b')", "LEN(1)", "ARB", "''", "REM", "POS(1)")

    def pattern(self, chance: random.Random, depth: int) -> str:
        if depth == 0:
            return chance.choice(self.LEAVES)
        parts = [self.pattern(chance, depth - 1) for _ in range(2)]
        match chance.randrange(5):
            case 0:
                return f"({parts[0]} | {parts[1]})"
            case 1:
                return f"({parts[0]} {parts[1]})"
            case 2:
                return f"(({parts[0]}) {chance.choice('.$')} {chance.choice('XYZ')})"
            case 3:
                return f"({parts[0]} @C {parts[1]})"
            case _:
                return f"ARBNO({parts[0]})"

    def test_random_patterns(self) -> None:
        chance = random.Random(1)
        matched = 0
        for _ in range(400):
            pattern = self.pattern(chance, chance.randrange(1, 4))
            text = "".join(chance.choice("abc") for _ in range(chance.randrange(9)))
            listing = rewrite(texts={"T": text}, statements=[Statement("T", pattern, object="'<' X '>'", all=True)])
            entry = listing.entries[0]
            wanted = [(one.start, one.end, one.bindings) for one in entry.all or ()]
            found = [(*one.span(), tuple(one.groupdict().items())) for one in patterns.finditer(pattern, text)]
            self.assertEqual(found, wanted, (pattern, text))
            self.assertEqual(patterns.sub(pattern, "'<' X '>'", text), listing.texts[0].text, (pattern, text))
            matched += len(wanted)
        self.assertGreater(matched, 400)


class Refusals(unittest.TestCase):
    def test_a_fault(self) -> None:
        with self.assertRaises(PatternError) as raised:
            patterns.compile("LEN(x)")
        lines = str(raised.exception).split("\n")
        self.assertEqual(lines[:2], ["statement 1: pattern: bad number at 4", "    LEN(x)"])
        self.assertIs(patterns.error, PatternError)

    def test_a_fault_of_an_object(self) -> None:
        with self.assertRaises(PatternError):
            patterns.sub("'a'", "(", "a")

    def test_too_many_trials(self) -> None:
        pattern = patterns.compile("'b'", trials=3)
        self.assertTrue(pattern.search("aab"))
        with self.assertRaises(TrialsError):
            pattern.search("aaab")

    def test_a_history_that_is_too_long(self) -> None:
        pattern = patterns.compile("ARBNO('a' | 'b') '#' = 'x' :anchored", trials=1_000_000_000)
        long = "ab" * 8_388_608
        self.assertEqual(pattern.replace("ab#"), "x")
        with self.assertRaises(HistoryError):
            pattern.search(long)
        with self.assertRaises(HistoryError):
            pattern.replace(long)

    def test_wrong_arguments(self) -> None:
        for trials in (0, 1_000_000_001):
            with self.assertRaises(ValueError):
                patterns.compile("'b'", trials=trials)
        for rule in (b"'a'", 5, None):
            with self.assertRaises(TypeError):
                patterns.compile(rule)  # type: ignore[arg-type]
        for string in (5, None, bytearray(b"a")):
            with self.assertRaises(TypeError):
                patterns.search("'a'", string)  # type: ignore[type-var]

    def test_a_long_text(self) -> None:
        with self.assertRaises(ValueError):
            patterns.search("'b'", b"a" * 16_777_217)


class Sharing(unittest.TestCase):
    def test_many_threads(self) -> None:
        pattern = patterns.compile(NUMBER)
        wrong = []

        def work(number: int) -> None:
            for turn in range(200):
                text = f"x{number}y{turn}"
                if pattern.findall(text) != [str(number), str(turn)]:
                    wrong.append(text)

        threads = [threading.Thread(target=work, args=(number,)) for number in range(8)]
        for thread in threads:
            thread.start()
        for thread in threads:
            thread.join()
        self.assertEqual(wrong, [])


if __name__ == "__main__":
    unittest.main()
