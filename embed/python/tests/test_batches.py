"""Iterators over many matches, which the module in C seeks in batches of 32, and over several of them at once. What is
wanted was worked out by hand from docs/LANGUAGE.md, or by `re`."""

import gc
import itertools
import random
import re
import threading
import unittest
import weakref

from sno_rewrite import patterns
from sno_rewrite.patterns import TrialsError

NUMBER = "SPAN('0123456789') . N"
# The first match is sought alone, and 32 after it at once.
COUNTS = (0, 1, 2, 3, 31, 32, 33, 34, 64, 65, 66, 97, 130)


class Text(str):
    """A string whose end can be seen."""


def places(text: str, character: str = "b") -> list[int]:
    return [place for place, one in enumerate(text) if one == character]


class Ends(unittest.TestCase):
    def test_any_number_of_matches(self) -> None:
        for count in COUNTS:
            for rest in "", "é", "....", "." * 3000:
                text = "".join(f"{number}é" for number in range(count)) + rest
                matches = patterns.finditer(NUMBER, text)
                self.assertEqual([one["N"] for one in matches], [str(number) for number in range(count)])
                for _ in range(3):
                    self.assertIsNone(next(matches, None))

    def test_a_match_at_the_end(self) -> None:
        for count in COUNTS[1:]:
            matches = patterns.finditer("'a' | RPOS(0)", "-a" * count)
            wanted = [(2 * number + 1, 2 * number + 2) for number in range(count)]
            self.assertEqual([one.span() for one in matches], wanted)
            self.assertIsNone(next(matches, None))

    def test_null_strings(self) -> None:
        for count in COUNTS:
            found = [one.span() for one in patterns.finditer("SPAN('a') | ''", "a-" * count)]
            wanted = [(2 * number, 2 * number + 1) for number in range(count)] + [(2 * count, 2 * count)]
            self.assertEqual(found, wanted)
            found = [one.span() for one in patterns.finditer("''", "-" * count)]
            self.assertEqual(found, [(number, number) for number in range(count + 1)])

    def test_anchored(self) -> None:
        pattern = patterns.compile("ANY('ab') . X :anchored")
        for count in COUNTS:
            text = "ab" * count + "-ab"
            self.assertEqual([one["X"] for one in pattern.finditer(text)], list("ab" * count))
            self.assertEqual([one["X"] for one in pattern.finditer(text, 2 * count + 1)], ["a", "b"])

    def test_breaking_off(self) -> None:
        for count in COUNTS:
            pattern = patterns.Pattern(NUMBER)
            text = Text("1é" * 100)
            matches = pattern.finditer(text)
            found = list(itertools.islice(matches, count))
            self.assertEqual([one.start() for one in found], list(range(0, 200, 2))[:count])
            end = weakref.ref(text)
            del text, matches, found
            gc.collect()
            self.assertIsNone(end())
            self.assertEqual(pattern.findall("1 2 3"), ["1", "2", "3"])

    def test_functions_that_raise(self) -> None:
        pattern = patterns.compile(NUMBER)
        for wanted in COUNTS[1:]:
            calls = itertools.count(1)
            with self.assertRaises(ZeroDivisionError):
                pattern.sub(lambda found: str(1 // (wanted - next(calls))), "1 " * 140)
            self.assertEqual(next(calls), wanted + 1)

    def test_cut_characters(self) -> None:
        for count in COUNTS:
            matches = patterns.finditer("LEN(1)", "a" * count + "é" + "b" * 50)
            self.assertEqual([next(matches).group() for _ in range(count)], ["a"] * count)
            with self.assertRaisesRegex(ValueError, f"^the cursor {count + 1} is within a character$"):
                next(matches)
            self.assertEqual(list(matches), [])


class Values(unittest.TestCase):
    def test_any_characters(self) -> None:
        chance = random.Random(4)
        text = "".join(chance.choice("aé€😀-12") for _ in range(2000))
        wanted = [(one.span(), one.group()) for one in re.finditer("[0-9]+", text)]
        self.assertGreater(len(wanted), 100)
        pattern = patterns.compile(NUMBER)
        self.assertEqual([(one.span("N"), one["N"]) for one in pattern.finditer(text)], wanted)
        # Other places are asked for in between, and matches are read later than they are made.
        matches = list(pattern.finditer(text, 5))
        for one in random.Random(5).sample(matches, len(matches)):
            self.assertEqual(one["N"], text[slice(*one.span())])
        self.assertEqual(pattern.sub(lambda found: f"<{found['N']}>", text), re.sub("([0-9]+)", r"<\1>", text))

    def test_other_variables_in_each_match(self) -> None:
        chance = random.Random(6)
        text = "".join(chance.choice("abcd") for _ in range(200))
        pattern = patterns.compile("'a' . A | 'b' $ B | 'c' . C @B | 'd'")
        for place, one in enumerate(pattern.finditer(text)):
            wanted = {"a": {"A": "a"}, "b": {"B": "b"}, "c": {"C": "c", "B": place + 1}, "d": {}}
            self.assertEqual((one.start(), one.groupdict()), (place, wanted[text[place]]))
        self.assertEqual(len(pattern.findall(text)), 200)

    def test_many_variables(self) -> None:
        names = [f"V{number}" for number in range(20)]
        pattern = patterns.compile(" ".join(f"LEN(1) . {name}" for name in names))
        text = "".join(chr(48 + number % 70) for number in range(20 * 100))
        for number, one in enumerate(pattern.finditer(text)):
            self.assertEqual(one.groups(), tuple(text[20 * number : 20 * number + 20]))

    def test_many_assignments(self) -> None:
        found = [one["V"] for one in patterns.finditer("ARB $ V 'b'", f"{'a' * 300}b" * 100)]
        self.assertEqual(found, ["a" * 300] * 100)

    def test_a_long_text(self) -> None:
        # During each search in such a text other threads go on.
        text = "".join(f"{'.' * 5000}{number}é" for number in range(100))
        self.assertEqual(patterns.findall(NUMBER, text), [str(number) for number in range(100)])


class Trials(unittest.TestCase):
    """For `'b'` a search takes as many trials as there are characters up to the end of the match."""

    def spans(self, text: str, trials: int) -> list[int]:
        return [one.start() for one in patterns.compile("'b'", trials=trials).finditer(text)]

    def test_many_trials_in_the_middle(self) -> None:
        for trials in 50, 1000, 3000:
            slow = "a" * (trials - 1) + "b"
            for before, after in itertools.product((0, 1, 5, 31, 32, 40, 100), (0, 1, 40, 100)):
                text = "b" * before + slow + "b" * after
                self.assertEqual(self.spans(text, trials), places(text), (trials, before, after))

    def test_many_trials_again_and_again(self) -> None:
        for gap in 1, 7, 33:
            text = f"{'a' * 99}{'b' * gap}" * 60 + "b" * 100
            for trials in 100, 500, 100_000:
                self.assertEqual(self.spans(text, trials), places(text), (gap, trials))

    def test_too_many_trials(self) -> None:
        for trials in 5, 100, 2000:
            for count in COUNTS:
                text = f"{'ab' * count}{'a' * trials}b{'b' * 50}"
                matches = patterns.compile("'b'", trials=trials).finditer(text)
                wanted = places(text)[:count]
                self.assertEqual([one.start() for one in itertools.islice(matches, count)], wanted)
                with self.assertRaisesRegex(TrialsError, f"^more than {trials} trials$"):
                    next(matches)
                self.assertEqual(list(matches), [])

    def test_a_long_end(self) -> None:
        # The last search finds nothing, and takes as many trials as there are characters and one.
        text = "b" * 40 + "a" * 99
        self.assertEqual(self.spans(text, 100), list(range(40)))
        with self.assertRaises(TrialsError):
            self.spans(text + "a", 100)


class Several(unittest.TestCase):
    def test_two_iterators_in_turns(self) -> None:
        pattern = patterns.compile(NUMBER)
        texts = ["".join(f"{number}{gap}" for number in range(150)) for gap in (" ", "é", "...")]
        all_matches = [pattern.finditer(text) for text in texts]
        for number in range(150):
            self.assertEqual([next(matches)["N"] for matches in all_matches], [str(number)] * 3)
            inside = pattern.search(f"x{number + 1000}")
            self.assertEqual(inside and inside["N"], str(number + 1000))
        self.assertEqual([next(matches, None) for matches in all_matches], [None] * 3)

    def test_one_in_another(self) -> None:
        pattern = patterns.compile("LEN(1) . X")
        pairs = [(a["X"], b["X"]) for a in pattern.finditer("z" * 40) for b in pattern.finditer("xy" * 20)]
        self.assertEqual(pairs, [("z", "xy"[number % 2]) for _ in range(40) for number in range(40)])

    def test_one_that_is_refused(self) -> None:
        pattern = patterns.compile("'b'", trials=100)
        good, bad = pattern.finditer("b" * 200), pattern.finditer("b" * 60 + "a" * 100)
        for place in range(60):
            self.assertEqual((next(good).start(), next(bad).start()), (place, place))
        with self.assertRaises(TrialsError):
            next(bad)
        self.assertEqual([one.start() for one in good], list(range(60, 200)))

    def test_threads(self) -> None:
        pattern = patterns.compile(NUMBER)
        wrong: list[int] = []

        def work(thread: int) -> None:
            for gap in "é", "." * 20, "." * 2000:
                text = gap.join(str(1000 * thread + number) for number in range(200))
                found = [int(one["N"]) for one in pattern.finditer(text)]
                if found != [1000 * thread + number for number in range(200)]:
                    wrong.append(thread)

        threads = [threading.Thread(target=work, args=(number,)) for number in range(8)]
        for thread in threads:
            thread.start()
        for thread in threads:
            thread.join()
        self.assertEqual(wrong, [])


if __name__ == "__main__":
    unittest.main()
