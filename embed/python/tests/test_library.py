"""How the library is found and called: which file, how often, by which threads, and with how much memory."""

import ctypes
import os
import shutil
import subprocess
import sys
import tempfile
import threading
import time
import unittest
from concurrent.futures import ThreadPoolExecutor
from pathlib import Path

from sno_rewrite import Listing, Statement, Text, rewrite, rewrite_document
from sno_rewrite._library import FILE_NAME, VARIABLE, Library, load

PACKAGE = Path(__file__).resolve().parents[1] / "src/sno_rewrite"

DOCUMENT = b"""{"texts":[{"name":"T","text":"abc"}],"statements":[{"text":"T","pattern":"'b'","object":"'X'"}]}"""
LINES = b"texts 1\nT 1 |aXc|\nentries 1\n0 statement 1 T 0 matched 1 2\n  -> |aXc|\nrefused 0\n"

# Prints the listing of DOCUMENT.
LIST = f"import sys, sno_rewrite; sys.stdout.buffer.write(sno_rewrite.rewrite_document({DOCUMENT!r})[0])"


class Counted(Library):
    """The library, which counts its runs."""

    def __init__(self, room: int) -> None:
        super().__init__(load().path, room)
        self.runs = 0
        function = self.function

        def counted(*arguments: object) -> int:
            self.runs += 1
            return function(*arguments)

        self.function = counted


class Runs(unittest.TestCase):
    def test_one_run_is_enough(self) -> None:
        library = Counted(load().room)
        self.assertEqual(library.call(DOCUMENT, False, False, 1_000_000), (0, LINES))
        self.assertEqual(library.runs, 1)

    def test_one_run_is_enough_for_a_long_listing(self) -> None:
        # Each of 100 statements has a line of its own and one with the whole text.
        long_text = "a" * 65_536
        statements = ",".join(["""{"text":"T","pattern":"'a' RPOS(0)","object":"'a'"}"""] * 100)
        document = f'{{"texts":[{{"name":"T","text":"{long_text}"}}],"statements":[{statements}]}}'.encode()
        wanted = [b"texts 1", b"T 100 |%b|" % long_text.encode(), b"entries 100"]
        for number in range(100):
            wanted.append(b"%d statement %d T %d matched 65535 65536" % (number, number + 1, number))
            wanted.append(b"  -> |%b|" % long_text.encode())
        wanted.append(b"refused 0\n")
        library = Counted(load().room)
        status, output = library.call(document, False, False, 1_000_000)
        self.assertEqual(status, 0)
        self.assertTrue(output == b"\n".join(wanted), "the long listing is another one")
        self.assertEqual(library.runs, 1)

    def test_a_listing_past_the_room_takes_a_second_run(self) -> None:
        for room, runs in (1, 2), (len(LINES) - 1, 2), (len(LINES), 1):
            with self.subTest(room=room):
                library = Counted(room)
                self.assertEqual(library.call(DOCUMENT, False, False, 1_000_000), (0, LINES))
                self.assertEqual(library.runs, runs)

    def test_the_function_refuses_a_bad_limit(self) -> None:
        for trials in 0, 1_000_000_001:
            self.assertEqual(load().call(DOCUMENT, False, False, trials), (3, b""))

    def test_a_buffer_that_is_too_short_is_unchanged(self) -> None:
        for room in 0, 1, len(LINES) - 1, len(LINES):
            with self.subTest(room=room):
                space = (ctypes.c_uint8 * (len(LINES) + 8))(*b"#" * (len(LINES) + 8))
                length = ctypes.c_size_t(12345)
                status = load().function(
                    DOCUMENT, len(DOCUMENT), False, False, 1_000_000, space, room, ctypes.byref(length)
                )
                fits = room == len(LINES)
                self.assertEqual((status, length.value), (0 if fits else 5, len(LINES)))
                self.assertEqual(bytes(space), (LINES if fits else b"#" * len(LINES)) + b"#" * 8)


class Memory(unittest.TestCase):
    def test_memory_is_given_back(self) -> None:
        def address_space() -> int:
            return int(Path("/proc/self/statm").read_text().split()[0]) * os.sysconf("SC_PAGE_SIZE")

        rewrite_document(DOCUMENT)
        before = address_space()
        for _ in range(20):
            rewrite_document(DOCUMENT)
        self.assertLess(address_space() - before, load().room)

    def test_less_address_space_is_enough(self) -> None:
        limited = f"import resource; resource.setrlimit(resource.RLIMIT_AS, (1 << 28, 1 << 28)); {LIST}"
        self.assertEqual(run(limited, PACKAGE.parent, {VARIABLE: load().path}), LINES)

    def test_a_lack_of_memory_is_reported(self) -> None:
        # The match does 262,148 assignments and keeps each of them until it ends.
        program = (
            "import resource, sno_rewrite\n"
            "def match():\n"
            "    pattern = ' | '.join(['ARB $ V FAIL'] * 4)\n"
            "    statement = sno_rewrite.Statement('T', pattern, anchored=True)\n"
            "    return sno_rewrite.rewrite(texts={'T': 'a' * 65_536}, statements=[statement])\n"
            "assert len(match().entries) == 1\n"
            "used = int(open('/proc/self/statm').read().split()[0]) * resource.getpagesize()\n"
            "resource.setrlimit(resource.RLIMIT_AS, (used + (4 << 20), -1))\n"
            "try:\n"
            "    match()\n"
            "except sno_rewrite.Fault as fault:\n"
            "    print(fault.status, fault)\n"
        )
        self.assertEqual(run(program, PACKAGE.parent, {VARIABLE: load().path}), b"4 out of memory\n")


class Threads(unittest.TestCase):
    def test_several_threads_call_at_once(self) -> None:
        def one(number: int) -> Listing:
            return rewrite(texts={"T": f"a{number}b"}, statements=[Statement("T", "SPAN('0123456789') . N", "N N")])

        with ThreadPoolExecutor(8) as pool:
            found = list(pool.map(one, range(400)))
        for number, listing in enumerate(found):
            self.assertEqual(listing.texts, (Text("T", f"a{number}{number}b", 1),))
            self.assertEqual(listing.entries[0].bindings, (("N", str(number)),))

    def test_other_threads_go_on_during_a_call(self) -> None:
        # Seeks in vain, until the limit of trials is reached; the limit is raised until that takes long enough.
        trials = 1_000_000
        while True:
            begun = threading.Event()

            def call() -> None:
                begun.set()
                rewrite(texts={"T": "a" * 40}, statements=[Statement("T", "ARBNO(ARBNO('a')) 'b'")], trials=trials)

            thread = threading.Thread(target=call)
            start = time.monotonic()
            thread.start()
            begun.wait()
            pauses = 0
            while thread.is_alive():
                time.sleep(0.001)
                pauses += 1
            if time.monotonic() - start > 0.3 or trials == 1_000_000_000:
                break
            trials = min(4 * trials, 1_000_000_000)
        # If a call kept the others from running, there would be a few pauses before it and after it.
        self.assertGreater(pauses, 30)


def run(program: str, folder: Path, variables: dict[str, str] | None = None) -> bytes:
    """What a program in Python writes with the package in the folder, or the last line of its fault."""
    environment = {name: value for name, value in os.environ.items() if name != VARIABLE}
    environment |= {"PYTHONPATH": str(folder), "PYTHONDONTWRITEBYTECODE": "1"} | (variables or {})
    ended = subprocess.run([sys.executable, "-c", program], env=environment, cwd=folder, capture_output=True)
    if ended.returncode:
        return ended.stderr.rstrip().rsplit(b"\n", 1)[-1]
    return ended.stdout


class Finding(unittest.TestCase):
    def setUp(self) -> None:
        temporary = tempfile.TemporaryDirectory()
        self.addCleanup(temporary.cleanup)
        self.folder = Path(temporary.name).resolve()
        self.source = self.folder / "python/src"
        unwanted = shutil.ignore_patterns("*.so", "__pycache__")
        shutil.copytree(PACKAGE, self.source / "sno_rewrite", ignore=unwanted)
        self.beside = self.source / "sno_rewrite" / FILE_NAME
        self.built = self.folder / "out" / FILE_NAME
        self.system = self.copy(self.folder / "system.so")

    def copy(self, path: Path) -> Path:
        path.parent.mkdir(exist_ok=True)
        shutil.copy(load().path, path)
        return path

    def found(self, path: Path | None = None, variable: Path | None = None, system: Path | None = None) -> str:
        """The library that the package loads, if the system finds `system`."""
        program = (
            "import ctypes.util\n"
            f"ctypes.util.find_library = {{'sno_rewrite': {str(system) if system else None!r}}}.__getitem__\n"
            "from sno_rewrite._library import load\n"
            f"print(load({str(path) if path else None!r}).path)"
        )
        return run(program, self.source, {VARIABLE: str(variable)} if variable else None).decode().rstrip()

    def test_the_order_of_the_places(self) -> None:
        self.assertEqual(self.found(system=self.system), str(self.system))
        self.copy(self.built)
        # Without the header the folder isn't that of the repository.
        self.assertEqual(self.found(system=self.system), str(self.system))
        (self.folder / "sno_rewrite.h").touch()
        self.assertEqual(self.found(system=self.system), str(self.built))
        self.copy(self.beside)
        self.assertEqual(self.found(system=self.system), str(self.beside))
        variable = self.copy(self.folder / "variable.so")
        self.assertEqual(self.found(variable=variable, system=self.system), str(variable))
        given = self.copy(self.folder / "given.so")
        self.assertEqual(self.found(given, variable, self.system), str(given))

    def test_no_library_is_reported(self) -> None:
        self.assertIn("libsno_rewrite.so was not found; make it with embed/build", self.found())

    def test_a_wrong_path_is_reported_and_no_other_is_taken(self) -> None:
        self.copy(self.beside)
        missing = self.folder / "missing.so"
        self.assertIn(f"there is no library at {missing}, which is the path given", self.found(path=missing))
        self.assertIn(f"there is no library at {missing}, which is {VARIABLE}", self.found(variable=missing))

    def test_the_path_of_a_call(self) -> None:
        given = self.copy(self.folder / "given.so")
        self.assertEqual(rewrite_document(DOCUMENT, library=given), (LINES, 0))
        with self.assertRaises(FileNotFoundError):
            rewrite(library=self.folder / "missing.so")


if __name__ == "__main__":
    unittest.main()
