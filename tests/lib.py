"""What the scripts of tests/ share: where the built programs are, and how cases are counted.

A script imports it by its name alone: Python looks into the script's own folder first.
"""
import os
import re
import sys
from collections import Counter
from importlib.machinery import SourceFileLoader
from importlib.util import module_from_spec, spec_from_loader
from pathlib import Path

TOP = Path(__file__).resolve().parent.parent
SNO = TOP / "crates/sno/out/sno"
SNO_REWRITE = TOP / "crates/sno_rewrite_main/out/sno_rewrite_main"
ALLOCATIONS = TOP / "crates/test_allocations/out/test_allocations_tests"
# The line that counts what `sno edit` did.
COUNTED = re.compile(r"\d+ of \d+ files? changed, \d+ match(es)?(, \d+ not text)?")


class Cases:
    """Counts cases, and shows at once what is wrong with one, for the first fifty."""

    def __init__(self):
        self.passed = 0
        self.failed = 0
        self.shown = 0
        self.kinds = Counter()

    def check(self, holds, what, *details):
        """Counts a case; what it is, with its details, is shown if it doesn't hold."""
        if holds:
            self.passed += 1
            return
        self.failed += 1
        if self.shown < 50:
            self.shown += 1
            print(f"FAILED {what}", *details, sep="\n  ", flush=True)

    def check_kind(self, holds, kind, what, *details):
        """Counts a case; of those that don't hold for one kind of cause the first two are shown."""
        self.kinds[kind] += not holds
        if holds or self.kinds[kind] <= 2:
            self.check(holds, what, *details)
        else:
            self.failed += 1

    def expect(self, what, found, wanted, most=600):
        """Counts a case by what was found. Of what was found and wanted at most the given number of characters is shown."""
        self.check(found == wanted, what, f"found  {cut(found, most)}", f"wanted {cut(wanted, most)}")

    def end(self):
        """Prints the last line, and returns the status."""
        print(f"{self.passed} passed, {self.failed} failed", flush=True)
        return 1 if self.failed else 0


def cut(value, most):
    """A value as Python writes it, or the front of that."""
    written = repr(value)
    return written if len(written) <= most else written[:most] + ".."


def uncounted(said):
    """What `sno edit` wrote to standard error before the line that counts files and matches, which has to be there."""
    before, _, last = said.removesuffix("\n").rpartition("\n")
    if not COUNTED.fullmatch(last):
        return f"no count after: {said}"
    return before + "\n" if before else ""


def built(script, *programs, by="./sno_rewrite or tools/prove builds it"):
    """The paths of programs that are there; ends the script if one isn't."""
    paths = [Path(program).resolve() for program in programs]
    for path in paths:
        if not path.is_file() or not os.access(path, os.X_OK):
            sys.exit(f"tests/{script}: {path} isn't there; {by}")
    return paths


def module(name):
    """Another script of tests/, as a module."""
    loader = SourceFileLoader(name, str(TOP / "tests" / name))
    loaded = module_from_spec(spec_from_loader(name, loader))
    loader.exec_module(loaded)
    return loaded
