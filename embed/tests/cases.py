"""What embed/run and the modules beside this one share: where things are, how cases are counted, how commands run."""

import os
import shutil
import subprocess
import sys
from pathlib import Path

EMBED = Path(__file__).resolve().parent.parent
TOP = EMBED.parent
EXAMPLES = TOP / "examples"
OUT = EMBED / "out"
ARCHIVE = OUT / "libsno_rewrite.a"
SHARED = OUT / "libsno_rewrite.so"
VERSION = (TOP / "VERSION").read_text().strip()
WARNINGS = ["-O2", "-Wall", "-Wextra", "-Werror"]

counts = {"passed": 0, "failed": 0}


def expect(what, found, wanted):
    holds = found == wanted
    add(holds, not holds)
    if not holds:
        print(f"FAILED {what}: {shorten(found)}, wanted {shorten(wanted)}", flush=True)
    return holds


def add(passed, failed):
    """Counts cases that were shown, if they failed."""
    counts["passed"] += passed
    counts["failed"] += failed


def shorten(value):
    line = repr(value)
    return line if len(line) <= 600 else f"{line[:400]} .. {line[-150:]}"


def end():
    print(f"{counts['passed']} passed, {counts['failed']} failed")
    sys.exit(1 if counts["failed"] else 0)


def run(command, **options):
    """The status, standard output and standard error of a command."""
    ended = subprocess.run([str(word) for word in command], capture_output=True, **options)
    return ended.returncode, ended.stdout, ended.stderr


def made(what, command, **options):
    """Whether a command that makes something ended well; what it wrote is printed if it didn't."""
    status, output, faults = run(command, **options)
    expect(what, status, 0)
    if status:
        sys.stdout.write((output + faults).decode(errors="replace"))
    return status == 0


def has(*commands):
    """Whether the machine has these commands. A missing one is a failed case with its name."""
    missing = [command for command in commands if not shutil.which(command)]
    for command in missing:
        expect(f"the command {command}", "missing on this machine", "there")
    return not missing


def environment(**changes):
    """The environment without what would lead a tool elsewhere, but with these changes."""
    leads = "PIP_", "PYTHON", "SNO_REWRITE_"
    kept = {name: value for name, value in os.environ.items() if not name.startswith(leads)}
    return kept | {name: str(value) for name, value in changes.items()}
