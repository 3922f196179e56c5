"""Runs the programs that docs/LIBRARY.md shows for each language, by the commands that it shows."""

import re
import sys

from cases import EMBED, SHARED, TOP, environment, expect, has, made, run

PAGE = TOP / "docs/LIBRARY.md"
FILES = {"C": "first.c", "C++": "first.cpp", "Rust": "src/main.rs", "Python": "first.py"}
LANGUAGES = {"C": "c", "C++": "cpp", "Rust": "rs", "Python": "python"}
TOOLS = {"C": ("cc", "pkg-config"), "C++": ("g++", "pkg-config"), "Rust": ("cargo",), "Python": ()}
# A section begins with its program.
MOST_LINES = 14
# The section with a program in each language.
PATTERNS = "A pattern for many texts"
MOST_LINES_OF_PATTERNS = 25


def blocks(section, language):
    """The pieces of code in this language, of a section of the page."""
    found = re.search(rf"^## {re.escape(section)}\n(.*?)(?=^## |\Z)", PAGE.read_text(), re.MULTILINE | re.DOTALL)
    return re.findall(rf"^```{language}\n(.*?)^```$", found[1], re.MULTILINE | re.DOTALL) if found else []


def try_all(folder):
    outputs = blocks("From C, C++, Rust and Python", "text")
    expect("docs/LIBRARY.md: one output", len(outputs), 1)
    for name in FILES:
        programs, commands = blocks(name, LANGUAGES[name]), blocks(name, "sh")
        wanted = "".join(outputs)
        if name == "Python":
            commands = [f"{sys.executable} first.py"]
            # What a line prints is its comment.
            wanted = "".join(f"{line}\n" for line in re.findall(r"print\(.*\) *# (.*)", "".join(programs)))
        if name in ("C", "C++"):
            commands = [f"{command}./first" for command in commands]
        expect(f"docs/LIBRARY.md: {name}: one program with its commands", (len(programs), len(commands)), (1, 1))
        if programs and commands and has(*TOOLS[name]):
            expect(f"docs/LIBRARY.md: {name}: the program is short", programs[0].count("\n") <= MOST_LINES, True)
            try_one(name, programs[0], commands[0], wanted, folder)


def try_patterns(folder):
    outputs = blocks(PATTERNS, "text")
    expect(f"docs/LIBRARY.md: {PATTERNS}: one output", len(outputs), 1)
    for name in FILES:
        programs = blocks(PATTERNS, LANGUAGES[name])
        # By the commands of the language's own section.
        commands = [f"{sys.executable} first.py"] if name == "Python" else blocks(name, "sh")
        if name in ("C", "C++"):
            commands = [f"{command}./first" for command in commands]
        found = len(programs), len(commands)
        if expect(f"docs/LIBRARY.md: {PATTERNS}: one program in {name}", found, (1, 1)) and has(*TOOLS[name]):
            is_short = programs[0].count("\n") <= MOST_LINES_OF_PATTERNS
            expect(f"docs/LIBRARY.md: {PATTERNS}: the program in {name} is short", is_short, True)
            try_one(name, programs[0], commands[0], "".join(outputs), folder, "shown_patterns")


def try_one(name, program, commands, wanted, folder, kind="shown"):
    place = folder / f"{kind}_{LANGUAGES[name]}"
    place.mkdir()
    # The crate is found below the place, as it is below the repository.
    (place / "embed").symlink_to(EMBED)
    library = folder / "root/usr/lib"
    flags = environment(
        CARGO_TARGET_DIR=folder / "cargo_shown",
        CARGO_NET_OFFLINE="true",
        CARGO_TERM_QUIET="true",
        LD_LIBRARY_PATH=library,
        PKG_CONFIG_PATH=library / "pkgconfig",
        PKG_CONFIG_SYSROOT_DIR=folder / "root",
        PKG_CONFIG_ALLOW_SYSTEM_CFLAGS=1,
        PKG_CONFIG_ALLOW_SYSTEM_LIBS=1,
        PYTHONPATH=EMBED / "python/src",
        PYTHONDONTWRITEBYTECODE=1,
        SNO_REWRITE_LIBRARY=SHARED,
    )
    command = ["cargo", "init", "-q", "--vcs", "none", "--name", "first"]
    if name == "Rust" and not made("cargo init", command, cwd=place, env=flags):
        return
    (place / FILES[name]).write_text(program)
    status, output, faults = run(["bash", "-ec", commands], cwd=place, env=flags)
    if not expect(f"docs/LIBRARY.md: {name}", (status, output.decode()), (0, wanted)):
        sys.stdout.write(faults.decode(errors="replace"))
