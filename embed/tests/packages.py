"""Installs each package into a clean folder, without a network, and makes a call by it."""

import os
import re
import shutil
import sys
import sysconfig

from cases import EMBED, EXAMPLES, OUT, SHARED, TOP, VERSION, WARNINGS, environment, expect, has, made, run

# Prints the module's folder, the library's folder, the way of seeking patterns and the results of two calls.
PYTHON_CALL = """
import sno_rewrite, sno_rewrite._library, sno_rewrite._finders, sno_rewrite.patterns, pathlib
folder = pathlib.Path(sno_rewrite.__file__).parent
assert (folder / "py.typed").is_file()
assert (folder / "service/page.html").is_file() and (folder / "service/openapi.json").is_file()
print(folder)
print(pathlib.Path(sno_rewrite._library.load().path).parent)
print(sno_rewrite._finders.Finder.__module__)
print(sno_rewrite.patterns.sub("'b'", "'Y'", "abc"))
print(sno_rewrite.rewrite(texts={"T": "abc"}, statements=[sno_rewrite.Statement("T", "'b'", "'X'")]).texts[0].text)
"""

RUST_CALL = """
fn main() {
    let document = std::fs::read(std::env::args_os().nth(1).unwrap()).unwrap();
    let listing = sno_rewrite::rewrite(&document, &sno_rewrite::Options::default()).unwrap();
    print!("{}", String::from_utf8(listing.bytes).unwrap());
}
"""

CMAKE_PROJECT = """
cmake_minimum_required(VERSION 3.16)
project(user LANGUAGES C CXX)
find_package(sno_rewrite @WANTED@ CONFIG REQUIRED)
add_executable(list_c list.c)
target_link_libraries(list_c PRIVATE sno_rewrite::sno_rewrite)
add_executable(list_cpp list.cpp)
target_compile_features(list_cpp PRIVATE cxx_std_17)
target_link_libraries(list_cpp PRIVATE sno_rewrite::static)
"""


def try_all(folder):
    for name in "python/pyproject.toml", "rust/Cargo.toml":
        found = re.findall(r'^version = "(.*)"$', (EMBED / name).read_text(), re.MULTILINE)
        expect(f"the version in {name}", found, [VERSION])
    try_python(folder)
    if has("make", "cc", "g++"):
        root = folder / "root"
        command = ["make", "-s", "-C", TOP, "install-library", f"DESTDIR={root}", "PREFIX=/usr", f"LIBRARY_DIR={OUT}"]
        if made("make install-library", command, env=environment(MAKEFLAGS="", MAKELEVEL="")):
            try_pkg_config(folder, root)
            try_cmake(folder, root)
            try_cargo(folder, root)


# Python.

def try_python(folder):
    # Since pip 22.3 it installs into an environment that has no pip.
    command = [sys.executable, "-m", "pip", "--python", sys.executable, "--version"]
    if not has("git") or not made("the package pip, 22.3 or later", command):
        return
    # A copy, so that nothing that pip makes lies in the repository.
    repository = folder / "repository"
    source = repository / "embed/python"
    shutil.copytree(EMBED / "python", source, ignore=shutil.ignore_patterns("__pycache__", "*.so"))
    shutil.copy(EMBED / "sno_rewrite.h", repository / "embed")
    commit(repository)
    built = repository / "embed/out"
    built.mkdir()
    shutil.copy(SHARED, built)

    environments = folder / "environments"
    whole = try_pip("pip install .", environments / "folder", source, ["."])
    expect("pip install .: the wheel holds the library", whole and whole[1], whole and whole[0])
    found = try_pip("pip install -e .", environments / "editable", source, ["-e", "."])
    expect("pip install -e .: it uses the sources", found and found[:2], [str(source / "src/sno_rewrite"), str(built)])
    try_wheel(folder, source, environments / "wheel", "cp311-abi3")
    try_wheel(folder, source, environments / "wheel_by_ctypes", "py3-none", CC="false")

    # A source distribution and a repository have no library, so the environment names it.
    sources = folder / "sources"
    sources.mkdir()
    call = f"import backend; print(backend.build_sdist({str(sources)!r}))"
    status, name, _ = run([sys.executable, "-c", call], cwd=source, env=environment())
    expect("the source distribution", (status, name), (0, f"sno_rewrite-{VERSION}.tar.gz\n".encode()))
    archive = str(sources / name.decode().strip())
    try_pip("pip install of the source distribution", environments / "sources", sources, [archive], SHARED)
    url = f"git+file://{repository}#subdirectory=embed/python"
    try_pip("pip install from git", environments / "git", folder, [url], SHARED)


def commit(repository):
    """Makes a repository of a folder."""
    who = ["-c", "user.name=embed/run", "-c", "user.email=run@localhost"]
    made("git init", ["git", "init", "-q", repository])
    made("git add", ["git", "add", "."], cwd=repository)
    made("git commit", ["git", *who, "commit", "-qm", "The package"], cwd=repository)


def pip(python, *words):
    return [sys.executable, "-m", "pip", "--python", python, "--disable-pip-version-check", "-q", *words]


def try_pip(what, place, cwd, words, library=None, way="_fast"):
    """Installs into a new environment, and makes calls there. Returns the lines that they print."""
    python = place / "bin/python"
    if not made(f"{what}: the environment", [sys.executable, "-m", "venv", "--without-pip", place]):
        return None
    flags = environment(PIP_CONFIG_FILE=os.devnull, PIP_NO_INDEX=1)
    if not made(what, pip(python, "install", *words), cwd=cwd, env=flags):
        return None
    named = {"SNO_REWRITE_LIBRARY": library} if library else {}
    status, output, faults = run([python, "-c", PYTHON_CALL], cwd=place, env=environment(**named))
    lines = output.decode().split("\n")[:-1]
    expect(f"{what}: the calls", (status, lines[2:], faults), (0, [f"sno_rewrite.{way}", "aYc", "aXc"], b""))
    found = run([place / "bin/nomyake-service", "--version"], cwd=place, env=environment())
    expect(f"{what}: the service", found, (0, f"nomyake-service {VERSION}\n".encode(), b""))
    return lines


def try_wheel(folder, source, place, tag, **changes):
    """Makes a wheel that needs this of Python, and installs it."""
    wheels = folder / place.name
    flags = environment(PIP_CONFIG_FILE=os.devnull, PIP_NO_INDEX=1, **changes)
    command = pip(sys.executable, "wheel", "-w", wheels, ".")
    if not made(f"pip wheel, {tag}", command, cwd=source, env=flags):
        return
    names = [path.name for path in wheels.iterdir()]
    machine = sysconfig.get_platform().replace("-", "_")
    expect("the wheel's name", names, [f"sno_rewrite-{VERSION}-{tag}-{machine}.whl"])
    way = "_plain" if tag.startswith("py3") else "_fast"
    whole = try_pip(f"pip install of the wheel, {tag}", place, wheels, names, way=way)
    expect(f"the wheel holds the library, {tag}", whole and whole[1], whole and whole[0])


# C and C++.

def lists_first(what, program, **options):
    wanted = 0, (EXAMPLES / "first.listing").read_bytes(), b""
    expect(what, run([program, EXAMPLES / "first.json"], **options), wanted)


def try_pkg_config(folder, root):
    if not has("pkg-config"):
        return
    # The flags begin with the root, which pkg-config puts before the installed folders.
    flags = environment(
        PKG_CONFIG_PATH=root / "usr/lib/pkgconfig",
        PKG_CONFIG_SYSROOT_DIR=root,
        PKG_CONFIG_ALLOW_SYSTEM_CFLAGS=1,
        PKG_CONFIG_ALLOW_SYSTEM_LIBS=1,
    )
    status, output, _ = run(["pkg-config", "--cflags", "--libs", "sno_rewrite"], env=flags)
    expect("pkg-config", status, 0)
    # Callers are copied, since they would find the headers of embed/ beside themselves.
    place = folder / "pkg_config"
    place.mkdir()
    for compiler, name in ("cc", "list.c"), ("g++", "list.cpp"):
        shutil.copy(EMBED / name, place)
        program = place / f"{name}.out"
        if made(f"pkg-config: {name}", [compiler, *WARNINGS, "-o", program, place / name, *output.decode().split()]):
            lists_first(f"pkg-config: {name} runs", program, env=environment(LD_LIBRARY_PATH=root / "usr/lib"))


def configure(place, root, wanted):
    (place / "CMakeLists.txt").write_text(CMAKE_PROJECT.replace("@WANTED@", wanted))
    command = ["cmake", "-S", place, "-B", place / wanted, f"-DCMAKE_PREFIX_PATH={root / 'usr'}"]
    return command, place / wanted


def try_cmake(folder, root):
    if not has("cmake"):
        return
    place = folder / "cmake"
    place.mkdir()
    for name in "list.c", "list.cpp":
        shutil.copy(EMBED / name, place)
    command, built = configure(place, root, "1.0")
    if made("cmake: find_package", command) and made("cmake: the build", ["cmake", "--build", built]):
        for program in "list_c", "list_cpp":
            lists_first(f"cmake: {program} runs", built / program)
    for wanted in "2.0", "0.9":
        command, _ = configure(place, root, wanted)
        status, _, faults = run(command)
        refused = status != 0 and b"sno_rewrite" in faults and f'version "{wanted}"'.encode() in faults
        expect(f"cmake: find_package of version {wanted} is refused", refused, True)


# Rust.

def try_cargo(folder, root):
    if not has("cargo", "pkg-config"):
        return
    # The crate as it is here, with embed/out beside it, and a copy that has only what is installed.
    alone = folder / "crate"
    shutil.copytree(EMBED / "rust", alone, ignore=shutil.ignore_patterns("target"))
    place = folder / "cargo_user"
    flags = environment(CARGO_TARGET_DIR=folder / "cargo_user_target", CARGO_NET_OFFLINE="true")
    made("cargo new", ["cargo", "new", "-q", "--vcs", "none", "--name", "user", place], env=flags)
    (place / "src/main.rs").write_text(RUST_CALL)
    program = folder / "cargo_user_target/debug/user"
    installed = {"PKG_CONFIG_PATH": root / "usr/lib/pkgconfig", "PKG_CONFIG_SYSROOT_DIR": root}
    named = {"SNO_REWRITE_LIB_DIR": root / "usr/lib"}
    ways = ("embed/out", EMBED / "rust", {}), ("the variable", alone, named), ("pkg-config", alone, installed)
    for what, crate, found in ways:
        made(f"cargo add --path, {what}", ["cargo", "add", "-q", "--path", crate], cwd=place, env=flags)
        more = {name: str(value) for name, value in found.items()}
        if made(f"cargo build, {what}", ["cargo", "build", "-q"], cwd=place, env=flags | more):
            lists_first(f"cargo: the call, {what}", program)
            program.unlink()
    status, _, faults = run(["cargo", "build", "-q"], cwd=place, env=flags | {"SNO_REWRITE_LIB_DIR": str(folder)})
    refused = status != 0 and b"there is no libsno_rewrite.a in" in faults
    expect("cargo build, a folder without the library", refused, True)
