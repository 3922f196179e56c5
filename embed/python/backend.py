"""The build backend of this package: makes the wheel for pip, by the standard library alone.

The package is a few files of Python, so pip needs neither setuptools nor a network to install it. The description of
the package is in pyproject.toml. The wheel has libsno_rewrite.so, too, if it is in the package's folder or in embed/out
of the repository. A source distribution never has it.

It also has the module `_fast`, compiled from fast/, if there are a C compiler (`cc`, or what CC names) and the headers
of Python. If not, or if the compiler fails, the package calls the library by ctypes. The module is for any CPython from
3.11 on, but those without a global lock. The tag of the wheel names what it has been made for.

    python3 backend.py      compiles the module beside the sources, and ends with 1 if it can't
"""

from __future__ import annotations

import base64
import hashlib
import io
import os
import shlex
import subprocess
import sys
import sysconfig
import tarfile
import tempfile
import tomllib
import zipfile
from collections.abc import Iterable, Iterator
from importlib.machinery import EXTENSION_SUFFIXES
from pathlib import Path
from typing import Any

HERE = Path(__file__).resolve().parent
SOURCES = HERE / "src"
PACKAGE = SOURCES / "sno_rewrite"
FILE_NAME = "libsno_rewrite.so"
HEADER = "sno_rewrite.h"
MODULE = "_fast.abi3.so"
MODULE_SOURCES = HERE / "fast"
FIRST_TIME = (1980, 1, 1, 0, 0, 0)


def _shared() -> Path | None:
    """The shared object, if it is built."""
    places = [PACKAGE]
    if (HERE.parent / HEADER).is_file():
        places.append(HERE.parent / "out")
    return next((place / FILE_NAME for place in places if (place / FILE_NAME).is_file()), None)


def _header() -> Path:
    """The header of the library; the source distribution has a copy."""
    return next(folder / HEADER for folder in (HERE, HERE.parent) if (folder / HEADER).is_file())


def _compile(module: Path) -> str:
    """Compiles the module in C. Returns why it can't be, or nothing."""
    if f".{MODULE.partition('.')[2]}" not in EXTENSION_SUFFIXES:
        return "this Python takes no such module"
    command = [*shlex.split(os.environ.get("CC") or "cc"), "-O2", "-shared", "-fPIC", "-fvisibility=hidden", "-s"]
    command += [f"-I{sysconfig.get_path('include')}", f"-I{_header().parent}", "-o", str(module)]
    command += [path.name for path in sorted(MODULE_SOURCES.glob("*.c"))]
    try:
        status = subprocess.run([*command, "-ldl"], cwd=MODULE_SOURCES, check=False).returncode
    except OSError as fault:
        return str(fault)
    return f"{command[0]} ended with {status}" if status else ""


def _compiled(folder: str | Path) -> Path | None:
    """The module in C, compiled into the folder. The package works without it, so a failure is only reported."""
    module = Path(folder) / MODULE
    module.unlink(missing_ok=True)
    why = _compile(module)
    if why:
        print(f"sno_rewrite: the module in C isn't made, so ctypes is used: {why}", file=sys.stderr)
    return None if why else module


def _project() -> dict[str, Any]:
    return tomllib.loads((HERE / "pyproject.toml").read_text())["project"]


def _stem() -> str:
    project = _project()
    return f"{project['name'].replace('-', '_')}-{project['version']}"


def _tag(files: Iterable[str]) -> str:
    """What a wheel with these files is for."""
    names = {name.rpartition("/")[2] for name in files}
    if not names & {FILE_NAME, MODULE}:
        return "py3-none-any"
    machine = sysconfig.get_platform().replace("-", "_").replace(".", "_")
    return f"cp311-abi3-{machine}" if MODULE in names else f"py3-none-{machine}"


def _metadata() -> str:
    project = _project()
    lines = [
        "Metadata-Version: 2.1",
        f"Name: {project['name']}",
        f"Version: {project['version']}",
        f"Summary: {project['description']}",
        f"Requires-Python: {project['requires-python']}",
        *(f"Classifier: {classifier}" for classifier in project["classifiers"]),
        *(f"Requires-Dist: {dependency}" for dependency in project["dependencies"]),
        *_extras(project["optional-dependencies"]),
        "Description-Content-Type: text/markdown",
        "",
        (HERE / project["readme"]).read_text(),
    ]
    return "\n".join(lines)


def _extras(extras: dict[str, list[str]]) -> Iterator[str]:
    for extra, dependencies in extras.items():
        yield f"Provides-Extra: {extra}"
        yield from (f'Requires-Dist: {dependency}; extra == "{extra}"' for dependency in dependencies)


def _scripts() -> str:
    scripts = _project()["scripts"]
    return "".join(["[console_scripts]\n", *(f"{name} = {call}\n" for name, call in scripts.items())])


def _information(tag: str) -> dict[str, bytes]:
    """The files of the wheel that describe it, but for the list of all files."""
    pure = str(tag.endswith("-any")).lower()
    wheel = f"Wheel-Version: 1.0\nGenerator: sno_rewrite\nRoot-Is-Purelib: {pure}\nTag: {tag}\n"
    return {"METADATA": _metadata().encode(), "WHEEL": wheel.encode(), "entry_points.txt": _scripts().encode()}


def _package_files() -> Iterator[Path]:
    """The sources, and what the service's page is made of."""
    for path in sorted(PACKAGE.rglob("*")):
        if path.suffix in (".py", ".html", ".css", ".js", ".json") or path.name == "py.typed":
            yield path


def _write_wheel(folder: str, files: dict[str, bytes]) -> str:
    """Writes a wheel with these files, its description and the list of all, and returns its name."""
    information = f"{_stem()}.dist-info"
    tag = _tag(files)
    files = files | {f"{information}/{name}": content for name, content in _information(tag).items()}
    record = ""
    for name, content in files.items():
        digest = base64.urlsafe_b64encode(hashlib.sha256(content).digest()).rstrip(b"=").decode()
        record += f"{name},sha256={digest},{len(content)}\n"
    files[f"{information}/RECORD"] = f"{record}{information}/RECORD,,\n".encode()
    wheel_name = f"{_stem()}-{tag}.whl"
    with zipfile.ZipFile(Path(folder) / wheel_name, "w", zipfile.ZIP_DEFLATED) as wheel:
        for name, content in files.items():
            # A fixed time, so that the same files give the same wheel.
            member = zipfile.ZipInfo(name, FIRST_TIME)
            member.compress_type = zipfile.ZIP_DEFLATED
            member.external_attr = 0o644 << 16
            wheel.writestr(member, content)
    return wheel_name


def build_wheel(wheel_directory: str, config_settings: object = None, metadata_directory: str | None = None) -> str:
    files = {str(path.relative_to(SOURCES)): path.read_bytes() for path in _package_files()}
    shared = _shared()
    if shared:
        files[f"sno_rewrite/{FILE_NAME}"] = shared.read_bytes()
    with tempfile.TemporaryDirectory() as folder:
        module = _compiled(folder)
        if module:
            files[f"sno_rewrite/{MODULE}"] = module.read_bytes()
    return _write_wheel(wheel_directory, files)


def build_editable(wheel_directory: str, config_settings: object = None, metadata_directory: str | None = None) -> str:
    """A wheel that only names the folder of the sources, in which the module in C is compiled. The library is found
    there, or in embed/out."""
    _compiled(PACKAGE)
    return _write_wheel(wheel_directory, {"sno_rewrite.pth": f"{SOURCES}\n".encode()})


def build_sdist(sdist_directory: str, config_settings: object = None) -> str:
    sdist_name = f"{_stem()}.tar.gz"
    paths = [HERE / name for name in ("pyproject.toml", "README.md", "backend.py")]
    paths += [*_package_files(), *sorted(MODULE_SOURCES.glob("*.[ch]")), *sorted((HERE / "tests").glob("*.py"))]
    with tarfile.open(Path(sdist_directory) / sdist_name, "w:gz", format=tarfile.PAX_FORMAT) as archive:
        for path in paths:
            archive.add(path, f"{_stem()}/{path.relative_to(HERE)}", filter=_plain)
        archive.add(_header(), f"{_stem()}/{HEADER}", filter=_plain)
        metadata = _metadata().encode()
        member = tarfile.TarInfo(f"{_stem()}/PKG-INFO")
        member.size = len(metadata)
        archive.addfile(_plain(member), io.BytesIO(metadata))
    return sdist_name


def _plain(member: tarfile.TarInfo) -> tarfile.TarInfo:
    """Without what is known of the builder's machine."""
    member.uid = member.gid = 0
    member.uname = member.gname = "root"
    member.mode = 0o755 if member.name.endswith("stand_in.py") else 0o644
    return member


if __name__ == "__main__":
    sys.exit(0 if _compiled(PACKAGE) else 1)
