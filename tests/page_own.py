"""What tests/service_page looks at of nomyake-play: the page for files of one's own."""
import os
import signal
import subprocess
import urllib.error
import urllib.request

from browsers import Page, cases, eventually
from lib import TOP

SCRIPT = TOP / "embed/python/nomyake-play"
SECONDS = 60


def own_files(driver, sno, folder):
    """A file is shown to who has the token, and is as it was at the end."""
    opened, text = folder / "opened", folder / "own.txt"
    programs, room = folder / "bin", folder / "room"
    programs.mkdir()
    room.mkdir()
    text.write_text("host=example.org\n")
    opener = programs / "xdg-open"
    opener.write_text(f'#!/bin/sh\nprintf %s "$1" > {opened}.part && mv {opened}.part {opened}\n')
    opener.chmod(0o755)
    environment = {**os.environ, "PATH": f"{programs}:{os.environ['PATH']}", "TMPDIR": str(room)}
    command = ["/usr/bin/python3", SCRIPT, "--program", sno, "own.txt"]
    process = subprocess.Popen(command, cwd=folder, env=environment, stderr=subprocess.PIPE, text=True)
    try:
        eventually("the browser is opened", opened.is_file, True)
        address = opened.read_text()
        cases.expect("the address is on standard error", process.stderr.readline(), f"the page is at {address}\n")
        shown(driver, address)
        process.send_signal(signal.SIGTERM)
        cases.expect("the end", process.wait(SECONDS), 0)
    finally:
        process.kill()
    cases.expect("the file is as it was", text.read_text(), "host=example.org\n")
    cases.expect("nothing is left", list(room.iterdir()), [])
    refused(sno, folder)


def shown(driver, address):
    place, _, token = address.partition("/#token=")
    cases.check(len(token) > 20, "there is a token in the fragment", address)
    try:
        urllib.request.urlopen(place + "/texts")
        status = 200
    except urllib.error.HTTPError as fault:
        status = fault.code
    cases.expect("without the token", status, 401)
    page = Page(driver, address)
    eventually("the file's text", lambda: page.text("text"), "host=example.org\n")
    eventually("its name", lambda: page.text("text-title"), "own.txt, version 0")
    cases.check(token not in page.address(), "the token isn't in the address any more", page.address())
    page.fill("pattern", "BREAK('=') . K")
    eventually("a match", lambda: page.marks(), ["host"])


def refused(sno, folder):
    (folder / "letters.txt").write_bytes("é".encode())
    (folder / "long.txt").write_text("x" * 65_537)
    for words, status, part in (
        ((sno, "letters.txt"), 2, "letters.txt: a text is ASCII"),
        ((sno, "long.txt"), 2, "long.txt: a text is ASCII, of at most 65536 characters"),
        ((sno, "none.txt"), 2, "none.txt: "),
        ((folder / "nothing",), 4, "sno isn't built; './sno --version'"),
    ):
        ran = subprocess.run(["/usr/bin/python3", SCRIPT, "--no-browser", "--program", *words], cwd=folder, capture_output=True, text=True, timeout=SECONDS)
        cases.expect(f"the status of {words[-1]}", ran.returncode, status)
        cases.check(ran.stderr.startswith("error: ") and part in ran.stderr and ran.stderr.count("\n") == 1, f"the line of {words[-1]}", ran.stderr)
