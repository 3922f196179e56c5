"""What the tests of the service share: one that is started, with its address, its processes and its end."""
import json
import os
import re
import signal
import subprocess
import sys
import threading
import time
import urllib.request
from pathlib import Path

from lib import TOP

PYTHON = "/usr/bin/python3"
SOURCES = TOP / "embed/python/src"
SECONDS = 60


def needs(script, **modules):
    """Ends the script if a package of Debian's is missing: its module, by the name of the package with _ for -."""
    for package, module in modules.items():
        try:
            __import__(module)
        except ImportError:
            sys.exit(f"tests/{script}: {package.replace('_', '-')} is missing; tests/packages installs it")


def needs_programs(script, *programs):
    """Ends the script if a program is missing."""
    for program in programs:
        if subprocess.run(["sh", "-c", f"command -v {program}"], stdout=subprocess.DEVNULL).returncode:
            sys.exit(f"tests/{script}: {program} is missing; tests/packages installs it")


def written(folder, texts, statements=(), patterns=()):
    """The file of a document."""
    path = folder / "document.json"
    document = {"patterns": list(patterns), "texts": [{"name": name, "text": text} for name, text in texts.items()], "statements": list(statements)}
    path.write_text(json.dumps(document))
    return path


def is_instrumented(sno):
    """Whether a program was built to find faults: it takes many times longer, which says nothing of the proved one."""
    return b"__asan_init" in Path(sno).read_bytes()


def patient(sno):
    """Options of the service with which looks by an instrumented program may take long."""
    return ["--look-seconds", "60"] if is_instrumented(sno) else []


class Service:
    """A run of the service, as `with Service(..) as service`. What it says is in `said`."""

    def __init__(self, sno, document, store, *options, port=0):
        address = [] if "--unix" in options else ["--listen", f"127.0.0.1:{port}"]
        # A loaded machine may take longer for a look than a person would wait.
        looks = [] if "--look-seconds" in options else ["--look-seconds", "60"]
        words = [PYTHON, "-m", "sno_rewrite.service", document, "--store", store, "--program", sno, *address, *looks, *options]
        environment = {**os.environ, "PYTHONPATH": str(SOURCES)}
        self.process = subprocess.Popen(words, env=environment, stderr=subprocess.PIPE, text=True)
        self.said, self.url = [], None
        # One that doesn't start is killed, and then has said all.
        watchdog = threading.Timer(SECONDS, self.process.kill)
        watchdog.start()
        for line in self.process.stderr:
            self.said.append(line)
            if found := re.fullmatch(r"serving at (\S+)\n", line):
                self.url = found[1]
                break
        watchdog.cancel()
        if self.url is None:
            raise RuntimeError(f"the service didn't start: {self.said}")
        self.port = int(self.url.rpartition(":")[2]) if self.url.startswith("http") else None
        self.reader = threading.Thread(target=lambda: self.said.extend(self.process.stderr), daemon=True)
        self.reader.start()

    def __enter__(self):
        return self

    def __exit__(self, kind, error, trace):
        if self.process.poll() is None:
            self.process.kill()
        self.process.wait()

    def desk(self):
        """The process of the shared `sno serve`, once there is one; those of looks have no store."""
        for _ in range(SECONDS * 100):
            children = Path(f"/proc/{self.process.pid}/task/{self.process.pid}/children").read_text().split()
            named = [int(child) for child in children if b"\0serve\0--store\0" in commands_of(child)]
            if named:
                return named[0]
            time.sleep(0.01)
        raise RuntimeError("there is no sno serve")

    def kept_looks(self):
        """The processes that are kept for further looks at their texts."""
        children = Path(f"/proc/{self.process.pid}/task/{self.process.pid}/children").read_text().split()
        return [int(child) for child in children if b"\0serve\0--trials=" in commands_of(child)]

    def pause_desk(self):
        """Stops `sno serve`, and returns its process when each of its threads has stopped: until then one may take a line."""
        desk = self.desk()
        os.kill(desk, signal.SIGSTOP)
        waited(lambda: all(state_of(thread) == "T" for thread in Path(f"/proc/{desk}/task").iterdir()), "sno serve is stopped")
        return desk

    def kill_desk(self):
        os.kill(self.desk(), signal.SIGKILL)

    def kill_busy_desk(self):
        """Kills `sno serve` when a line has no reply yet: it is stopped until there is one."""
        desk = self.pause_desk()
        try:
            waited(lambda: self.metric("lines_under_way") > 0, "a line is under way")
        finally:
            os.kill(desk, signal.SIGKILL)

    def kill(self):
        """Kills the service alone; its `sno serve` ends when its input does."""
        desk = self.desk()
        self.process.kill()
        self.process.wait()
        waited(lambda: not commands_of(desk), "sno serve ends after its service")

    def stop(self):
        """Ends the service by SIGTERM, and returns its status."""
        self.process.terminate()
        return self.process.wait(SECONDS)

    def memory(self):
        """The megabytes that the service has."""
        status = Path(f"/proc/{self.process.pid}/status").read_text()
        return int(re.search(r"VmRSS:\s+([0-9]+)", status)[1]) / 1024

    def get(self, path, **headers):
        """The body of a GET that succeeds."""
        given = {name.replace("_", "-"): value for name, value in headers.items()}
        with urllib.request.urlopen(urllib.request.Request(self.url + path, headers=given), timeout=SECONDS) as response:
            return response.read().decode()

    def health(self):
        """What /healthz says, while it is 200."""
        return json.loads(self.get("/healthz"))

    def metric(self, name):
        """The value of a metric, or None."""
        found = re.search(rf"^nomyake_{re.escape(name)} (\S+)$", self.get("/metrics"), re.MULTILINE)
        return float(found[1]) if found else None


def waited(holds, what):
    """Waits until something holds; RuntimeError is raised if that takes too long."""
    deadline = time.monotonic() + SECONDS
    while not holds():
        if time.monotonic() > deadline:
            raise RuntimeError(f"it took too long: {what}")
        time.sleep(0.01)


def state_of(thread):
    """The letter of a thread's state."""
    return (thread / "stat").read_text().rpartition(")")[2].split()[0]


def commands_of(process):
    """The arguments of a process; nothing if it has ended."""
    try:
        return Path(f"/proc/{process}/cmdline").read_bytes()
    except OSError:
        return b""
