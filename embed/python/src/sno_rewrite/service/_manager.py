"""What systemd wants of a service: a word when it is ready and when it ends, and the sockets that it has opened before."""

from __future__ import annotations

import os
import socket
from contextlib import suppress

_FIRST_SOCKET = 3


def notify(words: str) -> None:
    """Sends words as `READY=1` to the manager of services, if there is one that waits for them."""
    path = os.environ.get("NOTIFY_SOCKET", "")
    if not path.startswith(("/", "@")):
        return
    address = "\0" + path[1:] if path.startswith("@") else path
    with suppress(OSError), socket.socket(socket.AF_UNIX, socket.SOCK_DGRAM) as channel:
        channel.connect(address)
        channel.sendall(words.encode())


def passed_sockets() -> list[socket.socket]:
    """The sockets at which the manager listens for this process."""
    if os.environ.get("LISTEN_PID") != str(os.getpid()):
        return []
    count = os.environ.get("LISTEN_FDS", "")
    found = [socket.socket(fileno=_FIRST_SOCKET + place) for place in range(int(count) if count.isdecimal() else 0)]
    # They are for this process alone, and not for those that it starts.
    for name in "LISTEN_PID", "LISTEN_FDS", "LISTEN_FDNAMES":
        os.environ.pop(name, None)
    for each in found:
        each.setblocking(False)
        os.set_inheritable(each.fileno(), False)
    return found
