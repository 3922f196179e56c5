#!/usr/bin/env python3
"""Does what docs/SERVE.md says of `sno serve`, as far as the tests of the desks need it.

    stand_in.py serve [--seats=N] [--tries=N] [--listing=FILE] [--behave=HOW] DOCUMENT

It knows the patterns 'LITERAL', 'LITERAL' . NAME and RPOS(0), and objects 'LITERAL', or a name of `bind` for either
literal. With more than one seat replies come in any order. HOW is what a service can do to its caller:

- silent: no line gets a reply; deaf: no line is read;
- nameless: the reply to the first line, half a second later, is an error without an id;
- garbage: it is not JSON; strange: it is JSON, but not an object;
- ends: the program ends with 4 at the third line.
"""

import json
import random
import re
import sys
import threading
import time
from concurrent.futures import ThreadPoolExecutor
from pathlib import Path
from typing import Any

LONGEST = 16_777_216
FIRST_REPLIES = {"nameless": b'{"error":"not JSON"}', "garbage": b"Segmentation fault", "strange": b"[1]"}


class Refused(Exception):
    """Why a line has no entry: the member of its reply, and the words."""


class Book:
    """The texts and the journal."""

    def __init__(self, document: dict[str, Any]) -> None:
        self.texts = {text["name"]: {"text": text["text"], "version": 0} for text in document["texts"]}
        self.entries: list[dict[str, Any]] = []
        self.histories = {name: [text["text"]] for name, text in self.texts.items()}
        self.statements = 0
        for statement in document["statements"]:
            self.perform(statement)

    def perform(self, line: dict[str, Any]) -> dict[str, Any]:
        if not isinstance(line.get("text"), str) or not isinstance(line.get("pattern"), str):
            raise Refused("error", "wrong shape")
        self.check_name(line["text"])
        bound = line.get("bind", {}).get(line["pattern"])
        pattern = re.fullmatch(r"'([^']*)'(?: \. (\w+))?|RPOS\(0\)", line["pattern"])
        pattern = pattern if bound is None else re.fullmatch(f"({re.escape(bound)})()", bound)
        if not pattern:
            raise Refused("error", "pattern: unknown name at 0")
        self.statements += not line.get("check")
        if line["text"] not in self.texts:
            raise Refused("reason", "no text")
        return self.matched(line, pattern, self.texts[line["text"]])

    def check_name(self, name: str) -> None:
        if not re.fullmatch(r"[A-Za-z]\w*", name):
            raise Refused("error", "bad name")

    def matched(self, line: dict[str, Any], pattern: re.Match[str], text: dict[str, Any]) -> dict[str, Any]:
        if line.get("if_version", text["version"]) != text["version"]:
            raise Refused("reason", "changed", text["version"])
        # A trial for each start, if the literal is at none of them.
        if "trials" in line and len(text["text"]) > line["trials"] - 1 and (pattern[1] or "") not in text["text"]:
            raise Refused("reason", "too many trials")
        literal = pattern[1] or ""
        start = text["text"].find(literal) if pattern[1] is not None else len(text["text"])
        matches = start == 0 if line.get("anchored") else start >= 0
        entry = {
            "bindings": [[pattern[2], literal]] if pattern[2] and matches else [],
            "entry": len(self.entries),
            "matched": matches,
            "statement": self.statements,
            "text": line["text"],
            "version": text["version"],
        }
        if matches:
            entry |= {"start": start, "end": start + len(literal)}
            if "object" in line:
                characters = text["text"]
                value = line.get("bind", {}).get(line["object"], line["object"].strip("'"))
                entry["after"] = characters[:start] + value + characters[start + len(literal) :]
        if line.get("check"):
            return {**entry, "check": True}
        if "after" in entry:
            text["text"] = entry["after"]
            text["version"] += 1
            self.histories[line["text"]].append(text["text"])
        self.entries.append(entry)
        return entry

    def reply(self, line: bytes) -> dict[str, Any]:
        try:
            members = json.loads(line, parse_constant=refuse_constant)
            # Half of a surrogate pair is not JSON, either.
            json.dumps(members, ensure_ascii=False).encode()
        except ValueError:
            return {"error": "not JSON"}
        identity = {"id": members["id"]} if isinstance(members.get("id"), (str, int, float)) else {}
        try:
            return self.kind(members) | identity
        except Refused as refused:
            member, words, *version = refused.args
            return {member: words, **({"version": version[0]} if version else {}), **identity}

    def kind(self, members: dict[str, Any]) -> dict[str, Any]:
        if "read" in members:
            self.check_name(members["read"])
            if members["read"] not in self.texts:
                raise Refused("reason", "no text")
            return self.read(members["read"], members.get("at"))
        if "texts" in members:
            listed = ({"name": name, "length": len(it["text"]), "version": it["version"]} for name, it in self.texts.items())
            return {"texts": list(listed)}
        if "since" in members:
            if not isinstance(members["since"], int) or members["since"] < 0:
                raise Refused("error", "wrong shape")
            named = members.get("text")
            entries = [it for it in self.entries[members["since"] :] if named in (None, it["text"])]
            return {"entries": entries[: members.get("limit")]}
        return self.perform(members)

    def read(self, name: str, version: int | None) -> dict[str, Any]:
        history = self.histories[name]
        if version is None:
            version = len(history) - 1
        if version >= len(history):
            raise Refused("reason", "no version")
        return {"name": name, "text": history[version], "version": version}

    def listing(self) -> str:
        texts = [{"name": name, **text} for name, text in self.texts.items()]
        return json.dumps({"entries": self.entries, "refused": [], "texts": texts})


def refuse_constant(name: str) -> None:
    """JSON has no NaN and no Infinity, which Python reads without this."""
    raise ValueError(name)


class Service:
    """Replies to lines, by several threads in any order if there is more than one seat."""

    def __init__(self, book: Book, how: str) -> None:
        self.book, self.how = book, how
        self.lock = threading.Lock()

    def write(self, reply: bytes) -> None:
        sys.stdout.buffer.write(reply + b"\n")
        sys.stdout.buffer.flush()

    def reply(self, number: int, line: bytes) -> None:
        if number == 1 and self.how in FIRST_REPLIES:
            time.sleep(0.5)
            self.write(FIRST_REPLIES[self.how])
            return
        with self.lock:
            too_long = {"error": f"longer than {LONGEST} bytes"}
            reply = too_long if len(line.rstrip(b"\n")) > LONGEST else self.book.reply(line)
        time.sleep(random.random() / 2000)
        with self.lock:
            self.write(json.dumps(reply).encode())

    def serve(self, seats: int) -> int:
        with ThreadPoolExecutor(seats) as pool:
            for number, line in enumerate(sys.stdin.buffer, 1):
                if self.how == "ends" and number == 3:
                    return 4
                if self.how == "silent":
                    continue
                if seats == 1:
                    self.reply(number, line)
                else:
                    pool.submit(self.reply, number, line)
        return 0


def main(arguments: list[str]) -> int:
    *options, document = arguments
    chosen = dict(option.removeprefix("--").split("=") for option in options)
    try:
        book = Book(json.loads(Path(document).read_text()))
    except ValueError:
        print("stand_in: input: not JSON", file=sys.stderr)
        return 2
    if chosen.get("behave") == "deaf":
        time.sleep(600)
    status = Service(book, chosen.get("behave", "")).serve(int(chosen.get("seats", 1)))
    if "listing" in chosen:
        Path(chosen["listing"]).write_text(book.listing())
    return status


if __name__ == "__main__":
    sys.exit(main(sys.argv[2:]))
