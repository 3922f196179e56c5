"""What `sno check`, `sno serve` and `sno trace` say of one statement on one text, by processes of their own: none of them touches the
desk of all clients, takes longer than its limits, or runs beside too many others."""

from __future__ import annotations

import asyncio
import json
import re
from asyncio.subprocess import PIPE
from collections.abc import Sequence
from pathlib import Path
from typing import Any

from ._options import Options
from ._text_desks import TextDesk, TextDesks, Texts, ended

_MEMBERS = "text", "pattern", "object", "anchored", "repeat", "all"
_TRACE_LINES = 1_000
# The member of what is found that says how many seconds the program took. It goes into a header.
PROGRAM = "program seconds"
# The most matches that a preview lists beside its entry.
_MOST_MATCHES = 5_000
# The most texts on which one request may try a pattern.
MOST_TRIED = 64
# How many may wait for each one that runs.
_WAITING = 8


class Busy(Exception):
    """Too many looks are waiting."""


def definitions_of(document: Path) -> list[Any]:
    """The definitions of a document; `sno serve` has found it valid, or will not start."""
    try:
        members = json.loads(document.read_bytes())
    except (OSError, ValueError, RecursionError):
        return []
    found = members.get("patterns", []) if isinstance(members, dict) else []
    return found if isinstance(found, list) else []


class Looks:
    """Looks at statements, a few at a time."""

    def __init__(self, options: Options) -> None:
        self._options = options
        self._patterns = definitions_of(options.document)
        self._running = asyncio.Semaphore(options.look_processes)
        self._count = 0
        self._desks = TextDesks(options, lambda texts: self._document(texts, []))
        self._kinds = {"findings": self._findings, "preview": self._preview, "trace": self._trace, "trials": self._trials}

    def definitions(self) -> list[Any]:
        """The definitions that statements may use."""
        return self._patterns

    def free_name(self, name: str) -> str:
        """A name that begins with this one and that no definition has."""
        taken = {pattern.get("name") for pattern in self._patterns if isinstance(pattern, dict)}
        while name in taken:
            name += "_"
        return name

    def under_way(self) -> int:
        return self._count

    async def end(self) -> None:
        """Ends the processes that are kept for further looks."""
        await self._desks.end()

    async def look(self, which: str, text: str, given: dict[str, Any]) -> dict[str, Any]:
        """What is found of a statement on a text of these characters."""
        name = given["text"] if "own" not in given else "own"
        chosen = {member: given[member] for member in _MEMBERS if given.get(member) is not None}
        chosen["text"] = name
        return await self._in_turn(self._kinds[which]([{"name": name, "text": text}], chosen, given))

    async def tries(self, texts: list[str], given: dict[str, Any]) -> dict[str, Any]:
        """Whether a pattern matches these texts somewhere, and whether it matches the whole of them."""
        named = [{"name": str(place), "text": text} for place, text in enumerate(texts)]
        return await self._in_turn(self._tries(named, given))

    async def _in_turn(self, found: Any) -> dict[str, Any]:
        """Waits until fewer processes run."""
        if self._count >= self._options.look_processes * (_WAITING + 1):
            found.close()
            raise Busy
        self._count += 1
        try:
            async with self._running:
                result: dict[str, Any] = await found
                return result
        finally:
            self._count -= 1

    def _document(self, texts: Texts, statements: list[dict[str, Any]]) -> bytes:
        return json.dumps({"patterns": self._patterns, "texts": texts, "statements": statements}).encode()

    async def _findings(self, texts: Texts, chosen: dict[str, Any], given: dict[str, Any]) -> dict[str, Any]:
        """The errors and warnings of the statement; those of the definitions aren't its own."""
        _, output, _ = await self._run(["check", "--json"], self._document(texts, [chosen]))
        if not output:
            return {"errors": [], "warnings": [], "reason": "too long"}
        report = json.loads(output)
        errors = [it for it in report["errors"] if str(it["fault"]).startswith("statement 1:")]
        warnings = [it for it in report["warnings"] if str(it["place"]).startswith("statement 1")]
        return {"errors": errors, "warnings": warnings}

    async def _preview(self, texts: Texts, chosen: dict[str, Any], given: dict[str, Any]) -> dict[str, Any]:
        """The entry that the statement would be, or why it would be refused; if it is asked for, all matches that there are. If these
        take too long, the entry is there without them."""
        line = {**chosen, "check": True, **({"bind": given["bind"]} if given.get("bind") is not None else {})}
        found: dict[str, Any] = {}
        try:
            async with self._desks.desk(texts) as desk:
                began = desk.seconds
                reply = await desk.ask(line)
                found.update(self._previewed(reply, desk.seconds - began))
                if given.get("matches") is True and ("entry" in found or found.get("reason") == "text too long"):
                    found.update(await self._matches(desk, line, found.get("entry", {"matched": True})))
                return {**found, PROGRAM: desk.seconds}
        except TimeoutError:
            return {**(found or {"reason": "too long"}), "seconds": self._options.look_seconds}

    def _previewed(self, reply: dict[str, Any], seconds: float) -> dict[str, Any]:
        if "error" in reply:
            return {"error": reply["error"]}
        findings = {"findings": reply["findings"]} if "findings" in reply else {}
        if "reason" in reply:
            given_up = {"trials": self._options.look_trials} if reply["reason"] == "too many trials" else {}
            return {"reason": reply["reason"], **given_up, **findings}
        entry = {name: value for name, value in reply.items() if name not in ("check", "findings", "id", "ignored")}
        return {"entry": entry, "microseconds": round(seconds * 1e6), **findings}

    async def _matches(self, desk: TextDesk, line: dict[str, Any], entry: dict[str, Any]) -> dict[str, Any]:
        """All matches in the text as it is. An entry for all of them has them already."""
        if "all" in entry:
            return {"total": len(entry["all"])}
        if not entry["matched"]:
            matches = []
        else:
            kept = {name: value for name, value in line.items() if name not in ("object", "repeat")}
            reply = await desk.ask({**kept, "all": True})
            if "all" not in reply:
                return {}
            matches = reply["all"]
        return {"matches": matches[:_MOST_MATCHES], "total": len(matches)}

    async def _trials(self, texts: Texts, chosen: dict[str, Any], given: dict[str, Any]) -> dict[str, Any]:
        """How many trials the statement takes: the least limit within which it isn't refused."""
        # What is put in takes no trial, but further rounds are on the new text.
        line = {name: value for name, value in chosen.items() if name != "object" or chosen.get("repeat") is not None}
        most = self._options.look_trials
        try:
            async with self._desks.desk(texts) as desk:
                low, high = 0, 1
                while (reply := await desk.ask({**line, "check": True, "trials": high})).get("reason") == "too many trials" and high < most:
                    low, high = high, min(2 * high, most)
                if "matched" not in reply:
                    return {"reason": reply["reason"], "trials": most} if "reason" in reply else {"error": reply["error"]}
                while low + 1 < high:
                    middle = (low + high) // 2
                    reply = await desk.ask({**line, "check": True, "trials": middle})
                    low, high = (middle, high) if "reason" in reply else (low, middle)
                return {"trials": high}
        except TimeoutError:
            return {"reason": "too long", "seconds": self._options.look_seconds}

    async def _trace(self, texts: Texts, chosen: dict[str, Any], given: dict[str, Any]) -> dict[str, Any]:
        """The lines of the trace."""
        words = [f"--{name}={given[name]}" for name in ("match", "from", "to") if type(given.get(name)) is int]
        status, output, said = await self._run(["trace", f"--lines={_TRACE_LINES}", *words], self._document(texts, [chosen]))
        if status not in (0, 1):
            return {"error": _fault_in(said)}
        return {"lines": output.decode(errors="replace").splitlines()}

    async def _tries(self, texts: Texts, given: dict[str, Any]) -> dict[str, Any]:
        # A pattern within parentheses means the same; the ends around it are those of the text.
        whole = {"pattern": f"POS(0) ({given['pattern']}) RPOS(0)", "anchored": True}
        somewhere = {"pattern": given["pattern"], "anchored": given.get("anchored") is True}
        try:
            async with self._desks.desk(texts) as desk:
                results = []
                for text in texts:
                    first = await desk.ask({"text": text["name"], **somewhere, "check": True})
                    if "error" in first:
                        return {"error": first["error"]}
                    second = await desk.ask({"text": text["name"], **whole, "check": True})
                    results.append({"somewhere": first.get("matched"), "whole": second.get("matched")})
                return {"results": results}
        except TimeoutError:
            return {"reason": "too long", "seconds": self._options.look_seconds}

    async def _run(self, words: Sequence[str], document: bytes) -> tuple[int | None, bytes, bytes]:
        """The status, output and errors of the program; the status is None if it took too long."""
        process = await asyncio.create_subprocess_exec(
            self._options.program, *words, stdin=PIPE, stdout=PIPE, stderr=PIPE, start_new_session=True
        )
        try:
            async with asyncio.timeout(self._options.look_seconds):
                output, said = await process.communicate(document)
        except TimeoutError:
            return None, b"", b"took too long"
        finally:
            await ended(process)
        return process.returncode, output, said


def _fault_in(said: bytes) -> str:
    """The first line of what a program says of its input, without the number of the only statement."""
    line = said.decode(errors="replace").partition("\n")[0]
    return re.sub(r"^statement 1: ", "", line)
