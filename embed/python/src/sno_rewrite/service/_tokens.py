"""The tokens that clients give, from a file: one token, or a list of names with what each may do."""

from __future__ import annotations

import hashlib
import hmac
import json
import re
import tomllib
from pathlib import Path
from typing import Any

from ._accounts import RIGHTS, Account

# Lists are short: each token that is given is compared with all.
_MOST, _MOST_GLOBS = 1_000, 100
_MEMBERS = {"name", "sha256", "rights", "texts"}


class TokenFault(Exception):
    """The file of the tokens has a fault."""


class Tokens:
    """The accounts of a file, by the sums of their tokens."""

    def __init__(self, token_file: Path | None, list_file: Path | None, rate: int | None) -> None:
        """Reads one of the two files. With neither, no token is wanted. TokenFault is raised if it can't be read."""
        self._token_file, self._list_file, self._rate = token_file, list_file, rate
        self._accounts: dict[bytes, Account] = {}
        self.load()

    def are_wanted(self) -> bool:
        return self._token_file is not None or self._list_file is not None

    def load(self) -> None:
        """Reads the file again. If it has a fault, TokenFault is raised, and the tokens are as before."""
        found: dict[bytes, dict[str, Any]] = {}
        if self._list_file is not None:
            found = _listed(self._list_file)
        elif self._token_file is not None:
            digest = hashlib.sha256(_token_in(self._token_file).encode()).digest()
            found[digest] = {"name": "token", "rights": sorted(RIGHTS), "texts": ["*"]}
        accounts: dict[bytes, Account] = {}
        for digest, row in found.items():
            account = accounts[digest] = self._accounts.get(digest) or Account(self._rate, row["name"])
            account.name, account.rights, account.texts = row["name"], frozenset(row["rights"]), tuple(row["texts"])
        for digest in self._accounts.keys() - accounts.keys():
            # Who has it may do nothing from now on.
            self._accounts[digest].rights = frozenset()
        self._accounts = accounts

    def has(self, account: Account) -> bool:
        """Whether an account is still in the file."""
        return any(each is account for each in self._accounts.values())

    def account(self, given: object) -> Account | None:
        """The account of a token, in a time that doesn't depend on which it is, or on where it differs from the others."""
        if not isinstance(given, str):
            return None
        digest, found = hashlib.sha256(given.encode(errors="replace")).digest(), None
        for each, account in self._accounts.items():
            if hmac.compare_digest(each, digest):
                found = account
        return found


def _token_in(path: Path) -> str:
    try:
        token = path.read_text().strip()
    except (OSError, UnicodeDecodeError) as fault:
        raise TokenFault(f"{path}: {fault}") from None
    if not re.fullmatch(r"[A-Za-z0-9._~+/=-]{16,512}", token):
        raise TokenFault(f"{path}: a token has 16 to 512 of the characters A-Z a-z 0-9 . _ ~ + / = -")
    return token


def _listed(path: Path) -> dict[bytes, dict[str, Any]]:
    """The rows of a list, which is TOML, or JSON if its name ends so."""
    try:
        written = path.read_text()
        members = json.loads(written) if path.suffix == ".json" else tomllib.loads(written)
    except (OSError, ValueError, RecursionError) as fault:
        raise TokenFault(f"{path}: {fault}") from None
    rows = members.get("token") if isinstance(members, dict) else None
    if not isinstance(rows, list) or not 0 < len(rows) <= _MOST or len(members) > 1:
        raise TokenFault(f"{path}: 'token' is a list of 1 to {_MOST}, and nothing else is there")
    found: dict[bytes, dict[str, Any]] = {}
    for number, row in enumerate(rows, 1):
        whole = {"rights": ["read"], "texts": ["*"], **row} if isinstance(row, dict) else {}
        if what := _fault_of(whole):
            raise TokenFault(f"{path}: token {number}: {what}")
        digest = bytes.fromhex(whole["sha256"])
        if digest in found or any(each["name"] == whole["name"] for each in found.values()):
            raise TokenFault(f"{path}: token {number}: its name or its sum is there twice")
        found[digest] = whole
    return found


def _fault_of(row: dict[str, Any]) -> str | None:
    """What is wrong with a row, if something is."""
    if unknown := row.keys() - _MEMBERS:
        return f"unknown member {sorted(unknown)[0]}"
    if not isinstance(row.get("name"), str) or not re.fullmatch(r"[A-Za-z0-9._@-]{1,64}", row["name"]):
        return "name has 1 to 64 of the characters A-Z a-z 0-9 . _ @ -"
    if not isinstance(row.get("sha256"), str) or not re.fullmatch(r"[0-9a-fA-F]{64}", row["sha256"]):
        return "sha256 has 64 digits"
    if not isinstance(row["rights"], list) or not {*map(str, row["rights"])} <= RIGHTS:
        return "rights are of read, edit and admin"
    texts = row["texts"]
    if not isinstance(texts, list) or len(texts) > _MOST_GLOBS or not all(isinstance(each, str) for each in texts):
        return f"texts are at most {_MOST_GLOBS} globs"
    return None
