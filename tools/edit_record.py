"""The record of what ./edits found, the file edits.txt: a line for each crate whose must-fail edits were all refused, with how many they are
and a digest of all that this rests on. As long as the digest stays the same they need not be tried again.

It is made from the identity of the toolchain's logic, the crate's edits, code, definitions and proofs, the libraries that its line of
crates.txt names, and what it sees of each crate below: the definitions, and of the code all but comments, the bodies of functions and the
attributes that say how these are proved. Whatever is not plainly such a body counts as seen."""
from __future__ import annotations

import hashlib
import json
import os
import re
import subprocess
from typing import Dict, List

from edit_files import edit_files
from rattle_crates import KIT, Crate, below
from rattle_sources import Function, Sources

RECORD = "edits.txt"
# Where a run that only checks writes what it would have recorded.
CHECKED = "build/edits.txt"
HEAD = "# How many must-fail edits of each crate are refused, and a digest of what that rests on. ./edits writes this file.\n"
COMMENT = {"src": re.compile(r"(?m)^[ ]*//.*\n"), "specs": re.compile(r"(?m)^[ ]*--.*\n")}
LOGIC = re.compile(r"\blogic \w+")
HOW_PROVED = re.compile(r"(?m)^[ ]*#!?\[(?:tactic|cycle)\(.*\)\]\n")


def logic() -> str:
    """The identity of the toolchain's logic, on which verdicts rest, whatever kit it comes in."""
    return logic_in(subprocess.run([f"{KIT}/bin/rt", "version"], check=True, stdout=subprocess.PIPE, encoding="utf-8").stdout)


def logic_in(version: str) -> str:
    """The identity of the logic in what the toolchain says of its version."""
    found = LOGIC.search(version)
    if not found:
        raise ValueError(f"rt version names no logic: {version!r}")
    return found[0]


def digest_of(what: object) -> str:
    return hashlib.sha256(json.dumps(what, sort_keys=True).encode()).hexdigest()[:16]


def body_of(function: Function, sources: Sources) -> int:
    """Where the body of a function begins that others don't see, or the function's end where there is none that is plainly so."""
    text, body = sources.texts[function.file], sources.body_of(function)
    head = text[function.start : body]
    indent = re.match(r"[ \t]*", head)[0]
    # (a body on the line of its function ends there, and what follows is another item's)
    is_plain = body and not re.search(rf"(?m)^{indent}\S.*}}[ ]*$", head) and not re.search(r"\bconst\b.*\bfn\b", head)
    return body if is_plain else function.end


def without_bodies(file: str, sources: Sources) -> str:
    """The text of a file of code without the bodies of functions."""
    text, parts, end = sources.texts[file], [], 0
    for it in sorted((it for it in sources.functions if it.file == file), key=lambda it: it.start):
        body = body_of(it, sources)
        if end <= it.start and body < it.end:
            parts.append(text[end:body])
            end = it.end
    return "".join(parts) + text[end:]


def seen_from_above(sources: Sources) -> Dict[str, str]:
    """What the crates above see of a crate."""
    seen = {it: text for it, text in sources.texts.items() if it.startswith("specs/")}
    seen.update({it: HOW_PROVED.sub("", without_bodies(it, sources)) for it in sources.texts if it.startswith("src/")})
    return {it: COMMENT[it.split("/")[0]].sub("", text) for it, text in seen.items()}


class Digests:
    """The digests of crates, as their files are when they are first read."""

    def __init__(self, crates: Dict[str, Crate], logic: str):
        self.crates, self.logic = crates, logic
        self.sources: Dict[str, Sources] = {}
        self.seen: Dict[str, str] = {}

    def line_of(self, crate: Crate) -> str:
        """What the record says of a crate, behind its name, where all its edits are refused."""
        edits = []
        for name, file in edit_files(crate.folder):
            with open(file, encoding="utf-8", errors="replace") as it:
                edits.append((name, it.read()))
        under = {it.name: self._seen(it) for it in below(crate, self.crates)}
        rests_on = [self.logic, crate.crates, crate.libraries, self._sources(crate).texts, sorted(edits), under]
        return f"{len(edits)} refused, {digest_of(rests_on)}"

    def _sources(self, crate: Crate) -> Sources:
        if crate.name not in self.sources:
            self.sources[crate.name] = Sources.of_folder(crate.folder)
        return self.sources[crate.name]

    def _seen(self, crate: Crate) -> str:
        if crate.name not in self.seen:
            self.seen[crate.name] = digest_of(seen_from_above(self._sources(crate)))
        return self.seen[crate.name]


class Record:
    """What edits.txt says of the crates that have edits. What a run finds of some of them is written there too, or to another place."""

    def __init__(self, top: str, crates: Dict[str, Crate], chosen: List[Crate], logic: str, place: str = RECORD):
        self.crates, self.logic, self.place = crates, logic, f"{top}/{place}"
        digests = Digests(crates, logic)
        self.now = {it.name: digests.line_of(it) for it in chosen}
        self.given = {name: line for name, line in read_lines(f"{top}/{RECORD}").items() if name in crates and edit_files(crates[name].folder)}
        self.lines, self.disturbed = dict(self.given), []

    def stands(self, crate: Crate) -> bool:
        """Whether nothing that the verdicts on a crate's edits rest on has changed since it was recorded that all are refused."""
        return self.given.get(crate.name) == self.now[crate.name]

    def put(self, crate: Crate, is_refused: bool) -> None:
        """Records whether all edits of a crate are refused, where its files are still those that the run began with."""
        if Digests(self.crates, self.logic).line_of(crate) != self.now[crate.name]:
            self.disturbed.append(crate.name)
            return
        self.lines.pop(crate.name, None)
        if is_refused:
            self.lines[crate.name] = self.now[crate.name]
        os.makedirs(os.path.dirname(self.place), exist_ok=True)
        with open(self.place, "w", encoding="utf-8") as it:
            it.write(HEAD + "".join(f"{name}: {line}\n" for name, line in sorted(self.lines.items())))

    def new(self) -> List[str]:
        """The crates that the record has another line for now."""
        return [name for name, line in self.lines.items() if line != self.given.get(name)]


def read_lines(file: str) -> Dict[str, str]:
    """What a record says of each crate."""
    if not os.path.isfile(file):
        return {}
    with open(file, encoding="utf-8", errors="replace") as it:
        return dict(line.rstrip("\n").split(": ", 1) for line in it if ": " in line)
