"""Reads must-fail edits: files with a line `file: PATH` and pairs of lines `old: TEXT` and `new: TEXT`, and perhaps a line `law: FUNCTION`,
where an edit of a definition is one of a certain function's contract: it is tried in that function first. A line `goal: NAME` may name the
goal of the function that the edit makes false: the edit is then tried by that goal's answer first. Where the function's proof files have no
answer for it, a line `by: TERM` may say what proves that goal of the function as it stands, in place of what usually does. `by: search` says
that no answer shows the edit to be false, as where the function as it stands has no such goal: it is searched for at once.

PATH is below src/, specs/ or proofs/ of the crate, and each TEXT under `old:` stands in that file exactly once.
All other lines are comments. An edit lies right in crates/NAME/must-fail/ as NAME.edit, where `rt ci` tries it
alone, or in crates/NAME/must-fail/more/ as NAME.md."""
from __future__ import annotations

import os
from dataclasses import dataclass
from typing import Callable, Dict, List, Tuple


# What usually proves a goal for which a function's proof files have no answer.
USUAL = "grind (arith, common_steps)"
# What stands in the place of an answer where none is to be tried.
SEARCH = "search"


class DoesNotApply(Exception):
    """An edit cannot be applied to its crate; the message says why."""


@dataclass(frozen=True)
class Change:
    """A text of one file and what stands in its place after the edit."""

    path: str
    old: str
    new: str


@dataclass(frozen=True)
class Edit:
    """A must-fail edit: its crate, its name and its changes, in order; the function that it names, if it names one; and the goal that it
    names, and what proves that goal without the edit, if it says so."""

    crate: str
    name: str
    changes: Tuple[Change, ...]
    law: str = ""
    goal: str = ""
    by: str = ""

    @property
    def label(self) -> str:
        return f"{self.crate}/{self.name}"


def parse_edit(crate: str, name: str, text: str) -> Edit:
    """The edit that a file's text holds."""
    path = old = ""
    named = {"law": "", "goal": "", "by": ""}
    changes: List[Change] = []
    for line in text.split("\n"):
        if line.startswith("file: "):
            path = line[len("file: ") :].strip()
            if os.path.normpath(path) != path or not path.startswith(("src/", "specs/", "proofs/")):
                raise DoesNotApply("a 'file:' line names no file below src/, specs/ or proofs/")
        elif line.partition(": ")[0] in named:
            word, _, rest = line.partition(": ")
            named[word] = rest.strip()
        elif line.startswith("old: "):
            old = line[len("old: ") :]
        elif line.startswith("new:"):
            new = line[len("new:") :]
            if not path or not old:
                raise DoesNotApply("a 'new:' line stands before any 'file:' or 'old:' line")
            changes.append(Change(path, old, new[1:] if new.startswith(" ") else new))
            old = ""
    if not changes:
        raise DoesNotApply("it has no 'old:' and 'new:' pair")
    return Edit(crate, name, tuple(changes), **named)


def apply_edit(edit: Edit, text_of: Callable[[str], str]) -> Dict[str, str]:
    """The texts of the files that the edit changes, by path; `text_of` gives the text of a path."""
    texts: Dict[str, str] = {}
    for change in edit.changes:
        if change.path not in texts:
            texts[change.path] = text_of(change.path)
        found = texts[change.path].count(change.old)
        if found != 1:
            raise DoesNotApply(f"an 'old:' text is in {change.path} {found} times, and not once")
        texts[change.path] = texts[change.path].replace(change.old, change.new)
    return texts


def with_names(text: str, edit: Edit) -> str:
    """The text of an edit's file with the goal that the edit names, and what proves it where that is not what usually does."""
    lines = [it for it in text.split("\n") if not it.startswith(("goal: ", "by: "))]
    place = next(n for n, it in enumerate(lines) if it.startswith("file: ")) + 1
    lines[place:place] = [f"{word}: {it}" for word, it in (("goal", edit.goal), ("by", edit.by)) if it not in ("", USUAL)]
    return "\n".join(lines)


def edit_files(folder: str) -> List[Tuple[str, str]]:
    """The name and the path of each edit of the crate in a folder, those right in must-fail/ first."""
    found = []
    for below, ending in (("must-fail", ".edit"), ("must-fail/more", ".md")):
        place = os.path.join(folder, below)
        names = sorted(os.listdir(place)) if os.path.isdir(place) else []
        found += [(it[: -len(ending)], os.path.join(place, it)) for it in names if it.endswith(ending)]
    return found
