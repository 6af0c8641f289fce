"""Which functions of a crate rest on a definition of it: by their contracts, by what they are proved with, or by other definitions and
lemmas. A name is followed as the files' `use` lines say: to what it stands for in its own file, and in those that the file takes it
from. Where a file takes a module whole, or names one in the midst of its text, each word of it may be a name of that module."""
from __future__ import annotations

import re
from typing import Dict, Iterator, List, Set, Tuple

from rattle_sources import Sources, definitions_in, is_of_function, words_of

Name = Tuple[str, str]
MODULE = r"Rattle\.\w+\.(specs|proofs)\.([^\s{};()]+?)"
IMPORT = re.compile(rf"(?m)^[ ]*(?:pub[ ]+)?(?:ghost[ ]+)?use[ ]+{MODULE}(?:\.\{{([^}}]*)\}}|[ ]+as[ ]+\S+?)?;?[ ]*$")
WITHIN = re.compile(rf"{MODULE}(?=[\s{{}};()]|$)")


class Names:
    """The names of a crate's definitions and lemmas, each with its file, and those that it is made of."""

    def __init__(self, sources: Sources):
        self.sources = sources
        self.parts: List[Tuple[Name, str]] = []
        for file, text in sources.texts.items():
            if file.endswith(".antt") and not is_of_function(file):
                self.parts += [((file, name), without_comments(part)) for name, part in definitions_in(text)]
        self.defined = {name for name, _ in self.parts}
        self.imports = {file: imports_of(text) for file, text in sources.texts.items()}
        # What each name is a part of: other names, and functions by their paths; a file's path stands for what in it is in no function.
        self.users: Dict[Name, Set[Name]] = {}
        self.functions: Dict[Name, Set[str]] = {}
        for (file, name), part in self.parts:
            self._use(self._named(file, part), self.users, (file, name))
        for file, (names, _) in self.imports.items():
            # A name may be taken from a file that has it from another one.
            for word, found in names.items():
                self._use(found, self.users, (file, word))
        for file, text in sources.texts.items():
            if is_of_function(file):
                self._use(self._named(file, text), self.functions, "::".join(file.split("/")[1:-1]))
            elif file.startswith("src/"):
                self._use(self._named(file, sources.outside(file)), self.functions, file)
        for it in sources.functions:
            self._use(self._named(it.file, sources.texts[it.file][it.start : it.end]), self.functions, it.path)

    @staticmethod
    def _use(found: Set[Name], users: Dict[Name, Set], user) -> None:
        for it in found:
            users.setdefault(it, set()).add(user)

    def resting_on(self, file: str, definition: str) -> Set[str]:
        """The functions that rest on the definition of a file."""
        found, left = set(), [(file, definition)]
        while left:
            name = left.pop()
            if name not in found:
                found.add(name)
                left += self.users.get(name, ())
        return set().union(*(self.functions.get(it, ()) for it in found))

    def _named(self, file: str, text: str) -> Set[Name]:
        """What a text of a file may name."""
        words, (names, whole) = words_of(text), self.imports[file]
        files = {file, *whole, *(it for found in WITHIN.finditer(text) for it in files_of(found[1], found[2]))}
        return {(at, word) for at in files for word in words if (at, word) in self.defined}.union(*(names[it] for it in words if it in names))


def files_of(part: str, path: str) -> Iterator[str]:
    """The files that the path of a module, or of something in one, may stand for."""
    parts = path.split(".")
    for count in range(1, len(parts) + 1):
        yield f"{part}/{'/'.join(parts[:count])}.antt"


def imports_of(text: str) -> Tuple[Dict[str, Set[Name]], Set[str]]:
    """What each word stands for that a file's `use` lines bring, and the files whose modules they take whole."""
    names: Dict[str, Set[Name]] = {}
    whole: Set[str] = set()
    for it in IMPORT.finditer(text):
        files = [*files_of(it[1], it[2])]
        if it[3] is None:
            whole.update(files)
            continue
        for item in it[3].split(","):
            name, _, alias = item.strip().partition(" as ")
            names.setdefault(alias.strip() or name, set()).add((files[-1], name))
    return names, whole


def without_comments(text: str) -> str:
    return re.sub(r"(?m)^[ ]*--[ ].*$", "", text)
