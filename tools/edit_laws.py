"""Copies of laws. An edit of definitions is tried in a copy of the law that it breaks, where there can be one, so that edits of definitions
share a check as those of functions do. The copy rests on copies of the files of specs/ and proofs/ that the edit changes, or that rest on
such files, as far as the law rests on them; each file has a name of its own. Beside it stands a copy of the law with no edit, which must be
proved. Those with no edit share one copy of each file that any edit's copy has.

There is a copy of a law whose function does nothing, where those files name nothing that is made of the crate's functions: the contract of
one may speak of what the edit changes. A copy is an edit's own, so it disturbs no other, and what is not refused in it is tried in its place."""
from __future__ import annotations

import re
from dataclasses import dataclass
from typing import Dict, List, Optional, Set, Tuple

from edit_copies import Copy, answers_of
from edit_files import Edit, apply_edit
from rattle_sources import Function, Sources, start_with_attributes

FILE = re.compile(r"(specs|proofs)/(\w+)\.antt")
ITEM = r"ghost use Rattle\.{crate}\.specs\.(\w+)\.\{{([^}}]*)\}};"


NO_EDIT = "with_no_edit"


@dataclass
class Laws:
    """The copies of a crate's laws."""

    crate: str
    sources: Sources

    def __post_init__(self) -> None:
        self.files = [it for it in self.sources.texts if FILE.fullmatch(it)]
        self.parts = {it: self._named(self.sources.texts[it]) for it in self.files}
        src = [it for file, it in self.sources.texts.items() if file.startswith("src/")]
        made = ["specs.contracts", *["specs.declared"] * any(re.search(r"(?m)^[ ]+ghost \w+:", it) for it in src)]
        made += [f"proofs.{it.path.replace('::', '.')}" for it in self.sources.functions]
        self.of_functions = re.compile(rf"Rattle\.{self.crate}\.(?:{'|'.join(re.escape(it) for it in made)})(?=[.\s{{])")

    def _named(self, text: str) -> Set[str]:
        """The files of definitions and lemmas that a text names."""
        found = re.findall(rf"Rattle\.{self.crate}\.(specs|proofs)\.(\w+)", text)
        return {f"{part}/{name}.antt" for part, name in found} & {*self.files}

    def copies(self, edits: Dict[int, Tuple[Edit, Function]]) -> Dict[int, Copy]:
        """Copies of laws with edits of definitions, by their numbers, for those where there can be one."""
        copied = {number: self._copied(*it) for number, it in edits.items()}
        laws = [law for number, (_, law) in edits.items() if copied[number]]
        every = self._above(set().union(*copied.values()), set().union(*map(self._rests, laws)))
        controls = {law.path: self._copy(law, NO_EDIT, every, self.sources.texts) for law in laws}
        found = {}
        for number, (edit, law) in edits.items():
            if copied[number]:
                texts = {**self.sources.texts, **apply_edit(edit, self.sources.texts.__getitem__)}
                found[number] = self._copy(law, f"edit_{number}", copied[number], texts, controls[law.path])
        return found

    def _copied(self, edit: Edit, law: Function) -> Set[str]:
        """The files that a copy of a law with an edit of definitions has copies of; none where there can be no copy."""
        changed = {it.path for it in edit.changes}
        below = self._rests(law)
        if not changed <= below or not self._is_plain(law):
            return set()
        copied = self._above(changed, below)
        answers = self.sources.texts.get(answers_of(law), "")
        answers = re.sub(rf"Rattle\.{self.crate}\.proofs\.{law.path.replace('::', '.')}\.Goals\b", "", answers)
        rests = [answers, *(self.sources.texts[it] for it in copied)]
        return set() if any(self.of_functions.search(it) for it in rests) else copied

    def _rests(self, law: Function) -> Set[str]:
        """The files that a law rests on: those of what it says, and of what proves it."""
        answers = self.sources.texts.get(answers_of(law), "")
        return self._below(self._named(answers) | {file for file, _ in self._stated(law)})

    def _is_plain(self, law: Function) -> bool:
        """Whether a function does nothing, and its proof has no file but its answers."""
        folder = answers_of(law)[: -len("Answers.antt")]
        files = {it for it in self.sources.texts if it.startswith(folder)}
        text = self.sources.texts[law.file][law.start : law.end]
        return bool(re.search(r"\{\s*\}\s*$", text)) and files <= {answers_of(law)}

    def _stated(self, law: Function) -> List[Tuple[str, str]]:
        """The names of definitions in a law, each after its file."""
        words = {*re.findall(r"\w+", self.sources.texts[law.file][law.start : law.end])}
        items = re.findall(ITEM.format(crate=self.crate), self.sources.texts[law.file])
        return [(f"specs/{module}.antt", name) for module, names in items for name in re.findall(r"\w+", names) if name in words]

    def _below(self, files: Set[str]) -> Set[str]:
        """Some files and those that they rest on."""
        found: Set[str] = set()
        left = [*files]
        while left:
            it = left.pop()
            if it not in found:
                found.add(it)
                left += self.parts[it]
        return found

    def _above(self, files: Set[str], within: Set[str]) -> Set[str]:
        """Some files and those that rest on them, among others."""
        found = {*files}
        while True:
            more = {it for it in within - found if self.parts[it] & found}
            if not more:
                return found
            found |= more

    def _copy(self, law: Function, ending: str, copied: Set[str], texts: Dict[str, str], control: Optional[Copy] = None) -> Copy:
        """A copy of a law and of these files, whose names have this ending."""
        modules = "|".join(rf"{part}\.{name}" for part, name in (FILE.fullmatch(it).groups() for it in sorted(copied)))
        named = re.compile(rf"(Rattle\.{self.crate}\.(?:{modules}))(?![\w-])")
        proofs = {it.replace(".antt", f"_{ending}.antt"): named.sub(rf"\1_{ending}", texts[it]) for it in copied}
        path = f"{law.path}_{ending}"
        if answers_of(law) in texts:
            own = re.compile(rf"(?<=\.proofs\.){re.escape(law.path.replace('::', '.'))}(?=\.)")
            answers = own.sub(path.replace("::", "."), texts[answers_of(law)])
            proofs[f"proofs/{path.replace('::', '/')}/Answers.antt"] = named.sub(rf"\1_{ending}", answers)
        code = texts[law.file]
        text = code[start_with_attributes(code, law.start) : law.end]
        items = ""
        for file, name in self._stated(law):
            if file in copied:
                module = FILE.fullmatch(file)[2]
                items += f"ghost use Rattle.{self.crate}.specs.{module}_{ending}.{{{name} as {name}_{ending}}};\n"
                text = re.sub(rf"(?<![\w.]){name}(?![\w.])", f"{name}_{ending}", text)
        text = re.sub(rf"\bfn[ ]+{law.name}\b", f"fn {law.name}_{ending}", text, count=1)
        return Copy(path, f"{items}\n{text}", proofs, control)


def with_modules(texts: Dict[str, str], copies: List[Copy], sources: Sources) -> Dict[str, str]:
    """These texts, in which the files of copies are declared as modules."""
    texts = dict(texts)
    for part, word in ("specs", "pub mod"), ("proofs", "mod"):
        lib = f"{part}/Lib.antt"
        names = dict.fromkeys(found[2] for it in copies for found in map(FILE.fullmatch, it.proofs) if found and found[1] == part)
        if names:
            texts[lib] = texts.get(lib, sources.texts.get(lib, "")).rstrip("\n") + "".join(f"\n{word} {it}" for it in names) + "\n"
    return texts
