"""Reads what `rattle check` prints: the line of each function, and what stands in the way of its proof."""
from __future__ import annotations

import re
from dataclasses import dataclass, field
from typing import Dict, List, Optional, Set

LINE_OF_FUNCTION = re.compile(r"fn \w+::(\S+): (.*)")
PLACED = re.compile(r"(?:note: )?(?:\./)?(\S+?):(\d+):\d+: (.*)")
NAME_IS_GONE = re.compile(r"has no field|is not in scope|has no `|was not admitted")
NOT_TRIED = re.compile(r"\d+ declarations? that depends? on `[^`]*`, which was rejected")
# A declaration that is refused on purpose wherever it stands (edit_copies.py), and that no verdict rests on.
ON_PURPOSE = "no-answers-offered"
RESTS_ON = re.compile(r"depends? on `([^`]*)`, which was")
CANNOT_BE_READ = re.compile(r"is not in scope|has no field|is no name|operand is missing|expected the end|cannot continue")


@dataclass(frozen=True)
class Placed:
    """A line that the check placed in a file: an error, or a goal that is not proved."""

    file: str
    line: int
    text: str

    @property
    def is_error(self) -> bool:
        return self.text.startswith("error")

    @property
    def goal(self) -> str:
        """The goal or the declaration that it speaks of, as far as it names one."""
        found = re.match(r"error: `([^`]*)`: ", self.text) or re.search(r"\(`([^`]*)`\)", self.text)
        return found[1] if found else ""

    @property
    def is_of_shape(self) -> bool:
        """Whether it only says that a proof file names what is gone."""
        return self.file.startswith("proofs/") and bool(NAME_IS_GONE.search(self.text))

    @property
    def cannot_be_read(self) -> bool:
        """Whether it says that the text itself is no text of the language, so that no proof was tried."""
        found = re.match(r"error: (?:(`[^`]*`): )?(.*)", self.text)
        if not found or not self.file.startswith(("src/", "specs/")) or NOT_TRIED.match(found[2]):
            return False
        return not found[1] or bool(CANNOT_BE_READ.search(re.sub(r"`[^`]*`", "", found[2])))

    def __str__(self) -> str:
        return f"{self.file}:{self.line}: {self.text}"


@dataclass
class FunctionLine:
    """The line of a function, and the notes above it."""

    path: str
    text: str
    notes: List[Placed] = field(default_factory=list)

    @property
    def is_proved(self) -> bool:
        """Whether nothing stands in its way, save the proofs of others that were left out."""
        return self.text.startswith(("proved", "no holes", "depends on a hole"))

    @property
    def waits_for(self) -> Set[str]:
        """The functions that it calls, and that are not proved, where the line names no goal of its own."""
        if "expected answers" in self.text or "did not prove" in self.text:
            return set()
        _, found, calls = self.text.partition("it calls ")
        return {it.partition("::")[2] for it in re.findall(r"`([^`]+)`", calls)} if found else set()


@dataclass
class CheckOutput:
    """What a check printed."""

    status: int
    lines: List[str]
    functions: Dict[str, FunctionLine]
    errors: List[Placed]
    # The processor seconds of the check, and of each function's proof, where they were measured.
    seconds: float = 0.0
    seconds_of: Dict[str, float] = field(default_factory=dict)

    @property
    def reached_the_prover(self) -> bool:
        last = self.lines[-1] if self.lines else ""
        return last.startswith(("only=", "logic="))

    @property
    def unknown_function(self) -> Optional[str]:
        """The function that the check was asked for and doesn't know."""
        found = re.search(r"(?:has no function|no function|fits) `([^`]*)`", "\n".join(self.lines[-12:]))
        return found[1] if found and self.status == 2 else None

    def of_function(self, path: str) -> List[FunctionLine]:
        """The lines of a function and of the closures in it."""
        return [it for name, it in self.functions.items() if is_in(name, path)]

    def is_proved(self, path: str) -> bool:
        """Whether a function and the closures in it are proved."""
        lines = self.of_function(path)
        return bool(lines) and all(it.is_proved for it in lines)

    def seconds_for(self, path: str) -> float:
        """The processor seconds that the proofs of a function and of the closures in it took."""
        return sum(it for name, it in self.seconds_of.items() if is_in(name, path))

    def waits(self, line: FunctionLine) -> Set[str]:
        """The functions that a function waits for, less those whose proofs were only left out."""
        return {it for it in line.waits_for if it not in self.functions or not self.functions[it].is_proved}

    def faults_of(self, path: str) -> List[Placed]:
        """What stands in the way of a function's proof: errors in its own proof files, and in the lemmas that these rest on, then the
        goals that are not proved."""
        own = "proofs/" + path.replace("::", "/") + "/"
        notes = [note for it in self.of_function(path) for note in it.notes]
        faults = [it for it in self.errors if it.file.startswith(own)]
        return faults + self._errors_of_lemmas(faults) + notes

    def _errors_of_lemmas(self, faults: List[Placed]) -> List[Placed]:
        """The errors of the lemmas that these errors say their declarations rest on, and of those that these lemmas rest on in turn."""
        lemmas = {name for it in faults for name in RESTS_ON.findall(it.text)}
        rests = [(RESTS_ON.findall(it.text), set(re.findall(r"[^\s,()]+", it.text.partition("not checked: ")[2]))) for it in self.errors]
        while True:
            more = {name for names, unchecked in rests if unchecked & lemmas for name in names} - lemmas
            if not more:
                break
            lemmas |= more
        return [it for it in self.errors if re.match(r"error: `([^`]*)`: ", it.text) and it.text.split("`")[1] in lemmas]


def is_in(name: str, path: str) -> bool:
    """Whether a name is that of the function with this path, or of a closure in it."""
    return name == path or name.replace("fn::", "").startswith(path + "::")


def read_output(status: int, text: str) -> CheckOutput:
    """Takes apart what a check printed."""
    lines = text.rstrip("\n").split("\n")
    output = CheckOutput(status, lines, {}, [])
    notes: List[Placed] = []
    for line, after in zip(lines, [*lines[1:], ""]):
        function, placed = LINE_OF_FUNCTION.match(line), PLACED.match(line)
        if function:
            output.functions[function[1]] = FunctionLine(function[1], function[2], notes)
            notes = []
        elif placed:
            # What a record lacks stands on the line after it.
            more = " " + after.strip() if after.startswith("  has no ") else ""
            found = Placed(placed[1], int(placed[2]), placed[3] + more)
            if f"`{ON_PURPOSE}`" in found.text:
                continue
            if found.is_error:
                output.errors.append(found)
            elif line.startswith("note: "):
                notes.append(found)
    return output
