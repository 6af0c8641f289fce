"""Finds the functions in the sources of a crate, with their paths as a check prints them."""
from __future__ import annotations

import functools
import os
import re
from dataclasses import dataclass
from typing import Dict, Iterator, List, Optional, Set, Tuple

FUNCTION = re.compile(r"(?m)^([ \t]*)(?:pub(?:\([^)]*\))?[ ]+)?(?:(?:const|unsafe|final)[ ]+)*fn[ ]+(\w+)")
TYPE = re.compile(r"(?m)^[ ]*(?:pub(?:\([^)]*\))?[ ]+)?(?:struct|enum|union)[ ]+(\w+)")
BLOCK = re.compile(r"(?m)^(?:pub(?:\([^)]*\))?[ ]+)?(impl|trait)\b([^{]*)")
WORDS_BEFORE = r"(?:(?:pub|abbrev|unfoldable|opaque|data|record|ruleset)[ ]+)*"
SIGNATURE = re.compile(rf"(?m)^{WORDS_BEFORE}([^\s:(){{}},]+)(?:[ ]+[({{][^)}}\n]*[)}}])*[ ]*:(?=\s)")
CYCLE = re.compile(r"#\[cycle\((\w+)\)\]")
INNER = re.compile(r"(?m)^[ ]+([^\s:(){},]+)(?:[ ]+[({][^)}\n]*[)}])*[ ]*:\s")


@dataclass(frozen=True)
class Function:
    """A function of a crate: its path below the crate, where its text lies, its clauses included, and whether a trait names it."""

    path: str
    file: str
    start: int
    end: int
    is_of_trait: bool = False

    @property
    def name(self) -> str:
        return self.path.split("::")[-1]


def module_of(file: str) -> List[str]:
    """The path of the module that a file below src/ holds."""
    parts = file[len("src/") : -len(".rt")].split("/")
    if parts[-1] in ("lib", "main", "mod"):
        parts.pop()
    return parts


def without_parameters(text: str) -> str:
    """A type or a bound without what stands in angle brackets."""
    while re.search(r"<[^<>]*>", text):
        text = re.sub(r"<[^<>]*>", "", text)
    return text


def leading_parameters(text: str) -> int:
    """Where the parameters that a text begins with end."""
    depth = 0
    for at, letter in enumerate(text):
        depth += (letter == "<") - (letter == ">")
        if depth == 0:
            return at + 1 if letter == ">" else 0
    return 0


def block_name(kind: str, head: str) -> str:
    """How a check names an `impl` or `trait` block: the type, and then what stands of the trait."""
    head = re.split(r"\bwhere\b", head.strip())[0].strip()
    if kind == "trait":
        return re.match(r"\w*", head)[0]
    start = leading_parameters(head)
    own, head = re.findall(r"[<,]\s*(?:const\s+)?(\w+)", head[:start]), head[start:].strip()
    trait, is_of_trait, of_type = head.partition(" for ")
    name = without_parameters(of_type if is_of_trait else trait).strip().split("::")[-1].strip()
    if is_of_trait:
        # (a check leaves out the block's own parameters)
        plain = re.sub(rf"\b({'|'.join(own)})\b" if own else "$^", "", re.sub(r"(\w+::)+", "", trait))
        name += re.sub(r"[^\w]", "", plain)
    return name


def end_of_declaration(text: str) -> int:
    """Where a function of a trait ends: at the semicolon of one that has no body, else with the text."""
    depth = 0
    for at, letter in enumerate(text):
        depth += (letter in "([{") - (letter in ")]}")
        if letter == ";" and depth == 0:
            return at + 1
    return len(text)


@functools.lru_cache(maxsize=4096)
def types_in(text: str) -> Tuple[str, ...]:
    """The names of the types that a file defines."""
    return tuple(it[1] for it in TYPE.finditer(text))


@functools.lru_cache(maxsize=4096)
def functions_in(file: str, text: str, types: Tuple[Tuple[str, Tuple[str, ...]], ...]) -> Tuple[Function, ...]:
    """The functions of a file of this text, where the types of the crate stand in these modules. Most texts of an edited crate are those that it
    has without the edit, so what was found in them is kept."""
    modules, found = dict(types), []
    blocks = [(it.start(), block_name(it[1], it[2]), it[1], it[2]) for it in BLOCK.finditer(text)]
    for it in FUNCTION.finditer(text):
        close = re.compile(rf"(?m)^{it[1]}(?:}}|{{}})[ ]*$|^{it[1]}\{{.*}}$").search(text, it.end())
        above = [block for block in blocks if block[0] < it.start()]
        path, is_of_trait = module_of(file), False
        end = close.end() if close else len(text)
        if it[1] and above:
            _, name, kind, head = above[-1]
            is_of_trait = kind == "trait" or " for " in head
            if kind == "impl" and " for " not in head:
                # (the functions of a type stand in the module of the type, those of a trait where its impl does)
                of_type = [known for known in modules if name.startswith(known)]
                path = modules.get(max(of_type, key=len, default=""), path)
            path = [*path, name]
            end = it.start() + end_of_declaration(text[it.start() : end]) if kind == "trait" else end
        found.append(Function("::".join([*path, it[2]]), file, it.start(), end, is_of_trait))
    return tuple(found)


class Sources:
    """The texts of a crate and its functions."""

    def __init__(self, texts: Dict[str, str]):
        self.texts = texts
        self.modules = self._modules_of_types()
        types = tuple((name, tuple(path)) for name, path in self.modules.items())
        files = [it for it in sorted(texts) if it.startswith("src/") and it.endswith(".rt")]
        self.functions = [it for file in files for it in functions_in(file, texts[file], types)]

    @classmethod
    def of_folder(cls, folder: str) -> "Sources":
        texts = {}
        for part in ("src", "specs", "proofs"):
            for at, _, names in os.walk(os.path.join(folder, part)):
                for name in names:
                    with open(os.path.join(at, name), encoding="utf-8") as it:
                        texts[os.path.relpath(os.path.join(at, name), folder)] = it.read()
        return cls(texts)

    def _modules_of_types(self) -> Dict[str, List[str]]:
        found: Dict[str, List[str]] = {}
        for file, text in sorted(self.texts.items()):
            if file.startswith("src/"):
                for it in types_in(text):
                    found.setdefault(it, module_of(file))
        return found

    def with_bodies(self) -> List[str]:
        """The functions that have a body and a proof of their own: not tests, the body of a program, and those that call themselves."""
        return [it.path for it in self.functions if self.is_proved(it) and not self.calls_itself(it)]

    def is_proved(self, function: Function) -> bool:
        """Whether a function has a body that is proved, and is no test or the body of a program."""
        has_body = re.search(r"[}]\s*$", self.texts[function.file][function.start : function.end])
        return bool(has_body) and function.path != "main" and not function.path.startswith("tests::")

    def calls_itself(self, function: Function) -> bool:
        """Whether a function calls itself: by its bare name, or one of a type by `self`, `Self` or the type's name."""
        text = self.texts[function.file][function.start : function.end]
        of_type = "".join(function.path.split("::")[-2:-1])
        before = rf"\b(?:self\.|Self::|(?<!::){of_type}::)" if text.startswith((" ", "\t")) else r"(?<![\w.:])"
        return bool(re.search(rf"{before}{function.name}\(", text.partition(f"fn {function.name}")[2]))

    def cycle_of(self, function: Function) -> Optional[str]:
        """The name of the cycle of calls that a function is in, if it is in one; that of a function that only calls itself is its own."""
        text = self.texts[function.file]
        found = CYCLE.search(text[start_with_attributes(text, function.start) : function.start])
        if found:
            return found[1]
        return function.name if self.calls_itself(function) else None

    def cycles(self) -> Dict[str, Set[str]]:
        """The functions of each cycle, by its name; cycles of one name are taken as one."""
        found: Dict[str, Set[str]] = {}
        for it in self.functions:
            name = self.cycle_of(it) if self.is_proved(it) else None
            if name:
                found.setdefault(name, set()).add(it.path)
        return found

    def body_of(self, function: Function) -> Optional[int]:
        """Where the body of a function begins, where it is more than a line."""
        text = self.texts[function.file][function.start : function.end]
        indent = re.match(r"[ \t]*", text)[0]
        found = re.search(rf"(?m)^{indent}{{$", text) or re.search(rf"(?m)^{indent}\S.*{{$", text)
        return function.start + found.end() - 1 if found else None

    def without_bodies(self, paths: Set[str]) -> Dict[str, str]:
        """The texts of the files in which some functions lie, where each of these only turns in a loop, and so is in no cycle of calls; each
        line stays where it is. What the front end evaluates keeps its body."""
        texts: Dict[str, str] = {}
        for it in sorted(self.functions, key=lambda it: -it.start):
            above = start_with_attributes(self.texts[it.file], it.start)
            head = self.texts[it.file][above : it.end].partition(f"fn {it.name}")[0]
            start = self.body_of(it) if it.path in paths and not re.search(r"\bconst\b", head) else None
            if start is not None:
                text = texts.get(it.file, self.texts[it.file])
                lines = text.count("\n", start, it.end)
                attributes = CYCLE.sub("", text[above : it.start])
                texts[it.file] = text[:above] + attributes + text[it.start : start] + "{ loop {}" + "\n" * lines + "}" + text[it.end :]
        return texts

    def function_at(self, file: str, start: int, end: int) -> Optional[Function]:
        """The function in whose text this part of a file lies."""
        within = [it for it in self.functions if it.file == file and it.start <= start and end <= it.end]
        return max(within, key=lambda it: it.start, default=None)

    def function_on(self, file: str, line: int) -> Optional[str]:
        """The path of the function that a line of a file, counted from 1, belongs to."""
        if file not in self.texts:
            return None
        start = sum(len(it) + 1 for it in self.texts[file].split("\n")[: line - 1])
        function = self.function_at(file, start, start + 1)
        return function.path if function else None

    def law_of(self, file: str, start: int) -> Optional[Function]:
        """The function whose contract names the definition at this place of specs/, where there is just one, and it is proved."""
        name = self.definition_at(file, start)
        stated = [it for it in self.functions if name in words_of(self.texts[it.file][it.start : it.end])]
        return stated[0] if len(stated) == 1 and self.is_proved(stated[0]) else None

    def definition_at(self, file: str, start: int) -> Optional[str]:
        """The name of the definition at this place of a file, where that is plain."""
        text = self.texts[file]
        above = [it for it in SIGNATURE.finditer(text) if it.start() <= start]
        if not above:
            return None
        begun = re.findall(rf"(?m)^{WORDS_BEFORE}([^\s:(){{}},]+)", text[above[-1].start() : (text + "\n").index("\n", start)])
        return above[-1][1] if {*begun} == {above[-1][1]} else None

    def outside(self, file: str) -> str:
        """The text of a file that is in no function."""
        text = self.texts[file]
        for it in sorted((it for it in self.functions if it.file == file), key=lambda it: -it.start):
            text = text[: it.start] + text[it.end :]
        return text


def start_with_attributes(text: str, start: int) -> int:
    """Where the comments and attributes right above a function begin."""
    while start:
        above = text.rfind("\n", 0, start - 1) + 1
        line = text[above : start - 1].strip()
        if not line or not line.startswith("//") and line.endswith(("{", "}", ";")):
            break
        start = above
    return start


def is_of_function(file: str) -> bool:
    """Whether a file is one of a function's own proof."""
    return file.startswith("proofs/") and file.endswith(("/Answers.antt", "/Invariants.antt", "/Proof.antt"))


def words_of(text: str) -> Set[str]:
    """What a text names, its imports left out: each operator whole, and other words by themselves."""
    text = re.sub(r"(?m)^[ ]*(?:pub[ ]+)?(?:ghost[ ]+)?use[ ].*$", "", text)
    return {*re.findall(r"[^\s(){}\[\],;:.]+", text), *re.findall(r"[\w◌-]+", text), *re.findall(r"[^\s(){}\[\],;:]+", text)}


def definitions_in(text: str) -> Iterator[Tuple[str, str]]:
    """The parts of a file of definitions and lemmas, each with the name that it defines or proves. What is indented is a part of its own
    too: lemmas may share what stands before them."""
    signed = {it[1] for it in SIGNATURE.finditer(text)}
    name = ""
    for part in re.split(r"(?m)^(?=\S)", text):
        begins = re.match(rf"{WORDS_BEFORE}([^\s:(){{}},]+)", part)
        if begins and (begins[1] in signed or re.match(r"(?:pub )?ruleset ", part)):
            name = begins[1]
        yield name, part
        inner = [*INNER.finditer(part)]
        yield from ((it[1], part[it.start() : end]) for it, end in zip(inner, [*[it.start() for it in inner[1:]], len(part)]))
