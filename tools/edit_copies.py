"""Copies of functions. An edit of a function is tried in a copy of it where there can be one, with a name of its own, beside the
function as it was: nothing calls the copy, so edits of one function, and of those that it calls, can share a check. A copy has
copies of the function's proof files, which name nothing of the function but its own goals.

Functions that call one another have one proof. A copy of one of them calls the others as they were, so it is in no cycle, and its
proof is the part of theirs that is the function's own. Such a copy is only believed where a copy with no edit is proved.

A check ends by offering answers for each function that lacks nothing but answers, and for that it searches for each open goal once
more, which takes as long as the first time. So among the answers of an edited function there is first a declaration that is refused
on purpose: the function then lacks more than answers, its goals are told all the same, and nothing is offered.

Most of the time goes to searching for goals that have no answer, those that hold and those that don't. So where an edit names the goal
that it makes false, the copy is first checked with the answer of that goal alone, and no search: the function's own answer, or, where the
check finds one by its search, the one that the edit gives, which a copy with no edit must take. Else a copy of a function with answers is
first checked by its answers alone. Where each is still taken, the goals without answers are searched for, and where each of them holds
too, the edit is tried once more without what is refused on purpose."""
from __future__ import annotations

import os
import re
from dataclasses import dataclass, replace
from typing import Dict, List, Optional, Tuple

from check_output import ON_PURPOSE
from edit_files import Edit, apply_edit
from rattle_sources import Function, Sources, start_with_attributes

UNOFFERED = f"\n{ON_PURPOSE} : Type 0\n{ON_PURPOSE} = Type 0\n"

# What the answer that an edit gives may name: the sets of lemmas that the check's own search goes by, each in its module.
SETS = {
    "Rattle.std.proofs.Common": ("rules", "arith", "tests"),
    "Rattle.std.proofs.lemmas.Grind": ("common_steps", "elements", "not_there", "pieces"),
}
GOALS = "use Rattle.{crate}.proofs.{path}.Goals as goal"
ANSWER = "\npub {goal} : goal.{goal}\n{goal} c = {by}\n"

GOAL = re.compile(r"(?:(?:abbrev|pub) )*([^\s:]+) : goal\.")
# An answer that the check's own search would find.
FOUND = re.compile(rf"\n\S+ c = (?:grind|search) \(?(?:(?:{'|'.join(it for names in SETS.values() for it in names)})(?:, )?)+\)?\s*$")
GOAL_LINE = re.compile(rf"(?m)^{GOAL.pattern}")
PART = re.compile(r"(?m)^(?=(?:(?:abbrev|pub) )*[^\s:]+ : )")


@dataclass(frozen=True)
class Copy:
    """An edited copy of a function: its path, its text, its proof files, and the copy with no edit that must be proved, if there is one."""

    path: str
    text: str
    proofs: Dict[str, str]
    control: Optional[Copy] = None

    @property
    def file(self) -> str:
        """The file of its answers."""
        return f"proofs/{self.path.replace('::', '/')}/Answers.antt"

    @property
    def has_answers(self) -> bool:
        """Whether it has answers that the check's own search would not find."""
        parts = [it for it in PART.split(self.answers) if GOAL.match(it)]
        return not all(FOUND.search(it) for it in parts)

    @property
    def answers(self) -> str:
        return self.proofs.get(self.file, "")

    def answering(self, text: str) -> Copy:
        """The copy with this text of answers."""
        return replace(self, proofs={**self.proofs, self.file: text})

    def unoffered(self) -> Copy:
        """The copy with what is refused on purpose among its answers."""
        return self.answering(self.answers + UNOFFERED)

    def unsearched(self) -> Copy:
        """The copy with no search for the goals that have no answer."""
        return replace(self, text=unsearched(self.text, self.path.split("::")[-1]))


def unsearched(text: str, name: str) -> str:
    """The text of a function with no search for the goals that have no answer."""
    text = re.sub(r"(?m)^[ ]*#!?\[tactic\(.*\)\]\n", "", text)
    return re.sub(rf"(?m)^([ ]*)(?=(?:pub(?:\([^)]*\))?[ ]+)?fn[ ]+{name}\b)", r"\1#[tactic(none)]\n\1", text, count=1)


def goals_answered(text: str) -> List[str]:
    """The goals that a file of answers has an answer to."""
    return [it[1] for it in GOAL_LINE.finditer(text)]


def answer_alone(text: str, goal: str) -> str:
    """A file of answers with what one of its answers needs, and no other answer."""
    parts = PART.split(text)
    kept = [it for it in parts if not GOAL.match(it)]
    answers = {GOAL.match(it)[1]: it for it in parts if GOAL.match(it)}
    left = [goal]
    while left:
        part = answers.pop(left.pop(), "")
        kept.append(part)
        left += {*re.findall(r"[^\s(){}\[\],;]+", part)} & {*answers}
    return "".join(kept)


def answers_given(crate: str, path: str, given: Dict[str, str]) -> str:
    """A file of answers to some goals of the function with this path, each with what proves it."""
    sets = [f"use {module}.{{{', '.join(names)}}}" for module, names in SETS.items()]
    uses = [*sets, GOALS.format(crate=crate, path=path.replace("::", "."))]
    answers = [ANSWER.format(goal=goal, by=by) for goal, by in given.items()]
    return "\n".join(uses) + "\n" + "".join(answers)


def with_answer(text: str, crate: str, path: str, goal: str, by: str) -> str:
    """A function's own file of answers, or the text of none, with one answer more, and with what that one names brought in."""
    for module, names in SETS.items():
        taken = re.search(rf"(?m)^use {re.escape(module)}\.\{{([^}}]*)\}}$", text)
        there = re.findall(r"[^\s,]+", taken[1]) if taken else []
        lacking = [it for it in names if it in re.findall(r"\w+", by) and it not in there]
        if lacking and taken:
            text = f"{text[: taken.end(1)]}, {', '.join(lacking)}{text[taken.end(1) :]}"
        elif lacking:
            text = with_use(text, f"use {module}.{{{', '.join(lacking)}}}")
    goals = GOALS.format(crate=crate, path=path.replace("::", "."))
    text = text if goals in text.split("\n") else with_use(text, goals)
    return text + ANSWER.format(goal=goal, by=by)


def with_use(text: str, line: str) -> str:
    """The text of a proof file with one `use` line more, behind those that it has."""
    lines = text.split("\n")[:-1]
    place = max((n + 1 for n, it in enumerate(lines) if it.startswith("use ")), default=0)
    return "".join(f"{it}\n" for it in [*lines[:place], line, *lines[place:]])


def unoffered(function: Function, texts: Dict[str, str], sources: Sources) -> Dict[str, str]:
    """The answers of a function that is edited in its place, with what is refused on purpose; none where its proof has no such file."""
    if not has_answers_of_its_own(function, sources):
        return {}
    file = answers_of(function)
    return {file: texts.get(file, sources.texts.get(file, "")) + UNOFFERED}


def answers_of(function: Function) -> str:
    """The file of a function's answers."""
    return f"proofs/{function.path.replace('::', '/')}/Answers.antt"


def has_answers_of_its_own(function: Function, sources: Sources) -> bool:
    """Whether the proof of a function is one of goals, of that function alone."""
    is_by_goals = sources.is_proved(function) and not sources.cycle_of(function)
    return is_by_goals and answers_of(function).replace("/Answers.", "/Proof.") not in sources.texts


def tried_by_name(function: Function, text: str, texts: Dict[str, str], sources: Sources) -> Dict[str, str]:
    """The texts where a function that stands in its place has these answers alone, and no search."""
    texts = {**texts, answers_of(function): text + UNOFFERED}
    code = texts.get(function.file, sources.texts[function.file])
    found = next(it for it in Sources({**sources.texts, **texts}).functions if it.path == function.path)
    start = start_with_attributes(code, found.start)
    texts[function.file] = code[:start] + unsearched(code[start : found.end], function.name) + code[found.end :]
    return texts


def can_be_copied(function: Function, cycle: Optional[str], sources: Sources) -> bool:
    """Whether there can be a copy of a function: it is in no trait, and only its own proof files name what is made of it."""
    if function.is_of_trait or not sources.is_proved(function):
        return False
    path, own = proved_as(function, cycle)
    if f"{own}Proof.antt" in sources.texts:
        return False
    names = {it.replace("::", ".") for it in (path, function.path)}
    named = re.compile(rf"\b(?:proofs|contracts)\.(?:{'|'.join(map(re.escape, names))})\.(?!Met\b)")
    others = [it for file, it in sources.texts.items() if file.endswith(".antt") and not file.startswith(own)]
    # (most texts hold no such name at all, which is found sooner)
    return not any(named.search(it) for it in others if any(f".{name}." in it for name in names))


def proved_as(function: Function, cycle: Optional[str]) -> Tuple[str, str]:
    """The path that the proof of a function goes by, and the folder of that proof's files: its own, or its cycle's."""
    path = "::".join([*function.path.split("::")[:-1], f"+{cycle}"]) if cycle else function.path
    return path, f"proofs/{path.replace('::', '/')}/"


def own_part(text: str, member: str) -> str:
    """The part of a proof file of several functions that is one's own, as in a proof of that one alone; with no member named, that of
    a function that calls itself."""
    parts = []
    for part in PART.split(text):
        goal = GOAL.match(part)
        name = goal[1] if goal else ""
        own = re.sub(rf"^(invariant-|){re.escape(member)}-", r"\1", name) if member else name
        if name.startswith("decreases-") or name and member and own == name:
            continue
        if name:
            # (the answers of a cycle take what stands for its other calls)
            part = re.sub(rf"(?m)^{re.escape(name)}((?: g)?) t\b", rf"{name}\1", part)
            part = re.sub(rf"(?m)(?:^|(?<=goal\.)|(?<=^pub )|(?<=^abbrev pub )){re.escape(name)}(?=[\s(]|$)", own, part)
        parts.append(part)
    return "".join(parts)


def copy_of(edit: Edit, function: Function, number: int, sources: Sources) -> Optional[Copy]:
    """A copy of a function, with an edit that lies in it, where there can be one."""
    cycle = sources.cycle_of(function)
    if {it.path for it in edit.changes} != {function.file} or not can_be_copied(function, cycle, sources):
        return None
    texts = apply_edit(edit, sources.texts.__getitem__)
    edited = next((it for it in Sources({**sources.texts, **texts}).functions if it.path == function.path), None)
    if not edited:
        return None
    control = copy_with_no_edit(function, sources) if cycle else None
    return named_copy(function, edited, f"{function.name}_edit_{number}", cycle, texts[function.file], sources, control)


def calls_itself_anew(edit: Edit, function: Function, sources: Sources) -> bool:
    """Whether a function calls itself with an edit, and not as it stands. A copy of it would call the function as it was, and be proved."""
    if not any(f"{function.name}(" in it.new for it in edit.changes) or sources.cycle_of(function):
        return False
    edited = Sources({**sources.texts, **apply_edit(edit, sources.texts.__getitem__)})
    return any(it.path == function.path and edited.calls_itself(it) for it in edited.functions)


def copy_with_no_edit(function: Function, sources: Sources) -> Copy:
    """A copy of a function as it stands."""
    return named_copy(function, function, f"{function.name}_with_no_edit", sources.cycle_of(function), sources.texts[function.file], sources)


def named_copy(function: Function, edited: Function, name: str, cycle: Optional[str], text: str, sources: Sources, control: Optional[Copy] = None) -> Copy:
    """A copy with this name of a function as it stands in an edited text."""
    text = text[start_with_attributes(text, edited.start) : edited.end]
    text = re.sub(r"(?m)^[ ]*#\[cycle\(\w+\)\]\n", "", text)
    path = "::".join([*function.path.split("::")[:-1], name])
    whole, own = proved_as(function, cycle)
    new = f"proofs/{path.replace('::', '/')}/"
    named = re.compile(rf"(?<=\.){re.escape(whole.replace('::', '.'))}(?=\.)")
    proofs = {os.path.basename(file): it for file, it in sources.texts.items() if os.path.dirname(file) + "/" == own}
    if cycle:
        member = "" if cycle == function.name and sources.calls_itself(function) else function.name
        proofs = {it: own_part(proofs[it], member) for it in proofs}
        proofs = {it: proofs[it] for it in proofs if GOAL_LINE.search(proofs[it])}
    proofs = {new + it: named.sub(path.replace("::", "."), proofs[it]) for it in proofs}
    return Copy(path, re.sub(rf"\bfn[ ]+{function.name}\b", f"fn {name}", text, count=1), proofs, control)


def with_copies(texts: Dict[str, str], copies: List[Tuple[Copy, str]], sources: Sources) -> Dict[str, str]:
    """These texts and, each behind the function that it is a copy of, these copies; the functions are given by their paths."""
    places = {it.path: it for it in Sources({**sources.texts, **texts}).functions}
    texts = dict(texts)
    for copy, path in sorted(copies, key=lambda it: -places[it[1]].end):
        place = places[path]
        text = texts.get(place.file) or sources.texts[place.file]
        texts[place.file] = f"{text[: place.end]}\n\n{copy.text}{text[place.end :]}"
        texts.update(copy.proofs)
    return texts
