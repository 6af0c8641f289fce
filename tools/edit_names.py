"""Finds for costly edits which goal each one makes false, and what proves that goal of the function as it stands (./edits --name-goals). An
edit that says so is tried by that alone, and not by the whole of the check's search, which goes on to its end for a goal that isn't so.

Every edit is first tried as ever, or what an earlier run said of the costliest tells which goals failed. Where such a goal has no answer,
the forms below are tried one after the other: one is found where it proves the goal of the function as it stands, and not that of the
edited one. Where that takes less time than the search did, it becomes an answer of the function: so the proof of the function shows that it
holds, and no run has to try it of the function as it stands beside the edit, which would cost as much as another edit."""
from __future__ import annotations

import re
from dataclasses import replace
from typing import Dict, List, Optional, Tuple

from check_output import CheckOutput
from edit_copies import answers_of, goals_answered, with_answer
from edit_files import SEARCH, USUAL, Edit
from edit_rounds import Check, Judgement, Rounds, Trial, Verdict, Way, numbers_of
from rattle_sources import Sources

FORMS = (
    USUAL,
    "search (pieces, arith)",
    "search rules",
    "search (tests, rules)",
    "grind (arith, common_steps, not_there)",
    "grind (arith, elements)",
)


class ByName(Rounds):
    """The trials of edits that name their goals, by those goals alone."""

    def __init__(self, edits: List[Edit], sources: Sources, check: Check, numbers: Dict[str, int]):
        super().__init__(edits, sources, self._measured, numbers)
        self.plain_check, self.seconds_of = check, {}

    def _measured(self, texts: Dict[str, str], functions: List[str]) -> CheckOutput:
        output = self.plain_check(texts, functions)
        self.seconds_of.update({it: output.seconds_for(it) for it in functions})
        return output

    def _left(self) -> List[Trial]:
        return [it for it in super()._left() if it.way is Way.NAMED]

    def refused(self) -> List[Tuple[Edit, float]]:
        """The edits that are refused by the goals that they name, and the processor seconds of each."""
        self._try_left()
        found = [it for it in self.trials if it.judgement and it.judgement.verdict is Verdict.REFUSED]
        return [(it.edit, self.seconds_of.get(it.path, 0)) for it in found]


COSTLIEST = "costliest: {seconds:.0f} s, checks: {checks}: {label}: {goal}"


def costliest_in(text: str) -> Dict[str, Judgement]:
    """The costly edits, by their labels, with the goals and the seconds that a run of ./edits said."""
    found = re.finditer(r"(?m)^costliest: (\d+) s, checks: (\d+): (\S+): (\S+)$", text)
    return {it[3]: Judgement(Verdict.REFUSED, goal_name=it[4], seconds=float(it[1]), checks=int(it[2])) for it in found}


class Naming:
    """The trials of a crate's edits, after which those that are costly name their goals. `answers` then has the files of answers with those
    that were found."""

    def __init__(self, edits: List[Edit], sources: Sources, check: Check, known: Optional[Dict[str, Judgement]] = None):
        self.edits, self.sources, self.check, self.known = edits, sources, check, known
        self.numbers = numbers_of(edits)
        self.answers: Dict[str, str] = {}

    def run(self) -> List[Tuple[Edit, Judgement]]:
        """Tries every edit, and gives each, with what it is to name, and its judgement. Where the goals are known, it gives those alone for
        which there is an answer that saves time."""
        if self.known is not None:
            costly = [(it, self.known[it.label]) for it in self.edits if it.label in self.known and not it.goal]
            return [(it, Judgement(Verdict.REFUSED, goal=f"{it.goal} by {it.by or 'its answer'}")) for it in self._named(costly)]
        rounds = Rounds(self.edits, self.sources, self.check)
        judged = rounds.run()
        for trial in rounds.trials:
            if trial.way is Way.NAMED and trial.edit.by:
                # (it was refused by an answer that the function as it stands has taken in this run)
                self._answer(trial.function or "", trial.edit)
        costly = [(edit, it) for edit, it in judged if it.is_costly and it.goal_name and not edit.goal]
        found = {it.name: it for it in self._named(costly)}
        return [(found.get(edit.name, edit), it) for edit, it in judged]

    def _named(self, costly: List[Tuple[Edit, Judgement]]) -> List[Edit]:
        """Those of the edits, with the goals that they make false, for whose goals there is an answer that saves time."""
        judged = {edit.name: it for edit, it in costly}
        edits = [replace(edit, goal=it.goal_name) for edit, it in costly if all(change.path.startswith("src/") for change in edit.changes)]
        trials = {it.edit.name: it for it in Rounds(edits, self.sources, self.check, self.numbers).trials}
        places = {it.path: answers_of(it) for it in self.sources.functions}
        answers = {name: self.sources.texts.get(places.get(it.function or "", ""), "") for name, it in trials.items()}
        named = [it for it in edits if it.goal in goals_answered(answers[it.name])]
        left = [it for it in edits if it not in named]
        for form in FORMS:
            found = ByName([replace(it, by=form) for it in left], self.sources, self.check, self.numbers).refused() if left else []
            for it, seconds in found:
                if seconds < judged[it.name].seconds or judged[it.name].checks > 1:
                    self._answer(trials[it.name].function or "", it)
                    named.append(replace(it, by=""))
            left = [it for it in left if it.name not in {other.name for other, _ in found}]
        # What answers did not refuse is searched for in the first check, as what is edited in its place always is.
        return named + [replace(it, by=SEARCH) for it in left if judged[it.name].checks > 1 and trials[it.name].copy]

    def _answer(self, path: str, edit: Edit) -> None:
        """Has a function answer the goal that an edit names by what the edit says."""
        file = next(answers_of(it) for it in self.sources.functions if it.path == path)
        text = self.answers.get(file, self.sources.texts.get(file, ""))
        if edit.goal not in goals_answered(text):
            self.answers[file] = with_answer(text, edit.crate, path, edit.goal, edit.by)
