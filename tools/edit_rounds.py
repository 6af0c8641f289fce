"""Tries the must-fail edits of a crate in rounds: many edits in one check, each in a copy of its function, or else at most one a
function. An edit counts as refused only where its own function is reported as unproved by itself; where that function only calls
another one that is not proved, the edit waits for a round without that one's edits. What is not plainly refused in a copy is
tried again in its place. An edit of a definition that one contract names is tried beside others where no function of theirs rests
on it, or in a copy of that law. An edit with no function of its own, as one of a definition that many contracts name, is tried alone."""
from __future__ import annotations

import enum
from collections import Counter
from dataclasses import dataclass, field, replace
from itertools import combinations
from typing import Callable, Dict, List, Optional, Set, Tuple

from check_output import CheckOutput, Placed
from edit_copies import Copy, answer_alone, answers_given, answers_of, calls_itself_anew, copy_of, copy_with_no_edit, goals_answered
from edit_copies import has_answers_of_its_own, tried_by_name, unoffered, with_copies
from edit_files import SEARCH, USUAL, DoesNotApply, Edit, apply_edit
from edit_laws import Laws, with_modules
from rattle_names import Names
from rattle_sources import Function, Sources


# Fewer edits than these save less by their answers than the check takes that those need which are not refused by them.
FEW = 10
# The processor seconds from which on an edit is costly: less is not worth an answer that the proof would do without.
COSTLY = 3.0


class Way(enum.IntEnum):
    """How much of an edited function's proof a check tries: the answer of the goal that the edit names, or all answers, or the goals without
    answers too, or all of it beside nothing that is refused on purpose (edit_copies.py)."""

    NAMED = 0
    ANSWERS = 1
    GOALS = 2
    WHOLE = 3


class Verdict(enum.Enum):
    """What became of an edit."""

    REFUSED = "refused"
    SHAPE = "shape"
    PROVED = "PROVED"
    DOES_NOT_APPLY = "does not apply"
    DOES_NOT_COMPILE = "does not compile"
    NOT_JUDGED = "not judged"
    APPLIES = "applies"

    @property
    def is_well(self) -> bool:
        return self in (Verdict.REFUSED, Verdict.SHAPE, Verdict.APPLIES)


@dataclass(frozen=True)
class Judgement:
    """The verdict on an edit, the function that it is in, the goal that failed, or why there is none, the processor seconds that the proof
    took, or the check of an edit that was tried alone, the goal's name, and in how many checks the edit was tried."""

    verdict: Verdict
    function: str = ""
    goal: str = ""
    seconds: float = 0.0
    goal_name: str = ""
    checks: int = 1

    @property
    def is_costly(self) -> bool:
        """Whether an answer for its goal would save time: its search takes long, or comes in a check after another."""
        return self.verdict is Verdict.REFUSED and (self.seconds >= COSTLY or self.checks > 1)


@dataclass
class Trial:
    """An edit on its way: its function, where it has one of its own, the copy that it is tried in, the copy with no edit that must take the
    answer that it gives, the functions that rest on a definition that it changes, those that must not be edited beside it, and how much of
    its proof is tried."""

    edit: Edit
    function: Optional[str]
    copy: Optional[Copy] = None
    answered: Optional[Copy] = None
    resting: Set[str] = field(default_factory=set)
    apart_from: Set[str] = field(default_factory=set)
    judgement: Optional[Judgement] = None
    way: Way = Way.GOALS
    checks: int = 0

    @property
    def path(self) -> str:
        """The path of the function that is checked."""
        return self.copy.path if self.copy else self.function or ""

    @property
    def tried(self) -> Optional[Copy]:
        """The copy as it is checked."""
        if not self.copy or self.way is Way.WHOLE:
            return self.copy
        if self.way is Way.NAMED:
            return self.copy.answering(self.answer_in(self.copy.answers)).unoffered().unsearched()
        return self.copy.unoffered() if self.way is Way.GOALS else self.copy.unoffered().unsearched()

    def answer_in(self, answers: str) -> str:
        """The answer of the goal that the edit names: the one among these, or the one that the edit gives."""
        edit = self.edit
        return answers_given(edit.crate, self.path, {edit.goal: edit.by}) if edit.by else answer_alone(answers, edit.goal)

    @property
    def is_of_code(self) -> bool:
        return all(it.path.startswith("src/") for it in self.edit.changes)

    @property
    def control(self) -> Optional[Copy]:
        """The copy with no edit that must be proved beside this one, or take the answer that the edit gives."""
        if self.way is Way.NAMED:
            return self.answered
        return self.copy.control if self.copy else None

    @property
    def paths(self) -> List[str]:
        return [self.path, self.control.path] if self.control else [self.path]

    def disturbs(self, other: Trial) -> bool:
        """Whether another edit must not be tried beside this one: it is in a function that this one's waits for, or that rests on a definition
        which this one changes in its place."""
        is_in_its_place = not self.is_of_code and not self.copy
        return other.path in self.apart_from or is_in_its_place and bool({other.path, other.function} & {*self.resting, self.function})

    def more(self) -> None:
        """Has more of the proof tried."""
        is_named = self.way is Way.NAMED
        self.way = Way.GOALS if is_named and not (self.copy and self.copy.has_answers) else Way(self.way + 1)

    def leave(self) -> None:
        """Has the edit tried in its place where it was tried in a copy, and else alone."""
        self.function = self.function if self.copy else None
        self.copy, self.way = None, Way.GOALS


# Checks the crate with some texts in place of its own, and only the functions named; with none named, all of it.
Check = Callable[[Dict[str, str], List[str]], CheckOutput]


def own_function(edit: Edit, sources: Sources) -> Optional[Function]:
    """The one function in which an edit lies, or whose contract alone names the definition that it changes, or which the edit names."""
    found = {it for it in sources.functions if it.path == edit.law}
    if found:
        return found.pop()
    for change in edit.changes:
        start = sources.texts[change.path].find(change.old)
        if start < 0:
            return None
        if change.path.startswith("src/"):
            function = sources.function_at(change.path, start, start + len(change.old))
        else:
            function = sources.law_of(change.path, start) if change.path.startswith("specs/") else None
        found.add(function)
    return found.pop() if len(found) == 1 else None


def text_in(sources: Sources, path: str) -> str:
    if path not in sources.texts:
        raise DoesNotApply(f"there is no file {path}")
    return sources.texts[path]


def trial_of(edit: Edit, number: int, sources: Sources, names: Names) -> Trial:
    """The trial of an edit, the one with this number, which is over where the edit does not apply."""
    try:
        apply_edit(edit, lambda path: text_in(sources, path))
    except DoesNotApply as why:
        return Trial(edit, None, judgement=Judgement(Verdict.DOES_NOT_APPLY, goal=str(why)))
    function = own_function(edit, sources)
    if not function:
        return Trial(edit, None)
    if calls_itself_anew(edit, function, sources):
        return Trial(edit, function.path, way=Way.WHOLE)
    copy = copy_of(edit, function, number, sources)
    trial = Trial(edit, function.path, copy, way=Way.ANSWERS if copy and copy.has_answers else Way.GOALS)
    if edit.by == SEARCH:
        trial.way = Way.GOALS
    elif edit.goal and trial.is_of_code and has_answers_of_its_own(function, sources):
        is_answered = edit.goal in goals_answered(sources.texts.get(answers_of(function), ""))
        trial.edit = replace(edit, by="" if is_answered else edit.by or USUAL)
        trial.way = Way.NAMED
    for change in edit.changes:
        if change.path.startswith("specs/"):
            definition = sources.definition_at(change.path, sources.texts[change.path].find(change.old))
            if definition:
                trial.resting |= names.resting_on(change.path, definition)
            elif not change.old.startswith("use "):
                trial.resting |= {it.path for it in sources.functions}
    return trial


def numbers_of(edits: List[Edit]) -> Dict[str, int]:
    """The number of each edit's copy, by the edit's name."""
    return {it.name: number for number, it in enumerate(edits)}


class Rounds:
    """The trials of a crate's edits."""

    # (the files of answers that have more answers than before: see edit_names.py)
    answers: Dict[str, str] = {}

    def __init__(self, edits: List[Edit], sources: Sources, check: Check, numbers: Optional[Dict[str, int]] = None):
        """The trials of these edits. Their copies are numbered, in order or by the edits' names: what is kept of a copy goes by its number."""
        self.sources, self.check = sources, check
        self.functions = {it.path: it for it in sources.functions}
        names, numbers = Names(sources), numbers or numbers_of(edits)
        self.trials = [trial_of(it, numbers[it.name], sources, names) for it in edits]
        by_answers = [it for it in self.trials if it.way in (Way.NAMED, Way.ANSWERS)]
        for trial in by_answers if len(by_answers) < FEW else []:
            trial.way = trial.way if trial.way is Way.NAMED else Way.GOALS
        self._give_answers()
        self._copy_laws()

    def _copy_laws(self) -> None:
        """Has edits of definitions tried in copies of laws where not all of them can share a check in their places."""
        trials = [(number, it) for number, it in enumerate(self.trials) if it.function and not it.judgement and not it.is_of_code]
        if all(self._are_apart(one, other) for (_, one), (_, other) in combinations(trials, 2)):
            return
        laws = Laws(trials[0][1].edit.crate, self.sources)
        copies = laws.copies({number: (it.edit, self.functions[it.function or ""]) for number, it in trials})
        for number, copy in copies.items():
            self.trials[number].copy, self.trials[number].way = copy, Way.WHOLE

    def _give_answers(self) -> None:
        """Has the answers that the edits of a function give tried in it as it stands: in a copy beside theirs, or, for one that is edited in its
        place, in a check before. `given` has those answers, and `taken` each function that took one in its place, with the goal."""
        self.given: Dict[str, Dict[str, str]] = {}
        self.taken: Set[Tuple[str, str]] = set()
        for trial in self.trials:
            if trial.way is Way.NAMED and trial.edit.by:
                given = self.given.setdefault(trial.function or "", {})
                if given.setdefault(trial.edit.goal, trial.edit.by) != trial.edit.by:
                    trial.more()
        for trial in self.trials:
            if trial.way is Way.NAMED and trial.edit.by and trial.copy:
                copy = copy_with_no_edit(self.functions[trial.function or ""], self.sources)
                trial.answered = copy.answering(self._answers_to(trial, copy.path)).unoffered().unsearched()

    def _answers_to(self, trial: Trial, path: str) -> str:
        """The answers that the edits of a trial's function give, for the function with this path."""
        return answers_given(trial.edit.crate, path, self.given[trial.function or ""])

    def _try_answers(self) -> None:
        """Tries the answers that are given for functions that are edited in their places."""
        left = {it.function: it for it in self.trials if it.function in self.given and not it.copy and not it.judgement}
        while left:
            texts: Dict[str, str] = {}
            for path, trial in left.items():
                texts = tried_by_name(self.functions[path], self._answers_to(trial, path), texts, self.sources)
            output = self.check(texts, [*left])
            self.taken = {(path, goal) for path in left for goal in self.given[path] if takes_answer(output, path, goal)}
            if not left.pop(output.unknown_function, None):
                break

    def run(self) -> List[Tuple[Edit, Judgement]]:
        """Tries every edit, and gives each with its judgement."""
        self._try_left()
        for trial in self.trials:
            if not trial.judgement:
                trial.judgement = self._alone(trial)
        return [(it.edit, it.judgement) for it in self.trials if it.judgement]

    def _try_left(self) -> None:
        """Tries the edits that have a function of their own."""
        self._try_answers()
        while self._left():
            self._try_batch(*self._next_batch())

    def _left(self) -> List[Trial]:
        return [it for it in self.trials if it.function and not it.judgement]

    def _are_apart(self, one: Trial, other: Trial) -> bool:
        return one.path != other.path and not one.disturbs(other) and not other.disturbs(one)

    def _next_batch(self) -> Tuple[List[Trial], Dict[str, str]]:
        """Edits that can be tried side by side, those first whose function has the most edits left."""
        left, batch, texts = self._left(), [], {}
        count = Counter(it.function for it in left)
        for trial in sorted(left, key=lambda it: (bool(it.copy), -count[it.function])):
            if not all(self._are_apart(trial, it) for it in batch):
                continue
            try:
                if not trial.copy:
                    texts.update(apply_edit(trial.edit, lambda path: texts.get(path) or text_in(self.sources, path)))
            except DoesNotApply:
                # Another edit of the batch changed the same text.
                continue
            batch.append(trial)
        return batch, self._applied(batch)

    def _try_batch(self, batch: List[Trial], texts: Dict[str, str]) -> None:
        output = self.check(texts, [*dict.fromkeys(path for it in batch for path in it.paths)])
        unknown = [it for it in batch if output.unknown_function in it.paths]
        if unknown:
            self._without_function(unknown, batch)
            return
        unreadable = [it for it in output.errors if it.cannot_be_read]
        if not output.reached_the_prover or unreadable:
            self._split(batch, texts, output)
            return
        edited = {it.path for it in batch}
        for trial in batch:
            path = trial.path
            trial.checks += 1
            self._judge(trial, output, edited, len(batch) == 1)
            if trial.judgement:
                trial.judgement = replace(trial.judgement, seconds=output.seconds_for(path), checks=trial.checks)

    def _without_function(self, unknown: List[Trial], batch: List[Trial]) -> None:
        """Leaves those edits to be tried in another way whose function the check knows by another name, and tries the others."""
        rest = [it for it in batch if it not in unknown]
        for trial in unknown:
            trial.leave()
        if rest:
            self._try_batch(rest, self._applied(rest))

    def _split(self, batch: List[Trial], texts: Dict[str, str], output: CheckOutput) -> None:
        """Tries two parts of a batch that does not compile: those whose functions have an error, and the others. A single edit is to blame itself."""
        if len(batch) == 1:
            batch[0].judgement = self._without_proof(batch[0], output)
            return
        edited = Sources({**self.sources.texts, **texts})
        faulty = {edited.function_on(it.file, it.line) for it in output.errors}
        faulty |= {it.path for it in batch if it.copy and any(error.file in it.copy.proofs for error in output.errors)}
        parts = [it for it in batch if it.path in faulty], [it for it in batch if it.path not in faulty]
        for part in parts if all(parts) else (batch[: len(batch) // 2], batch[len(batch) // 2 :]):
            self._try_batch(part, self._applied(part))

    def _applied(self, batch: List[Trial]) -> Dict[str, str]:
        """The texts of the files that the edits of a batch change."""
        texts: Dict[str, str] = {}
        for trial in batch:
            if not trial.copy:
                texts.update(apply_edit(trial.edit, lambda path: texts.get(path) or text_in(self.sources, path)))
            if trial.function in self.functions and not trial.copy and trial.is_of_code:
                texts.update(self._in_place(trial, self.functions[trial.function], texts))
        copies = {copy.path: (copy, it.function or "") for it in batch for copy in (it.tried, it.control) if copy}
        texts = with_copies(texts, [*copies.values()], self.sources)
        return with_modules(texts, [copy for copy, _ in copies.values()], self.sources)

    def _in_place(self, trial: Trial, function: Function, texts: Dict[str, str]) -> Dict[str, str]:
        """The texts of the files that an edit of a function in its place changes beside the function's own."""
        if trial.way is Way.NAMED:
            answer = trial.answer_in(self.sources.texts.get(answers_of(function), ""))
            return tried_by_name(function, answer, texts, self.sources)
        return unoffered(function, texts, self.sources) if trial.way is Way.GOALS else {}

    def _without_proof(self, trial: Trial, output: CheckOutput) -> Optional[Judgement]:
        """The judgement on an edit whose check stopped before any proof, or none where it is to be tried in another way."""
        if trial.copy or output.status == 2 and trial.function:
            # The check knows the function by another name, or there can be no copy of it.
            trial.leave()
            return None
        if trial.function and trial.is_of_code and trial.way is not Way.WHOLE:
            # The check may know no such file of answers.
            trial.way = Way.WHOLE
            return None
        lines = [str(it) for it in output.errors] or [it for it in output.lines if it]
        verdict = Verdict.DOES_NOT_COMPILE if output.status == 1 else Verdict.NOT_JUDGED
        return Judgement(verdict, trial.function or "", " ".join(lines[:1]))

    def _judge(self, trial: Trial, output: CheckOutput, edited: Set[str], is_alone: bool) -> None:
        path, lines = trial.path, output.of_function(trial.path)
        is_by_itself = is_alone or any(not it.is_proved and not output.waits(it) for it in lines)
        if trial.way is Way.NAMED:
            self._judge_by_name(trial, output)
        elif trial.control and not output.is_proved(trial.control.path):
            self._wait(trial, trial.control.path, output, edited)
        elif not lines:
            trial.leave()
        elif trial.way is not Way.WHOLE and trial.is_of_code:
            self._judge_by_goal(trial, output.faults_of(path))
        elif all(it.is_proved for it in lines):
            self._end(trial, Judgement(Verdict.PROVED, trial.function or ""))
        elif is_by_itself:
            said = " ".join(it.text for it in lines if not it.is_proved)
            of_copy = [it for it in output.errors if trial.copy and it.file in trial.copy.proofs]
            self._end(trial, refusal(trial.function or "", of_copy or output.faults_of(path), said))
        else:
            self._wait(trial, lines[0].path, output, edited)

    def _judge_by_name(self, trial: Trial, output: CheckOutput) -> None:
        """Judges an edit by the answer of the goal that it names. Where the edited function takes that answer, or the function as it stands
        doesn't, more of the proof is tried."""
        goal, control = trial.edit.goal, trial.control
        faults = [it for it in output.faults_of(trial.path) if it.is_error and (it.goal == goal or not trial.edit.by)]
        judgement = refusal(trial.function or "", faults, "")
        is_answer = takes_answer(output, control.path, goal) if control else not trial.edit.by or (trial.function, goal) in self.taken
        if faults and is_answer and judgement.verdict is Verdict.REFUSED:
            self._end(trial, judgement)
        else:
            trial.more()

    def _judge_by_goal(self, trial: Trial, faults: List[Placed]) -> None:
        """Judges an edit beside what is refused on purpose, by what else is. Where that is no goal, more of the proof is tried."""
        faults = [it for it in faults if it.is_error or trial.way is Way.GOALS]
        judgement = refusal(trial.function or "", faults, "")
        if faults and judgement.verdict is Verdict.REFUSED:
            self._end(trial, judgement)
        elif faults and trial.way is Way.GOALS:
            # By its shape alone: that is believed of the function in its place, and whole.
            trial.copy, trial.way = None, Way.WHOLE
        else:
            trial.more()

    def _wait(self, trial: Trial, path: str, output: CheckOutput, edited: Set[str]) -> None:
        """Puts an edit off until the edited functions below a function that is not proved stand in other batches, if there are any."""
        causes = self._edited_below(path, output) & edited - {trial.path}
        trial.apart_from |= causes
        if not causes:
            trial.leave()

    def _end(self, trial: Trial, judgement: Judgement) -> None:
        """Gives a trial its judgement. One in a copy is only believed where a goal is refused. One of a definition that its own function
        takes may be refused by another."""
        if trial.copy and judgement.verdict is not Verdict.REFUSED or not trial.is_of_code and judgement.verdict is Verdict.PROVED:
            trial.leave()
        else:
            trial.judgement = judgement

    def _edited_below(self, path: str, output: CheckOutput) -> Set[str]:
        """The unproved functions that a function waits for, and those that they wait for."""
        seen: Set[str] = set()
        left = [it.path for it in output.of_function(path)]
        while left:
            line = output.functions.get(left.pop())
            new = (output.waits(line) if line else set()) - seen
            seen |= new
            left += new
        return seen

    def _alone(self, trial: Trial) -> Optional[Judgement]:
        """Tries one edit in a check of the whole crate, which must not be proved."""
        output = self.check(apply_edit(trial.edit, lambda path: text_in(self.sources, path)), [])
        unreadable = [it for it in output.errors if it.cannot_be_read]
        if unreadable:
            return Judgement(Verdict.DOES_NOT_COMPILE, goal=str(unreadable[0]))
        if not output.reached_the_prover:
            return self._without_proof(trial, output)
        if output.status == 0:
            return Judgement(Verdict.PROVED)
        failed = [it for it in output.functions.values() if not it.is_proved and not output.waits(it)]
        notes = [note for it in output.functions.values() for note in it.notes]
        judgement = refusal(failed[0].path if failed else "", output.errors + notes, failed[0].text if failed else "")
        return replace(judgement, seconds=output.seconds)


def takes_answer(output: CheckOutput, path: str, goal: str) -> bool:
    """Whether a function takes the answer that is given for a goal of it."""
    line = output.functions.get(path)
    is_read = line is not None and (line.is_proved or line.text.startswith("not proved"))
    return is_read and not any(it.is_error and it.goal in ("", goal) for it in output.faults_of(path))


def refusal(function: str, faults: List[Placed], said: str) -> Judgement:
    """The judgement on an edit that is refused: by a goal, or only since a proof names what is gone."""
    goal = next((it for it in faults if not it.is_of_shape), None)
    if faults and not goal:
        return Judgement(Verdict.SHAPE, function, str(faults[0]))
    if not goal and said.startswith("could not tell"):
        return Judgement(Verdict.NOT_JUDGED, function, said)
    return Judgement(Verdict.REFUSED, function, str(goal) if goal else said, goal_name=goal.goal if goal else "")
