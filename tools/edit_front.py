"""A quick look at must-fail edits, without proofs: which of them don't apply, and which the front end refuses, so that no proof would be
tried. Edits in copies share a check, as those of several functions do; a check that is refused is split until the edit to blame is found."""
from __future__ import annotations

from typing import Dict, List, Optional

from edit_files import Edit, apply_edit
from edit_rounds import Check, Judgement, Rounds, Trial, Verdict, text_in
from rattle_crates import NO_FUNCTION
from rattle_sources import Sources


class FrontEnd(Rounds):
    """The trials of a crate's edits by the front end alone. It reads no specs and no proofs: of an edit of those it only says that it applies."""

    def __init__(self, edits: List[Edit], sources: Sources, check: Check):
        super().__init__(edits, sources, check)
        for trial in self.trials:
            if not trial.judgement and not any(it.path.startswith("src/") for it in trial.edit.changes):
                trial.judgement = Judgement(Verdict.APPLIES)

    def _try_answers(self) -> None:
        """No proof is tried, and so no answer."""

    def _try_batch(self, batch: List[Trial], texts: Dict[str, str]) -> None:
        output = self.check(texts, NO_FUNCTION)
        if not output.reached_the_prover:
            self._split(batch, texts, output)
            return
        for trial in batch:
            trial.judgement = Judgement(Verdict.APPLIES, trial.function or "")

    def _alone(self, trial: Trial) -> Optional[Judgement]:
        output = self.check(apply_edit(trial.edit, lambda path: text_in(self.sources, path)), NO_FUNCTION)
        return Judgement(Verdict.APPLIES) if output.reached_the_prover else self._without_proof(trial, output)
