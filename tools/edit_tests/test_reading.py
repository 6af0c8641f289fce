"""What ./edits reads: edits, what a check says, and what the build of a library proved."""
import os
import tempfile
import unittest

from check_output import read_output
from edit_files import DoesNotApply, apply_edit, parse_edit
from edit_kept import Kept
from edit_rounds import Verdict, refusal
from rattle_crates import CHECK
from samples import OUTPUT, edit_of


class ReadingEdits(unittest.TestCase):
    def test_an_edit_changes_the_text_that_stands_once(self):
        edit = parse_edit("tiny", "name", "A comment.\nfile: src/lib.rt\nold: a b\nnew: c\n")
        self.assertEqual(apply_edit(edit, {"src/lib.rt": "x a b y"}.__getitem__), {"src/lib.rt": "x c y"})

    def test_a_later_pair_meets_the_text_of_the_earlier_one(self):
        edit = parse_edit("tiny", "name", "file: src/lib.rt\nold: a\nnew: b\nold: bc\nnew:\n")
        self.assertEqual(apply_edit(edit, {"src/lib.rt": "ac"}.__getitem__), {"src/lib.rt": ""})

    def test_a_text_that_stands_twice_does_not_apply(self):
        with self.assertRaises(DoesNotApply):
            apply_edit(edit_of("name", "a", "b"), {"src/lib.rt": "a a"}.__getitem__)

    def test_an_edit_names_a_file_of_the_crate_and_has_a_pair(self):
        for text in ("file: ../lib.rt\nold: a\nnew: b\n", "file: src/lib.rt\n", "old: a\nnew: b\n"):
            with self.assertRaises(DoesNotApply):
                parse_edit("tiny", "name", text)


class ReadingOutput(unittest.TestCase):
    def setUp(self):
        self.output = read_output(1, OUTPUT)

    def test_a_function_fails_by_itself_or_waits_for_another(self):
        self.assertEqual(self.output.functions["a::first"].waits_for, set())
        self.assertEqual(self.output.functions["a::second"].waits_for, {"a::first"})
        self.assertTrue(self.output.functions["a::fourth"].is_proved)

    def test_a_goal_is_told_from_a_name_that_is_gone(self):
        judged = {name: refusal(name, self.output.faults_of(f"a::{name}"), "").verdict for name in ("first", "third")}
        self.assertEqual(judged, {"first": Verdict.REFUSED, "third": Verdict.SHAPE})

    def test_what_the_check_could_not_tell_is_no_refusal(self):
        self.assertEqual(refusal("a::first", [], "could not tell: it ran out of steps").verdict, Verdict.NOT_JUDGED)

    def test_the_seconds_of_a_function_are_those_of_its_closures_too(self):
        self.output.seconds_of = {"a::first": 1.0, "fn::a::first::0": 2.0, "a::first_of_all": 4.0}
        self.assertEqual(self.output.seconds_for("a::first"), 3.0)

    def test_a_clause_that_cannot_be_read_is_no_refusal(self):
        output = read_output(1, "src/lib.rt:3:9: error: `f`: `nothing` is not in scope\nlogic=not-proved\n")
        self.assertTrue(output.errors[0].cannot_be_read)
        self.assertFalse(self.output.errors[0].cannot_be_read)

    def test_the_goal_of_a_law_is_found_in_the_lemmas_that_it_rests_on(self):
        said = [
            "./proofs/Steps.antt:18:60: error: `step`: computed as far as they go, the two types are `a` (expected) and `b` (found)",
            "./proofs/Steps.antt:20:5: error: 2 declarations that depend on `step`, which was rejected, were not checked: run, owned (via run)",
            "./proofs/laws/runs/Answers.antt:4:5: error: 1 declaration that depends on `run`, which was not admitted, was not checked: returns",
            "fn tiny::laws::runs: not proved",
            "only=1 proved=0",
        ]
        judgement = refusal("laws::runs", read_output(1, "\n".join(said)).faults_of("laws::runs"), "")
        self.assertEqual(judgement.verdict, Verdict.REFUSED)
        self.assertIn("proofs/Steps.antt", judgement.goal)

    def test_a_law_that_rests_on_a_refused_one_can_be_read(self):
        said = "1 declaration that depends on `kept`, which was rejected, was not checked: all_kept"
        output = read_output(1, f"specs/Laws.antt:7:1: error: `kept`: not equal\nspecs/Laws.antt:7:1: error: {said}\nlogic=not-proved\n")
        self.assertEqual([it.cannot_be_read for it in output.errors], [False, False])


class TakingWhatABuildProved(unittest.TestCase):
    def test_each_module_of_a_library_is_a_file(self):
        with tempfile.TemporaryDirectory(prefix="test-edits-") as room:
            os.makedirs(f"{room}/low.rlib/toolchain")
            with open(f"{room}/low.rlib/toolchain/checked.a", "wb") as it:
                it.write(b"!<arch>\nonetwo")
            with open(f"{room}/low.rlib/toolchain/checked.json", "w", encoding="utf-8") as it:
                it.write('["low.first",8,3]\n["low.first.Code",11,3]\n')
            self.assertTrue(Kept.fill(f"{room}/low.rlib", f"{room}/kept", CHECK))
            files = [(name, os.stat(f"{at}/{name}").st_size) for at, _, names in os.walk(f"{room}/kept") for name in sorted(names)]
            self.assertEqual(sorted(files), [("low.first.Code.oantt", 3), ("low.first.oantt", 3)])
            self.assertFalse(Kept.fill(f"{room}/none.rlib", f"{room}/kept", CHECK))
            for statements in '["low.first",8,3]\n', '["part/low.first",8,3]\n["part/low.first.Code",11,3]\n':
                with open(f"{room}/low.rlib/toolchain/checked.json", "w", encoding="utf-8") as it:
                    it.write(statements)
                self.assertFalse(Kept.fill(f"{room}/low.rlib", f"{room}/kept", CHECK), "a library of statements alone holds no proofs")
