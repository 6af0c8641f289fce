"""The copies of functions and of laws in which ./edits tries edits, and what it leaves out of the others."""
import os
import tempfile
import unittest
import unittest.mock

from check_output import ON_PURPOSE, read_output
from edit_copies import copy_of
from edit_files import parse_edit
from edit_rounds import Rounds, Way
from rattle_crates import Crate, Room
from rattle_sources import Sources
from samples import edit_of


class CopyingFunctions(unittest.TestCase):
    def copy_in(self, code, new="    4", **proofs):
        sources = Sources({"src/a.rt": code, **{f"proofs/{name}.antt": it for name, it in proofs.items()}})
        function = next(it for it in sources.functions if it.name == "small")
        return copy_of(edit_of("name", "    3", new, "src/a.rt"), function, 7, sources)

    def test_a_copy_has_the_text_of_the_function_its_attributes_and_the_edit(self):
        copy = self.copy_in("use b::c;\n/// A number;\n#[tactic(auto)]\nfn small() {\n    3\n}\n")
        self.assertEqual(copy.path, "a::small_edit_7")
        self.assertEqual(copy.text, "/// A number;\n#[tactic(auto)]\nfn small_edit_7() {\n    4\n}")

    def test_a_copy_has_the_proof_files_of_the_function(self):
        proofs = {"a/small/Answers": "use Rattle.x.proofs.a.small.Goals as goal\nuse Rattle.x.proofs.a.smaller.Met"}
        copy = self.copy_in("fn small() {\n    3\n}\n", **proofs)
        wanted = "use Rattle.x.proofs.a.small_edit_7.Goals as goal\nuse Rattle.x.proofs.a.smaller.Met"
        self.assertEqual(copy.proofs, {"proofs/a/small_edit_7/Answers.antt": wanted})

    def test_there_is_no_copy_where_a_lemma_names_the_goals(self):
        code = "fn small() {\n    3\n}\n"
        self.assertIsNone(self.copy_in(code, Lemmas="use Rattle.x.proofs.a.small.Given as given"))
        self.assertIsNotNone(self.copy_in(code, Lemmas="use Rattle.x.proofs.a.small.Met"))

    def test_a_copy_of_a_function_in_a_cycle_has_its_own_part_of_the_proof_and_a_control(self):
        answers = """use Rattle.x.proofs.a.+numbers.Goals as goal

pub large-returns : goal.large-returns
large-returns t c = refl

pub small-returns : goal.small-returns
small-returns g t c =
    refl
"""
        measures = "abbrev pub decreases-small : goal.decreases-small\ndecreases-small l = l.n\n"
        code = "/// A number.\n#[cycle(numbers)]\nfn small() {\n    3\n    large()\n}\n"
        copy = self.copy_in(code, **{"a/+numbers/Answers": answers, "a/+numbers/Invariants": measures})
        self.assertEqual(copy.text, "/// A number.\nfn small_edit_7() {\n    4\n    large()\n}")
        wanted = "use Rattle.x.proofs.a.small_edit_7.Goals as goal\n\npub returns : goal.returns\nreturns g c =\n    refl\n"
        self.assertEqual(copy.proofs, {"proofs/a/small_edit_7/Answers.antt": wanted})
        self.assertEqual(copy.control.text, "/// A number.\nfn small_with_no_edit() {\n    3\n    large()\n}")

    def test_a_copy_of_a_function_that_calls_itself_calls_the_function(self):
        answers = "use Rattle.x.proofs.a.+small.Goals as goal\n\npub small-requires : goal.small-requires\nsmall-requires t c = refl\n"
        copy = self.copy_in("fn small() {\n    3\n    small()\n}\n", **{"a/+small/Answers": answers})
        self.assertEqual(copy.text, "fn small_edit_7() {\n    4\n    small()\n}")
        wanted = answers.replace("a.+small.", "a.small_edit_7.").replace("requires t c", "requires c")
        self.assertEqual(copy.proofs, {"proofs/a/small_edit_7/Answers.antt": wanted})

    def test_what_an_edit_makes_call_itself_is_tried_in_its_place_and_whole(self):
        for code, call in ("fn small() {\n    3\n}\n", "small()"), ("struct A;\nimpl A {\n    fn small() {\n    3\n    }\n}\n", "A::small()"):
            trial = Rounds([edit_of("a", "    3", f"    {call}", "src/a.rt")], Sources({"src/a.rt": code}), None).trials[0]
            self.assertEqual((trial.copy, trial.way), (None, Way.WHOLE))

    def test_a_copy_is_not_believed_where_its_control_is_not_proved(self):
        sources = Sources({"src/a.rt": "fn small() {\n    3\n    small()\n}\n"})
        said = "note: src/a.rt:6:1: it is not proved (`returns`)\nfn tiny::a::small_edit_0: not proved\nfn tiny::a::small_with_no_edit: {}\nonly=2 proved=0"
        for control, function in ("proved", "a::small_edit_0"), ("not proved", "a::small"):
            rounds = Rounds([edit_of("a", "    3", "    4", "src/a.rt")], sources, lambda texts, functions: read_output(1, said.format(control)))
            rounds._try_batch(*rounds._next_batch())
            self.assertEqual((rounds.trials[0].path, bool(rounds.trials[0].judgement)), (function, control == "proved"))


class OfferingNothing(unittest.TestCase):
    """Among the answers of an edited function stands what is refused on purpose, so that the check offers no answers."""

    def rounds(self, code, said, **proofs):
        sources = Sources({"src/a.rt": code, **{f"proofs/{name}.antt": it for name, it in proofs.items()}})
        return Rounds([edit_of("a", "    3", "    4", "src/a.rt")], sources, lambda texts, functions: read_output(1, said))

    def test_it_stands_behind_the_answers_of_a_copy_and_of_a_function_in_its_place(self):
        for code, path in ("fn small() {\n    3\n}\n", "a/small_edit_0"), ("impl T for A {\n    fn small() {\n    3\n    }\n}\n", "a/AT/small"):
            _, texts = self.rounds(code, "", **{f"{path.replace('_edit_0', '')}/Answers": "pub returns : goal.returns"})._next_batch()
            self.assertTrue(texts[f"proofs/{path}/Answers.antt"].startswith("pub returns : goal.returns\n"))
            self.assertIn(ON_PURPOSE, texts[f"proofs/{path}/Answers.antt"])

    def test_an_edit_is_refused_by_a_goal_of_its_own_alone(self):
        line = "fn tiny::a::small_edit_0: not proved\nonly=1 proved=0"
        on_purpose = f"./proofs/a/small_edit_0/Answers.antt:2:22: error: `{ON_PURPOSE}`: expected type `Type 0`\n"
        for goal, way in ("", Way.WHOLE), ("note: src/a.rt:6:1: it is not proved (`returns`)\n", Way.GOALS):
            rounds = self.rounds("fn small() {\n    3\n}\n", on_purpose + goal + line)
            rounds._try_batch(*rounds._next_batch())
            trial = rounds.trials[0]
            self.assertEqual((trial.way, bool(trial.judgement)), (way, way is Way.GOALS))
            self.assertEqual(any(ON_PURPOSE in it for it in rounds._applied([trial]).values()), way is Way.GOALS)

    def test_what_fails_by_its_shape_alone_is_tried_whole_and_in_its_place(self):
        gone = "./proofs/a/small_edit_0/Answers.antt:5:4: error: `returns`: record `View` has no field `if-x`\n"
        rounds = self.rounds("fn small() {\n    3\n}\n", gone + "fn tiny::a::small_edit_0: not proved\nonly=1 proved=0")
        rounds._try_batch(*rounds._next_batch())
        trial = rounds.trials[0]
        self.assertEqual((trial.judgement, trial.path, trial.way), (None, "a::small", Way.WHOLE))

    def test_a_copy_with_answers_is_first_tried_by_them_alone(self):
        code, answers = "#[tactic(auto)]\nfn small() {\n    3\n}\n", {"a/small/Answers": "pub returns : goal.returns\nreturns c = refl\n"}
        left_open = "note: src/a.rt:6:1: it is not proved (`overflow`)\nfn tiny::a::small_edit_0: not proved\nonly=1 proved=0"
        taken = "./proofs/a/small_edit_0/Answers.antt:2:1: error: `returns`: expected type `A`\n"
        for said, way in (left_open, Way.GOALS), (taken + left_open, Way.ANSWERS):
            with unittest.mock.patch("edit_rounds.FEW", 1):
                rounds = self.rounds(code, said, **answers)
            batch, texts = rounds._next_batch()
            self.assertIn("#[tactic(none)]\nfn small_edit_0()", texts["src/a.rt"])
            rounds._try_batch(batch, texts)
            self.assertEqual((rounds.trials[0].way, bool(rounds.trials[0].judgement)), (way, way is Way.ANSWERS))
            self.assertEqual(rounds._applied(batch)["src/a.rt"].count("#[tactic(none)]"), way is Way.ANSWERS)


class LeavingProofsOut(unittest.TestCase):
    def test_only_a_function_whose_hole_is_not_taken_has_its_proof_again(self):
        said = ["./proofs/a/loops/Proof.antt: error[reserved-name]: rattle generates the module at this path\n", "only=1 holes=1\n"]
        left_out = []

        class Recorded(Room):
            def _write(self, texts, holes):
                left_out.append(sorted(holes))

            def _run(self, words):
                return read_output(1, said.pop(0))

        room = Recorded(Crate("tiny", "/nowhere", [], []), {}, ["a::first", "a::loops", "a::second"], "/nowhere")
        self.assertEqual(room.check({}, ["a::first"]).lines, ["only=1 holes=1"])
        self.assertEqual(left_out, [["a::loops", "a::second"], ["a::second"]])


    def test_where_a_function_has_a_hole_its_body_is_left_out_and_each_line_stays(self):
        text = """fn plain(n: u8) -> u8 {
    n
}

impl Pair {
    fn stated(&self) -> u8
        ensures { result ≡ self.now.first }
    {
        if self.first == 0 {
            return 0;
        }
        self.first
    }
}

const fn size() -> usize {
    4
}

#[cycle(parity)]
fn even(n: u8) -> bool {
    n == 0 || odd(n - 1)
}

fn edited() {
    plain(1);
}
"""
        sources = Sources({"src/a.rt": text})
        paths = {it.path for it in sources.functions}
        short = sources.without_bodies(paths - {"a::edited"})["src/a.rt"]
        self.assertEqual(short.count("\n"), text.count("\n"))
        self.assertEqual(len({it.path for it in Sources({"src/a.rt": short}).functions} & paths), len(paths))
        for kept in ("ensures { result ≡ self.now.first }\n    { loop {}\n", "    4\n", "plain(1);\n"):
            self.assertIn(kept, short)
        for gone in ("    n\n", "return 0", "self.first\n", "odd(n - 1)", "#[cycle"):
            self.assertNotIn(gone, short)

    def test_functions_of_a_cycle_have_holes_together_and_no_file_of_their_proof(self):
        cycle = "#[cycle(parity)]\nfn even() -> bool {\n    odd()\n}\n\n#[cycle(parity)]\nfn odd() -> bool {\n    even()\n}\n"
        own = "fn count() {\n    count()\n}\n\nfn last() {\n    3\n}\n"
        with tempfile.TemporaryDirectory(prefix="test-edits-") as folder:
            for name in ("src", "room", "proofs/a/+parity", "proofs/a/+count", "proofs/a/last"):
                os.makedirs(f"{folder}/{name}")
            with open(f"{folder}/src/a.rt", "w", encoding="utf-8") as it:
                it.write(cycle + "\n" + own)
            room = Room(Crate("tiny", folder, [], []), {}, ["a::even", "a::odd", "a::last"], f"{folder}/room")
            self.assertEqual(room._holes(["a::last"]), {"a::even", "a::odd", "a::count"})
            self.assertEqual(room._holes(["a::odd"]), {"a::last", "a::count"})
            room._write({}, room._holes(["a::odd"]))
            self.assertEqual(sorted(os.listdir(f"{folder}/room/proofs/a")), ["+parity", "count", "last"])

    def bodies_left_out(self, *said):
        """Whether bodies were left out in each check of a function, where the checks say this, and what came of it."""
        said, found = [*said], []

        class Recorded(Room):
            def _write(self, texts, holes):
                found.append("loop {}" in texts.get("src/a.rt", ""))

            def _run(self, words):
                return read_output(1, said.pop(0))

        with tempfile.TemporaryDirectory(prefix="test-edits-") as folder:
            os.mkdir(f"{folder}/src")
            with open(f"{folder}/src/a.rt", "w", encoding="utf-8") as it:
                it.write("fn first() {\n    3\n}\n\nfn second() {\n    5\n}\n")
            room = Recorded(Crate("tiny", folder, [], []), {}, ["a::first", "a::second"], folder)
            return found, room.check({}, ["a::first"]).lines

    def test_where_a_function_without_its_body_is_refused_all_have_their_bodies(self):
        found, lines = self.bodies_left_out("src/a.rt:5:1: error: an evaluated function never ends\n", "only=1 holes=1\n")
        self.assertEqual((found, lines), ([True, False], ["only=1 holes=1"]))

    def test_where_the_function_that_is_checked_is_refused_it_is_to_blame_itself(self):
        found, lines = self.bodies_left_out("src/a.rt:2:5: error: no such name\n")
        self.assertEqual((found, lines), ([True], ["src/a.rt:2:5: error: no such name"]))


class CopyingLaws(unittest.TestCase):
    """Edits of definitions that cannot share a check in their places are tried in copies of laws."""

    LAWS = "ghost use Rattle.tiny.specs.Laws.{Least, Sum};\n\n/// Least.\npub fn least()\n    ensures { Least }\n{}\n\npub fn sum()\n    ensures { Sum }\n{}\n"
    TEXTS = {
        "src/laws.rt": LAWS,
        "specs/Lib.antt": "pub mod Low\npub mod Other\npub mod Laws\n",
        "specs/Low.antt": "pub low : Type\nlow = 1\n",
        "specs/Other.antt": "pub other : Type\nother = 1\n",
        "specs/Laws.antt": "use Rattle.tiny.specs.Low.{low}\nuse Rattle.tiny.specs.Other.{other}\n\npub Least : Type\nLeast = low\n\npub Sum : Type\nSum = other\n",
        "proofs/Lib.antt": "mod Lemmas\n",
        "proofs/Lemmas.antt": "use Rattle.tiny.specs.Low.{low}\n\nlowest : low\nlowest = ?\n",
        "proofs/laws/least/Answers.antt": "use Rattle.tiny.proofs.Lemmas.{lowest}\nuse Rattle.tiny.proofs.laws.least.Goals as goal\n",
    }

    def edits(self, *changes):
        law = "law: laws::least\n"
        return [parse_edit("tiny", f"e{n}", f"file: specs/Low.antt\n{law}old: {old}\nnew: {new}\n") for n, (old, new) in enumerate(changes)]

    def rounds(self, *changes, said="", **texts):
        sources = Sources({**self.TEXTS, **{it.replace("__", "/") + ".antt": text for it, text in texts.items()}})
        return Rounds(self.edits(*changes), sources, lambda texts, functions: read_output(1, said))

    TWO = ("low = 1", "low = 2"), ("low = 1", "low = 3")

    def test_the_files_that_rest_on_the_edited_one_are_copied_with_the_law(self):
        batch, texts = self.rounds(*self.TWO)._next_batch()
        self.assertEqual([it.path for it in batch], ["laws::least_edit_0", "laws::least_edit_1"])
        self.assertEqual(texts["specs/Low_edit_1.antt"], "pub low : Type\nlow = 3\n")
        self.assertEqual(texts["specs/Low_with_no_edit.antt"], self.TEXTS["specs/Low.antt"])
        self.assertIn("use Rattle.tiny.specs.Low_edit_1.{low}\nuse Rattle.tiny.specs.Other.{other}", texts["specs/Laws_edit_1.antt"])
        self.assertIn("use Rattle.tiny.specs.Low_edit_1.{low}", texts["proofs/Lemmas_edit_1.antt"])
        wanted = "use Rattle.tiny.proofs.Lemmas_edit_1.{lowest}\nuse Rattle.tiny.proofs.laws.least_edit_1.Goals as goal\n"
        self.assertEqual(texts["proofs/laws/least_edit_1/Answers.antt"], wanted)
        for line in ("ghost use Rattle.tiny.specs.Laws_edit_1.{Least as Least_edit_1};", "pub fn least_edit_1()\n    ensures { Least_edit_1 }"):
            self.assertIn(line, texts["src/laws.rt"])
        self.assertIn("\npub mod Low_edit_1\n", texts["specs/Lib.antt"])
        self.assertIn("\nmod Lemmas_edit_1\n", texts["proofs/Lib.antt"])
        self.assertEqual(texts["specs/Lib.antt"].count("pub mod Low_with_no_edit\n"), 1)
        self.assertEqual({it.control.path for it in batch}, {"laws::least_with_no_edit"})

    def test_an_edit_that_disturbs_no_other_is_tried_in_its_place(self):
        batch, texts = self.rounds(self.TWO[0])._next_batch()
        self.assertEqual([it.path for it in batch], ["laws::least"])
        self.assertEqual([*texts], ["specs/Low.antt"])

    def test_there_is_no_copy_where_a_lemma_speaks_of_a_function(self):
        lemmas = self.TEXTS["proofs/Lemmas.antt"] + "\nuse Rattle.tiny.proofs.laws.sum.Met\n"
        self.assertEqual([it.copy for it in self.rounds(*self.TWO, proofs__Lemmas=lemmas).trials], [None, None])

    def test_an_edit_of_a_definition_in_its_place_stands_apart_from_copies_of_what_rests_on_it(self):
        code = "ghost use Rattle.tiny.specs.Low.{low};\n\nfn user()\n    ensures { low }\n{\n    3;\n}\n"
        edits = [parse_edit("tiny", "law", "file: specs/Low.antt\nlaw: laws::least\nold: low = 1\nnew: low = 2\n"), edit_of("code", "    3;", "    4;", "src/a.rt")]
        rounds = Rounds(edits, Sources({**self.TEXTS, "src/a.rt": code}), lambda texts, functions: None)
        self.assertEqual(len(rounds._next_batch()[0]), 1)

    def test_it_is_refused_where_the_copy_is_not_proved_and_that_with_no_edit_is(self):
        error = "./proofs/Lemmas_edit_0.antt:4:1: error: `lowest`: not so\n"
        line = "fn tiny::laws::least_edit_0: {}\nfn tiny::laws::least_edit_1: proved\nfn tiny::laws::least_with_no_edit: {}\nonly=3 proved=0"
        refused = "not proved; it stands on `x`, which antt refuses"
        for said, is_refused in (error + line.format(refused, "proved"), True), (line.format("proved", "proved"), False), (error + line.format(refused, refused), False):
            rounds = self.rounds(*self.TWO, said=said)
            rounds._try_batch(*rounds._next_batch())
            first, second = rounds.trials
            self.assertEqual((bool(first.judgement), second.judgement), (is_refused, None))
            self.assertEqual((first.path, second.path), ("laws::least_edit_0" if is_refused else "laws::least", "laws::least"))
