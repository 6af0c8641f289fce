"""Which edits ./edits tries in one check, and when."""
import os
import unittest

from check_output import read_output
from edit_files import parse_edit
from edit_front import FrontEnd
from edit_queue import Queue
from edit_rounds import Rounds, Verdict, own_function
from rattle_names import Names
from rattle_sources import Sources, block_name
from samples import SOURCE, edit_of


class ChoosingBatches(unittest.TestCase):
    def batch_of(self, *edits):
        rounds = Rounds([edit_of(*it) for it in edits], Sources({"src/lib.rt": SOURCE}), lambda texts, functions: None)
        return sorted(it.edit.name for it in rounds._next_batch()[0])

    def test_edits_of_one_function_share_a_batch_in_copies(self):
        edits = ("a", "    3", "    4"), ("b", "    3", "    5"), ("c", "        10", "        11")
        self.assertEqual(self.batch_of(*edits), ["a", "b", "c"])

    def test_one_edit_a_function_of_a_trait(self):
        code = "impl Walk for Step {\n    fn next(&self) {\n        3\n    }\n}\n\nfn last() {\n    4\n}\n"
        edits = [edit_of("a", "        3", "5"), edit_of("b", "        3", "6"), edit_of("c", "    4", "5")]
        batch, texts = Rounds(edits, Sources({"src/lib.rt": code}), lambda texts, functions: None)._next_batch()
        self.assertEqual([it.path for it in batch], ["StepWalk::next", "last_edit_2"])
        self.assertEqual(texts["src/lib.rt"], code.replace("        3", "5")[:-1] + "\n\nfn last_edit_2() {\n5\n}\n")

    def test_a_function_that_waits_for_another_stands_apart_from_it(self):
        edits = [edit_of("callee", "    n + 1", "    n"), edit_of("caller", "one_more(one_more(n))", "n")]
        rounds = Rounds(edits, Sources({"src/lib.rt": SOURCE}), lambda texts, functions: None)
        rounds.trials[0].copy = None
        self.assertEqual(len(rounds._next_batch()[0]), 2)
        rounds.trials[1].apart_from.add("one_more")
        self.assertEqual(len(rounds._next_batch()[0]), 1)

    def test_a_function_of_a_type_is_in_its_module_and_one_of_a_trait_where_the_impl_is(self):
        code = "impl Walk {\n    fn start(&self) {\n    }\n}\n\nimpl Iterator for Walk {\n    fn next(&self) {\n    }\n}\n"
        sources = Sources({"src/lib.rt": "mod walking;\n\nstruct Walk;\n", "src/walking.rt": code})
        self.assertEqual([it.path for it in sources.functions], ["Walk::start", "walking::WalkIterator::next"])

    def test_a_function_that_a_trait_only_declares_has_no_body(self):
        code = "trait Walk {\n    fn start(&self, at: [u8; 4])\n        ensures { ⊤ };\n\n    fn next(&self) {\n        self.start([0; 4]);\n    }\n}\n"
        sources = Sources({"src/lib.rt": code})
        self.assertEqual(sources.with_bodies(), ["Walk::next"])
        self.assertTrue(all(code[it.start : it.end].endswith((" };", "    }")) for it in sources.functions))

    def test_a_function_that_calls_itself_has_no_proof_of_its_own(self):
        code = "fn count(n: u64) -> u64 {\n    count(n - 1)\n}\n\nimpl Words {\n    fn len(&self) -> u64 {\n        self.words.len() + len(self)\n    }\n"
        code += "\n    fn last(&self) -> u64 {\n        self.last()\n    }\n}\n"
        self.assertEqual(Sources({"src/lib.rt": code}).with_bodies(), ["Words::len"])

    def test_laws_share_a_batch_where_none_rests_on_the_other(self):
        code = "ghost use Rattle.x.specs.Laws.{Least, Sum, Order};\n\npub fn least()\n    ensures { Least }\n{\n}\n\npub fn sum()\n    ensures { Sum }\n{\n}\n"
        code += "\npub fn order()\n    ensures { Order }\n{\n}\n"
        specs = "pub Least : Type\nLeast = 1\n\npub Sum : Type\nSum = 2\n\npub Order : Type\nOrder = 3\n"
        lemmas = "use Rattle.x.specs.Laws.{Least, Sum}\n\npub least : Least\nleast = ?\n\nadded x =\n    least x\n\npub added_all : Sum\nadded_all = ?\n"
        texts = {"src/laws.rt": code, "specs/Laws.antt": specs, "proofs/Lemmas.antt": lemmas.replace("added x", "added : Sum\nadded x")}
        texts["proofs/laws/sum/Answers.antt"] = "use Rattle.x.proofs.Lemmas.{added}\nreturns c = added\n"
        sources = Sources(texts)
        self.assertEqual(Names(sources).resting_on("specs/Laws.antt", "Least"), {"laws::least", "laws::sum"})
        edits = [edit_of(name, name, "Other", "specs/Laws.antt") for name in ("Least = 1", "Sum = 2", "Order = 3")]
        rounds = Rounds(edits, sources, lambda texts, functions: None)
        self.assertEqual([it.path for it in rounds._next_batch()[0]], ["laws::least", "laws::order"])

    def test_a_name_is_followed_to_the_file_that_it_is_taken_from(self):
        low, high = "pub held : Type\nheld = 1\n", "{}\n-- held\npub High : Type\nHigh = {}\n"
        code = "ghost use Rattle.x.specs.High.{High};\n\npub fn law()\n    ensures { High }\n{\n}\n"
        rests = {
            ("", "held"): False,
            ("use Rattle.x.specs.Low.{held}", "held"): True,
            ("use Rattle.x.specs.Low.{held as kept}", "kept"): True,
            ("use Rattle.x.specs.Low as low", "low.held"): True,
            ("", "Rattle.x.specs.Low.held"): True,
        }
        for (taken, word), is_resting in rests.items():
            sources = Sources({"src/a.rt": code, "specs/Low.antt": low, "specs/High.antt": high.format(taken, word)})
            self.assertEqual(Names(sources).resting_on("specs/Low.antt", "held"), {"a::law"} if is_resting else set(), (taken, word))

    def test_an_edit_of_a_definition_is_tried_in_the_law_that_it_names(self):
        code = "pub fn least()\n    ensures { Least }\n{\n}\n\npub fn sum()\n    ensures { Least }\n{\n}\n"
        sources = Sources({"src/a.rt": code, "specs/A.antt": "pub Least : Type\nLeast = 1\n"})
        functions = [own_function(parse_edit("tiny", "name", f"file: specs/A.antt\n{law}old: = 1\nnew: = 2\n"), sources) for law in ("", "law: a::sum\n")]
        self.assertIsNone(functions[0])
        self.assertEqual(functions[1].path, "a::sum")

    def test_a_definition_that_only_a_function_without_a_body_names_has_no_law(self):
        code = "trait Walk {\n    fn start(&self)\n        ensures { Least };\n}\n"
        sources = Sources({"src/a.rt": code, "specs/A.antt": "pub Least : Type\nLeast = 1\n"})
        self.assertIsNone(sources.law_of("specs/A.antt", 20))

    def test_an_edit_whose_function_the_check_does_not_know_is_tried_alone(self):
        asked = []

        def check(texts, functions):
            asked.append(functions)
            unknown = [it for it in functions if it.startswith("one_more")]
            if unknown:
                return read_output(2, f"rattle: error: `tiny` has no function `{unknown[0]}`: help: write the name that a check prints")
            return read_output(1, "src/lib.rt:9:1: error: no\nfn tiny::cut_edit_1: not proved\nonly=1 proved=0")

        rounds = Rounds([edit_of("a", "    n + 1", "    n"), edit_of("b", "        10", "        11")], Sources({"src/lib.rt": SOURCE}), check)
        rounds._try_batch(*rounds._next_batch())
        # The copy isn't known, and then the function in its place isn't either.
        self.assertEqual((asked[1], rounds.trials[0].path), (["cut_edit_1"], "one_more"))
        rounds._try_batch(*rounds._next_batch())
        self.assertIsNone(rounds.trials[0].function)

    def test_blocks_are_named_as_a_check_names_them(self):
        self.assertEqual(block_name("impl", "<'a> Iterator for Walk<'a> "), "WalkIterator")
        self.assertEqual(block_name("impl", " From<std::alloc::AllocError> for Fault "), "FaultFromAllocError")
        self.assertEqual(block_name("impl", "<T: Drop> From<AllocFailed<T>> for Fault "), "FaultFromAllocFailed")


class LookingByTheFrontEnd(unittest.TestCase):
    SOURCES = {"src/a.rt": "fn first() {\n    3\n}\n\nfn second() {\n    5\n}\n", "specs/A.antt": "one : Bool\none = true\n"}

    def look(self, *edits):
        asked = []

        def check(texts, functions):
            asked.append(functions)
            is_bad = any("bad" in it for it in texts.values())
            return read_output(1, "src/a.rt:2:5: error: no such name") if is_bad else read_output(0, "only=0 proved=0")

        return [it.verdict for _, it in FrontEnd([*edits], Sources(self.SOURCES), check).run()], asked

    def test_the_edit_to_blame_is_found_among_those_of_one_check(self):
        edits = edit_of("a", "    3", "    4", "src/a.rt"), edit_of("b", "    5", "    bad", "src/a.rt"), edit_of("c", "    5", "    6", "src/a.rt")
        verdicts, asked = self.look(*edits)
        self.assertEqual(verdicts, [Verdict.APPLIES, Verdict.DOES_NOT_COMPILE, Verdict.APPLIES])
        self.assertTrue(all(it == [""] for it in asked), "no function is proved")

    def test_edits_that_compile_share_one_check(self):
        _, asked = self.look(edit_of("a", "    3", "    4", "src/a.rt"), edit_of("c", "    5", "    6", "src/a.rt"))
        self.assertEqual(len(asked), 1)

    def test_an_edit_of_a_definition_is_only_applied(self):
        edits = edit_of("d", "one = true", "one = bad", "specs/A.antt"), edit_of("e", "one = maybe", "one = true", "specs/A.antt")
        self.assertEqual(self.look(*edits), ([Verdict.APPLIES, Verdict.DOES_NOT_APPLY], []))


class WaitingForLibraries(unittest.TestCase):
    def test_a_crate_comes_once_it_is_ready(self):
        ready = ["low"]

        def is_ready(crate):
            # Each question makes the next crate ready, as another run would.
            found = crate in ready
            ready.append("high")
            return found

        queue = Queue(["high", "low"], is_ready, end="/nowhere", seconds_between=0)
        self.assertEqual([queue.next(), queue.next(), queue.next()], ["low", "high", None])

    def test_what_is_never_ready_is_left(self):
        queue = Queue(["low", "high"], lambda it: it == "low", end=os.path.realpath(__file__))
        self.assertEqual([queue.next(), queue.next(), queue.left], ["low", None, ["high"]])
