"""Edits that name the goal that they make false."""
import unittest
import unittest.mock
from dataclasses import replace

from check_output import read_output
from edit_copies import answer_alone, with_answer
from edit_files import parse_edit, with_names
from edit_names import COSTLIEST, Naming, costliest_in
from edit_rounds import Judgement, Rounds, Verdict, Way
from rattle_sources import Sources
from samples import edit_of


class NamingGoals(unittest.TestCase):
    """An edit that names the goal that it makes false is tried by the answer of that goal alone."""

    CODE = "fn small() {\n    3\n}\n"
    IN_PLACE = "impl T for A {\n    fn small() {\n    3\n    }\n}\n"

    def test_an_edit_names_a_goal_and_what_proves_it(self):
        edit = parse_edit("tiny", "name", "file: src/a.rt\ngoal: returns\nby: search rules\nold: a\nnew: b\n")
        self.assertEqual((edit.goal, edit.by), ("returns", "search rules"))
        text = "What it is.\nfile: src/a.rt\nold: a\nnew: b\n"
        self.assertEqual(with_names(text, edit), text.replace("old:", "goal: returns\nby: search rules\nold:"))
        self.assertEqual(with_names(with_names(text, edit), edit), with_names(text, edit))
        self.assertEqual(with_names(text, replace(edit, by="grind (arith, common_steps)")), text.replace("old:", "goal: returns\nold:"))

    def test_an_answer_stands_alone_with_what_it_names(self):
        given = "use A.{b}\n\nlow : A\nlow = b\n\npub one : goal.one\none c = low\n\npub two : goal.two\ntwo c = one c\n\npub three : goal.three\nthree c = b\n"
        self.assertEqual(answer_alone(given, "two").count("goal."), 2)
        for kept in ("use A.{b}\n", "low = b\n", "one c = low\n", "two c = one c\n"):
            self.assertIn(kept, answer_alone(given, "two"))
        self.assertNotIn("three", answer_alone(given, "two"))

    def rounds(self, code, said="", by="by: search rules\n", **proofs):
        """The trials of an edit of a small function that names its goal, over checks that say this."""
        self.checked = []

        def check(texts, functions):
            self.checked.append((texts, functions))
            return read_output(1, said)

        edit = parse_edit("tiny", "a", f"file: src/a.rt\ngoal: returns\n{by}old:     3\nnew:     4\n")
        return Rounds([edit], Sources({"src/a.rt": code, **{f"proofs/{name}.antt": it for name, it in proofs.items()}}), check)

    def test_a_copy_has_the_answer_of_its_goal_alone_and_so_has_one_with_no_edit(self):
        batch, texts = self.rounds(self.CODE)._next_batch()
        self.assertEqual(batch[0].paths, ["a::small_edit_0", "a::small_with_no_edit"])
        for name in ("small_edit_0", "small_with_no_edit"):
            self.assertIn("\nreturns c = search rules\n", texts[f"proofs/a/{name}/Answers.antt"])
            self.assertIn(f"#[tactic(none)]\nfn {name}()", texts["src/a.rt"])

    def test_where_nothing_is_said_of_it_the_answer_is_the_usual_one(self):
        _, texts = self.rounds(self.CODE, by="")._next_batch()
        for name in ("small_edit_0", "small_with_no_edit"):
            self.assertIn("\nreturns c = grind (arith, common_steps)\n", texts[f"proofs/a/{name}/Answers.antt"])

    def test_the_answer_of_the_function_itself_needs_no_copy_with_no_edit(self):
        given = "pub returns : goal.returns\nreturns c = refl\n\npub overflow : goal.overflow\noverflow c = refl\n"
        batch, texts = self.rounds(self.CODE, **{"a/small/Answers": given})._next_batch()
        self.assertEqual(batch[0].paths, ["a::small_edit_0"])
        self.assertIn("returns c = refl", texts["proofs/a/small_edit_0/Answers.antt"])
        self.assertNotIn("overflow", texts["proofs/a/small_edit_0/Answers.antt"])

    def said(self, edited, with_no_edit):
        lines = ["./proofs/a/small_edit_0/Answers.antt:4:1: error: `returns`: `search`: no proof"] * edited
        lines += ["./proofs/a/small_with_no_edit/Answers.antt:4:1: error: `returns`: `search`: no proof"] * (with_no_edit == "refused")
        lines += ["fn tiny::a::small_edit_0: not proved"]
        lines += ["fn tiny::a::small_with_no_edit: " + ("no proof: it calls `tiny::a::x`" if with_no_edit == "unread" else "not proved")]
        return "\n".join([*lines, "only=2 proved=0"])

    def test_it_is_refused_where_its_goal_is_not_proved_and_that_of_the_function_as_it_stands_is(self):
        for edited, with_no_edit, is_refused in (True, "taken", True), (False, "taken", False), (True, "refused", False), (True, "unread", False):
            rounds = self.rounds(self.CODE, self.said(edited, with_no_edit))
            rounds._try_batch(*rounds._next_batch())
            trial = rounds.trials[0]
            self.assertEqual((bool(trial.judgement), trial.way), (is_refused, Way.NAMED if is_refused else Way.GOALS), (edited, with_no_edit))

    def test_a_function_in_its_place_takes_the_answer_in_a_check_before(self):
        refused = "./proofs/a/AT/small/Answers.antt:4:1: error: `returns`: `search`: no proof\n"
        for before, way in ("", Way.NAMED), (refused, Way.GOALS):
            rounds = self.rounds(self.IN_PLACE, before + "fn tiny::a::AT::small: not proved\nonly=1 proved=0")
            rounds._try_answers()
            texts, functions = self.checked[0]
            self.assertEqual((functions, "    3" in texts["src/a.rt"], "#[tactic(none)]" in texts["src/a.rt"]), (["a::AT::small"], True, True))
            batch, texts = rounds._next_batch()
            self.assertEqual(("    4" in texts["src/a.rt"], "#[tactic(none)]" in texts["src/a.rt"]), (True, True))
            rounds.check = lambda texts, functions: read_output(1, refused + "fn tiny::a::AT::small: not proved\nonly=1 proved=0")
            rounds._try_batch(batch, texts)
            self.assertEqual((rounds.trials[0].way, bool(rounds.trials[0].judgement)), (way, way is Way.NAMED))

    def test_a_function_with_no_answer_but_what_its_search_would_find_is_searched_at_once(self):
        answer = "use A.{b}\n\npub returns : goal.returns\nreturns c = %s\n"
        for by, way in ("search rules", Way.GOALS), ("grind (arith, common_steps)", Way.GOALS), ("grind (arith, my_lemma)", Way.ANSWERS), ("b c", Way.ANSWERS):
            sources = Sources({"src/a.rt": self.CODE, "proofs/a/small/Answers.antt": answer % by})
            with unittest.mock.patch("edit_rounds.FEW", 1):
                self.assertEqual(Rounds([edit_of("a", "    3", "    4", "src/a.rt")], sources, None).trials[0].way, way, by)

    def test_an_answer_is_added_with_what_it_names(self):
        alone = "use Rattle.std.proofs.Common.{rules}\nuse Rattle.tiny.proofs.a.T.small.Goals as goal\n\npub returns : goal.returns\nreturns c = search rules\n"
        self.assertEqual(with_answer("", "tiny", "a::T::small", "returns", "search rules"), alone)
        more = with_answer(alone, "tiny", "a::T::small", "overflow", "grind (arith, common_steps)")
        self.assertEqual(
            more,
            alone.replace("{rules}", "{rules, arith}")
            .replace(" as goal\n", " as goal\nuse Rattle.std.proofs.lemmas.Grind.{common_steps}\n")
            + "\npub overflow : goal.overflow\noverflow c = grind (arith, common_steps)\n",
        )
        self.assertEqual(with_answer(more, "tiny", "a::T::small", "else", "grind (arith, common_steps)").count("use "), 3)

    def named(self, seconds_by_name):
        """What a costly edit names, and what the function then answers, where the edit's search takes 9 seconds, and its goal by name so many;
        and the forms that were tried."""
        forms = []

        def check(texts, functions):
            answers = texts.get("proofs/a/small_edit_0/Answers.antt", "")
            form = answers.partition("returns c = ")[2].partition("\n")[0]
            forms.append(form)
            said = "" if form else "note: src/a.rt:6:1: it is not proved (`returns`)\n"
            output = read_output(1, said + self.said(bool(form), "taken" if form == "search rules" else "refused"))
            output.seconds_of = {"a::small_edit_0": seconds_by_name if form else 9.0}
            return output

        naming = Naming([edit_of("a", "    3", "    4", "src/a.rt")], Sources({"src/a.rt": self.CODE}), check)
        named = naming.run()
        return [(it.goal, it.by) for it, _ in named], naming.answers, forms

    def test_a_costly_edit_names_the_goal_that_failed_and_its_function_answers_it_by_the_first_form_that_proves_it(self):
        named, answers, forms = self.named(6.0)
        self.assertEqual(named, [("returns", "")])
        self.assertEqual([*answers], ["proofs/a/small/Answers.antt"])
        self.assertIn("\nreturns c = search rules\n", answers["proofs/a/small/Answers.antt"])
        self.assertEqual((forms[0], forms[-1]), ("", "search rules"))

    def test_a_costly_edit_names_no_goal_where_that_takes_as_long(self):
        self.assertEqual(self.named(9.0)[:2], ([("", "")], {}))

    def test_what_the_function_as_it_stands_takes_in_the_run_becomes_its_answer(self):
        for with_no_edit, answers in ("taken", ["proofs/a/small/Answers.antt"]), ("refused", []):
            edit = parse_edit("tiny", "a", "file: src/a.rt\ngoal: returns\nold:     3\nnew:     4\n")
            checks = iter([self.said(True, with_no_edit), *["note: src/a.rt:6:1: it is not proved (`returns`)\nfn tiny::a::small_edit_0: not proved\nonly=1 proved=0"] * 2])
            naming = Naming([edit], Sources({"src/a.rt": self.CODE}), lambda texts, functions: read_output(1, next(checks)))
            self.assertEqual([it.verdict.value for _, it in naming.run()], ["refused"])
            self.assertEqual([*naming.answers], answers)

    def test_a_copy_keeps_its_number_from_check_to_check(self):
        edits = [edit_of(name, "    3", "    4", "src/a.rt") for name in ("a", "b")]
        paths = []

        def check(texts, functions):
            paths.append(functions)
            form = any("returns c = " in it for it in texts.values())
            number = 0 if "a::small_edit_0" in functions else 1
            said = self.said(form, "taken").replace("edit_0", f"edit_{number}")
            output = read_output(1, ("" if form else "note: src/a.rt:6:1: it is not proved (`returns`)\n") + said)
            output.seconds_of = {"a::small_edit_1": 1.0 if form else 9.0}
            return output

        Naming(edits, Sources({"src/a.rt": self.CODE}), check, {"tiny/b": Judgement(Verdict.REFUSED, goal_name="returns", seconds=9.0)}).run()
        self.assertEqual(paths, [["a::small_edit_1", "a::small_with_no_edit"]])

    def test_a_goal_that_is_answered_in_the_same_run_has_one_answer(self):
        naming = Naming([], Sources({"src/a.rt": self.CODE}), None)
        for by in ("search rules", "search (tests, rules)"):
            naming._answer("a::small", parse_edit("tiny", "a", f"file: src/a.rt\ngoal: returns\nby: {by}\nold: 3\nnew: 4\n"))
        self.assertEqual([it.count("search") for it in naming.answers.values()], [1])

    def test_what_a_run_said_of_costly_edits_is_read_again(self):
        found = costliest_in("tiny/a: refused\n" + COSTLIEST.format(seconds=12.3, checks=2, label="tiny/a", goal="returns") + "\n")
        self.assertEqual([(label, it.goal_name, it.seconds, it.checks) for label, it in found.items()], [("tiny/a", "returns", 12.0, 2)])

    def test_what_no_answer_refuses_is_searched_for_at_once(self):
        answers = {"a/small/Answers": "pub overflow : goal.overflow\noverflow c = refl\n"}
        said = "fn tiny::a::small_edit_0: not proved\nonly=1 proved=0"
        checks = iter(["", "note: src/a.rt:6:1: it is not proved (`returns-anew`)\n", *[self.said(True, "refused")] * 9])
        sources = Sources({"src/a.rt": self.CODE, **{f"proofs/{name}.antt": it for name, it in answers.items()}})
        with unittest.mock.patch("edit_rounds.FEW", 1):
            edit = edit_of("a", "    3", "    4", "src/a.rt")
            named = Naming([edit], sources, lambda texts, functions: read_output(1, next(checks) + said)).run()
            self.assertEqual([(it.goal, it.by) for it, _ in named], [("returns-anew", "search")])
            self.assertEqual(Rounds([edit], sources, None).trials[0].way, Way.ANSWERS)
            self.assertEqual(Rounds([named[0][0]], sources, None).trials[0].way, Way.GOALS)

    def test_an_edit_in_its_place_names_a_goal_that_the_function_answers_or_is_given_an_answer_to(self):
        given = "pub returns : goal.returns\nreturns c = refl\n"
        place = "proofs/a/AT/small/Answers.antt"
        # (searched for; then by name: the function as it stands, and the edited one)
        for answers, checks, found in ({place: given}, 1, []), ({}, 3, [place]):
            checked = []

            def check(texts, functions):
                checked.append(functions)
                is_by_name, is_edited = "#[tactic(none)]" in texts.get("src/a.rt", ""), "    4" in texts.get("src/a.rt", "")
                said = f"./{place}:4:1: error: `returns`: `search`: no proof\n" if is_edited else ""
                said = said if is_by_name else "note: src/a.rt:3:1: it is not proved (`returns`)\n"
                output = read_output(1, said + "fn tiny::a::AT::small: not proved\nonly=1 proved=0")
                output.seconds_of = {"a::AT::small": 2.0 if is_by_name else 9.0}
                return output

            naming = Naming([edit_of("a", "    3", "    4", "src/a.rt")], Sources({"src/a.rt": self.IN_PLACE, **answers}), check)
            self.assertEqual([(it.goal, it.by) for it, _ in naming.run()], [("returns", "")])
            self.assertEqual((len(checked), [*naming.answers]), (checks, found))
