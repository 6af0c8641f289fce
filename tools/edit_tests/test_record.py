"""When ./edits tries a crate's edits again, and what it writes to edits.txt."""
import contextlib
import importlib.machinery
import importlib.util
import io
import os
import tempfile
import unittest
from unittest import mock

from edit_record import Digests, logic_in
from edit_rounds import Judgement, Verdict
from rattle_crates import read_crates

TOP = os.path.dirname(os.path.dirname(os.path.dirname(os.path.realpath(__file__))))

LOW = """//! Sizes.
#![tactic(auto)]
ghost use Rattle.low.specs.Sizes.{is_small};

use std::alloc::Global;

/// The most.
pub const MOST: u64 = 10;

/// The least of all.
pub const fn least() -> u64 {
    LEAST_OF_ALL
}

/// A thing.
pub struct Thing {
    size: u64,
}

/// What has a size.
pub trait Sized {
    /// Whether it has none.
    ghost empty: { Self → Bool };

    /// Its size.
    fn size(&self) -> u64
        ensures { result ≤ 10 };

    /// Its size again.
    fn again(&self) -> u64
        ensures { result ≤ 11 }
    {
        self.size()
    }
}

impl Sized for Thing {
    ghost empty := { λ thing. false };

    fn size(&self) -> u64 {
        self.size
    }
}

/// The larger sizes.
#[tactic(auto, using(crate::proofs::Larger::larger))]
pub fn larger(alloc: Global, sizes: &[u64]) -> Result<Vec<u64>, AllocError>
    ensures all { IfOk result (λ more. length more.items ≡ length sizes.now) }
{
    let more = |size: u64| {
        size + 1
    };
    sizes.iter().map(more).collect(alloc)
}
"""
FILES = {
    "crates.txt": "low: thiserror\nmiddle: low\nhigh may_wait=1: middle\n",
    "crates/low/src/lib.rt": LOW,
    "crates/low/specs/Sizes.antt": "-- Whether a size is small.\npub is_small : ℕ → Bool\nis_small size = size < 10\n",
    "crates/low/proofs/Larger.antt": "pub larger : 1 ≤ 2\nlarger = omega\n",
    "crates/low/must-fail/more/most.md": "file: src/lib.rt\nold: u64 = 10\nnew: u64 = 11\n",
    "crates/middle/src/lib.rt": "/// Nothing.\npub struct Nothing;\n",
    "crates/high/src/lib.rt": "/// One.\npub fn one() -> u64\n    ensures { result ≡ 1 }\n{\n    1\n}\n",
    "crates/high/specs/Ones.antt": "pub one : ℕ\none = 1\n",
    "crates/high/proofs/one/Answers.antt": "returns c = omega\n",
    "crates/high/must-fail/two.edit": "file: src/lib.rt\nold:     1\nnew:     2\n",
    "crates/high/must-fail/more/three.md": "file: src/lib.rt\nold:     1\nnew:     3\n",
}


class OfARepository(unittest.TestCase):
    """Tests over a small repository of three crates, each on the one before it."""

    def setUp(self):
        folder = tempfile.TemporaryDirectory(prefix="edits-test-")
        self.addCleanup(folder.cleanup)
        self.top = folder.name
        for file, text in FILES.items():
            self.write(file, text)

    def read(self, file):
        with open(f"{self.top}/{file}", encoding="utf-8") as it:
            return it.read()

    def write(self, file, text):
        os.makedirs(os.path.dirname(f"{self.top}/{file}"), exist_ok=True)
        with open(f"{self.top}/{file}", "w", encoding="utf-8") as it:
            it.write(text)

    def replace(self, file, old, new):
        self.assertEqual(FILES[file].count(old), 1, old)
        self.write(file, FILES[file].replace(old, new))


class WhatVerdictsRestOn(OfARepository):
    def digest(self, logic="one"):
        crates = read_crates(self.top)
        return Digests(crates, logic).line_of(crates["high"])

    def digests_without_and_with(self, file, old, new):
        before = self.digest()
        self.replace(file, old, new)
        changed = self.digest()
        self.write(file, FILES[file])
        self.assertEqual(self.digest(), before)
        return before, changed

    def test_what_changes_in_the_crate_itself_is_tried_again(self):
        changes = [
            ("crates/high/src/lib.rt", "    1", "    2 - 1"),
            ("crates/high/specs/Ones.antt", "= 1", "= 2"),
            ("crates/high/proofs/one/Answers.antt", "omega", "search"),
            ("crates/high/must-fail/two.edit", "new:     2", "new:     4"),
            ("crates/high/must-fail/more/three.md", "new:     3", "new:     4"),
            ("crates.txt", "1: middle", "1: middle itoa"),
        ]
        for change in changes:
            with self.subTest(change):
                self.assertNotEqual(*self.digests_without_and_with(*change))

    def test_a_contract_or_a_definition_that_changes_below_makes_it_try_again(self):
        code = [
            ("≤ 10 };", "≤ 12 };"),
            ("≤ 11", "≤ 12"),
            ("≡ length sizes.now", "≤ length sizes.now"),
            ("sizes: &[u64]", "sizes: &[u32]"),
            ("    size: u64,", "    size: u32,"),
            ("Self → Bool", "Self → ℕ"),
            ("λ thing. false", "λ thing. true"),
            ("u64 = 10", "u64 = 12"),
            ("    LEAST_OF_ALL\n", "    3\n"),
            ("use std::alloc::Global", "use std::alloc::Local as Global"),
            ("Sizes.{is_small}", "Others.{is_small}"),
            ("impl Sized for Thing", "impl Sized for Other"),
            ("≤ 10 };", "≤ 10 }\n    {\n        5\n    }"),
        ]
        changes = [("crates/low/src/lib.rt", *it) for it in code]
        changes += [("crates/low/specs/Sizes.antt", "< 10", "< 11"), ("crates.txt", "middle: low", "middle:")]
        for change in changes:
            with self.subTest(change):
                self.assertNotEqual(*self.digests_without_and_with(*change))

    def test_a_body_or_a_proof_that_changes_below_does_not(self):
        code = [
            ("        self.size\n", "        self.size + 0\n"),
            ("        self.size()\n", "        let size = self.size();\n\n        size\n"),
            ("        size + 1\n", "        1 + size\n"),
            ("    sizes.iter().map(more).collect(alloc)\n", "    if sizes.len() > 1 {\n        return Vec::new(alloc);\n    }\n    Vec::new(alloc)\n"),
            ("#[tactic(auto, using(crate::proofs::Larger::larger))]\n", ""),
            ("/// The larger sizes.", "/// Larger sizes."),
        ]
        changes = [("crates/low/src/lib.rt", *it) for it in code]
        changes += [
            ("crates/low/specs/Sizes.antt", "a size is", "it is"),
            ("crates/low/proofs/Larger.antt", "omega", "search"),
            ("crates/low/must-fail/more/most.md", "11", "12"),
            ("crates.txt", "low: thiserror", "low: thiserror itoa"),
        ]
        for change in changes:
            with self.subTest(change):
                self.assertEqual(*self.digests_without_and_with(*change))

    def test_a_body_on_the_line_of_its_function_takes_nothing_else_out(self):
        self.replace("crates/low/src/lib.rt", "/// A thing.\n", "pub fn nothing() {}\n\n/// A thing.\n")
        before = self.digest()
        self.write("crates/low/src/lib.rt", self.read("crates/low/src/lib.rt").replace("    size: u64,", "    size: u32,"))
        self.assertNotEqual(self.digest(), before)

    def test_another_logic_makes_it_try_again(self):
        self.assertNotEqual(self.digest(), self.digest("two"))

    def test_another_kit_of_the_same_logic_does_not(self):
        self.assertEqual(logic_in("kit-1 logic 0a1b\n"), logic_in("kit-2 logic 0a1b\n"))
        self.assertNotEqual(logic_in("kit-1 logic 0a1b\n"), logic_in("kit-1 logic 0a1c\n"))
        self.assertRaises(ValueError, logic_in, "kit-1\n")

    def test_an_edit_more_or_less_makes_it_try_again(self):
        before = self.digest()
        self.write("crates/high/must-fail/more/four.md", FILES["crates/high/must-fail/two.edit"])
        more = self.digest()
        os.remove(f"{self.top}/crates/high/must-fail/more/four.md")
        self.assertEqual(self.digest(), before)
        os.remove(f"{self.top}/crates/high/must-fail/two.edit")
        self.assertEqual(len({before, more, self.digest()}), 3)
        self.assertTrue(before.startswith("2 refused, "))


def script():
    """./edits as a module, which its checks and builds are taken out of."""
    loader = importlib.machinery.SourceFileLoader("edits", f"{TOP}/edits")
    module = importlib.util.module_from_spec(importlib.util.spec_from_loader("edits", loader))
    loader.exec_module(module)
    return module


class ARun(OfARepository):
    def run_edits(self, *words, taken=(), meanwhile=lambda: None):
        """Runs ./edits where the check takes these edits and refuses the others: its status, what it prints, and the crates that it tries."""
        tried, said, edits = [], io.StringIO(), script()

        def try_crate(crate, crates, files, tries, show):
            meanwhile()
            tried.append(crate.name)
            return [(name, Judgement(Verdict.PROVED if name in taken else Verdict.REFUSED)) for name, _ in files], 0.0

        parts = {"try_crate": try_crate, "build_below": lambda *_: "", "is_built": lambda *_: True, "logic": lambda: "one"}
        with mock.patch.multiple(edits, **parts), mock.patch("sys.argv", ["edits", "--top", self.top, *words]):
            with contextlib.redirect_stdout(said), mock.patch("signal.signal"):
                status = edits.main()
        return status, said.getvalue(), sorted(tried)

    def test_what_stands_as_recorded_is_not_tried_again(self):
        self.assertEqual(self.run_edits()[::2], (0, ["high", "low"]))
        self.assertRegex(self.read("edits.txt"), r"^# .*\nhigh: 2 refused, [0-9a-f]{16}\nlow: 1 refused, [0-9a-f]{16}\n$")
        status, said, tried = self.run_edits()
        self.assertEqual((status, tried), (0, []))
        self.assertIn(", not tried again: 3\n0 passed, 0 failed\n", said)
        self.replace("crates/low/proofs/Larger.antt", "omega", "search")
        self.assertEqual(self.run_edits("high")[2], [])
        self.assertEqual(self.run_edits()[2], ["low"])
        self.assertEqual(self.run_edits("--anew")[2], ["high", "low"])
        self.assertEqual(self.run_edits("--anew", "low")[2], ["low"])

    def test_an_edit_that_is_not_refused_is_not_recorded(self):
        self.run_edits()
        status, said, _ = self.run_edits("--anew", taken=["three"])
        self.assertEqual((status, said.split("\n")[-2]), (1, "2 passed, 1 failed"))
        self.assertNotIn("high", self.read("edits.txt"))
        self.assertEqual(self.run_edits()[2], ["high"])

    def test_what_changes_meanwhile_is_not_recorded(self):
        self.run_edits("high", meanwhile=lambda: self.replace("crates/high/specs/Ones.antt", "= 1", "= 2"))
        self.assertFalse(os.path.exists(f"{self.top}/edits.txt"))

    def test_a_check_fails_without_a_line_and_passes_by_an_old_one(self):
        self.run_edits("low")
        status, said, tried = self.run_edits("--check")
        self.assertEqual((status, tried), (1, ["high"]))
        self.assertIn("edits.txt has no line for high: run ./edits high", said)
        self.run_edits()
        recorded = self.read("edits.txt")
        self.replace("crates/low/specs/Sizes.antt", "< 10", "< 11")
        status, said, tried = self.run_edits("--check")
        self.assertEqual((status, tried, self.read("edits.txt")), (0, ["high", "low"], recorded))
        self.assertIn("edits.txt is old: cp build/edits.txt edits.txt, and commit it (high, low)\n3 passed, 0 failed\n", said)
        self.write("edits.txt", self.read("build/edits.txt"))
        self.assertEqual(self.run_edits("--check")[::2], (0, []))

    def test_a_check_fails_by_an_edit_that_is_not_refused(self):
        self.run_edits()
        self.replace("crates/high/must-fail/two.edit", "new:     2", "new:     4")
        self.assertEqual(self.run_edits("--check", taken=["two"])[::2], (1, ["high"]))

    def test_a_line_is_no_record_of_another_number_of_edits(self):
        self.run_edits()
        self.write("edits.txt", self.read("edits.txt").replace("2 refused", "1 refused"))
        self.assertEqual(self.run_edits("--check")[2], ["high"])

    def test_the_front_end_alone_records_nothing(self):
        self.assertEqual(self.run_edits("--front")[2], ["high", "low"])
        self.assertFalse(os.path.exists(f"{self.top}/edits.txt"))


if __name__ == "__main__":
    unittest.main()
