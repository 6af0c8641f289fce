"""One run of ./edits over a small crate, with an edit of each verdict."""
import contextlib
import importlib.machinery
import importlib.util
import io
import os
import tempfile
import unittest
import unittest.mock

from edit_files import edit_files
from samples import SOURCE

TOP = os.path.dirname(os.path.dirname(os.path.dirname(os.path.realpath(__file__))))

# The answer names a goal that is there only while the body has its branches.
ANSWER = """use Rattle.std.proofs.Common.{rules}
use Rattle.tiny.proofs.cut.Goals as goal

pub returns-else-n-lt10 : goal.returns-else-n-lt10
returns-else-n-lt10 c = search rules
"""

# Each edit of the small crate, and the verdict on it.
EDITS = {
    "one_less.edit": ("old:     n + 1\nnew:     n + 2", "refused"),
    "more/once.md": ("old: one_more(one_more(n))\nnew: one_more(n)", "refused"),
    "more/moved.md": ("old:     5\nnew:     6", "does not apply"),
    "more/no_value.md": ("old:     3\nnew:     nothing", "does not compile"),
    "more/other_branch.md": ("old:     if n < 10 {\nnew:     if 9 >= n {", "shape"),
    # Those that name their goals, in a copy and in its place: by an answer that is given, and by the function's own. Where one is proved, it
    # is tried in every other way too.
    "more/named_eleven.md": ("goal: returns\nold:     3\nnew:     11", "refused"),
    "more/named_four.md": ("goal: returns\nold:     3\nnew:     4", "PROVED"),
    "more/named_size.md": ("goal: returns\nby: search rules\nold:         7\nnew:         11", "refused"),
    "more/named_less.md": ("goal: returns\nby: search rules\nold:         7\nnew:         8", "PROVED"),
    "more/named_past.md": ("goal: returns-else-n-lt10\nold:         10\nnew:         11", "refused"),
    "more/named_nine.md": ("goal: returns-else-n-lt10\nold:         10\nnew:         9", "PROVED"),
    # Those whose functions have answers.
    "more/past.md": ("old:         10\nnew:         12", "refused"),
    # Those of a definition, which are tried in copies of a law.
    "more/least_of_eleven.md": ("old: least = 3\nnew: least = 11", "refused"),
    "more/least_of_four.md": ("old: least = 3\nnew: least = 4", "PROVED"),
}

SPECS = {
    "specs/Lib.antt": "pub mod Numbers\npub mod Laws\n",
    "specs/Numbers.antt": "use Rattle.std.specs.Prelude.{ℕ}\n\nabbrev pub least : ℕ\nleast = 3\n",
    "specs/Laws.antt": "use Rattle.std.specs.Prelude.{◌≤◌}\nuse Rattle.tiny.specs.Numbers.{least}\n\nabbrev pub LeastIsSmall : Type 0\nLeastIsSmall = least ≤ 10\n",
}


class ASmallCrate(unittest.TestCase):
    """Every verdict, by a run of the script, in which few answers are enough to be tried first: whatever is tried first, an edit that is
    proved is found out."""

    def setUp(self):
        self.room = tempfile.TemporaryDirectory(prefix="test-edits-")
        self.addCleanup(self.room.cleanup)
        texts = {"src/lib.rt": SOURCE, "proofs/cut/Answers.antt": ANSWER, **SPECS}
        texts.update({f"must-fail/{name}": f"file: {self.file_of(text)}\n{text}\n" for name, (text, _) in EDITS.items()})
        for path, text in texts.items():
            file = f"{self.room.name}/crates/tiny/{path}"
            os.makedirs(os.path.dirname(file), exist_ok=True)
            with open(file, "w", encoding="utf-8") as it:
                it.write(text)
        with open(f"{self.room.name}/crates.txt", "w", encoding="utf-8") as it:
            it.write("tiny:\n")

    @staticmethod
    def file_of(text):
        return "specs/Numbers.antt" if "least" in text else "src/lib.rt"

    def run_script(self):
        """Runs ./edits over the crate, and gives its status and what it says."""
        script = os.path.join(TOP, "edits")
        loader = importlib.machinery.SourceFileLoader("edits", script)
        module = importlib.util.module_from_spec(importlib.util.spec_from_loader("edits", loader))
        loader.exec_module(module)
        with unittest.mock.patch("edit_rounds.FEW", 1), contextlib.redirect_stdout(io.StringIO()) as said:
            with unittest.mock.patch("sys.argv", [script, "--top", self.room.name, "--jobs", "1"]):
                return module.main(), said.getvalue()

    def test_each_verdict(self):
        self.assertEqual(len(edit_files(f"{self.room.name}/crates/tiny")), len(EDITS))
        status, said = self.run_script()
        found = dict(line.split(": ")[:2] for line in said.split("\n") if line.startswith("tiny/"))
        wanted = {f"tiny/{os.path.splitext(os.path.basename(name))[0]}": verdict for name, (_, verdict) in EDITS.items()}
        self.assertEqual(found, wanted, said)
        self.assertEqual(status, 1)
        lines = said.rstrip().split("\n")
        failed = [name for name in wanted if wanted[name] not in ("refused", "shape")]
        self.assertEqual(sorted(lines[-2 - len(failed) : -2]), sorted(f"failed: {self.line_of(said, name)}" for name in failed))
        self.assertEqual(lines[-2], "refused: 7, shape: 1, PROVED: 4, does not apply: 1, does not compile: 1, not judged: 0, not tried again: 0")
        self.assertEqual(lines[-1], "8 passed, 6 failed")

    def line_of(self, said, name):
        return next(line for line in said.split("\n") if line.startswith(f"{name}: "))
