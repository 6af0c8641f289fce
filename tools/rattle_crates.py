"""The crates of the repository as crates.txt lists them, and checks of them by `rattle check`.

A check reads the libraries below a crate as `rt ci`, `rt check` or `rt lib` built them, in crates/NAME/out/rlib. One that is
not there, or older than what it is made from, is built first (`rt lib`)."""
from __future__ import annotations

import os
import re
import shutil
import signal
import subprocess
import threading
import time
from dataclasses import dataclass
from typing import Dict, Iterable, List, Set

from check_output import CheckOutput, read_output
from edit_kept import Kept
from rattle_sources import Sources

KIT = os.path.dirname(os.path.dirname(os.path.realpath(shutil.which("rt") or "rt")))
PARTS = ("src", "specs", "proofs")
TICKS = os.sysconf("SC_CLK_TCK")
# What a check takes of the memory at most, as seen, and with some room.
MEMORY_OF_A_CHECK = 3 << 30


@dataclass(frozen=True)
class Crate:
    """A crate: its folder, and the crates and the toolchain's libraries that its line of crates.txt names."""

    name: str
    folder: str
    crates: List[str]
    libraries: List[str]

    @property
    def rlib(self) -> str:
        return f"{self.folder}/out/rlib/{self.name}.rlib"

    @property
    def is_program(self) -> bool:
        return os.path.isfile(f"{self.folder}/src/main.rt")

    @property
    def root(self) -> str:
        return "src/main.rt" if self.is_program else "src/lib.rt"


def read_crates(top: str) -> Dict[str, Crate]:
    """The crates that crates.txt lists, by name."""
    with open(f"{top}/crates.txt", encoding="utf-8") as it:
        rows = [line.partition("#")[0].strip() for line in it]
    listed = {re.split(r"[\s:]", row)[0]: row.partition(":")[2].split() for row in rows if row}
    return {
        name: Crate(name, f"{top}/crates/{name}", [it for it in uses if it in listed], [it for it in uses if it not in listed])
        for name, uses in listed.items()
    }


def below(crate: Crate, crates: Dict[str, Crate]) -> List[Crate]:
    """The crates below a crate, each after those that it uses."""
    found: List[Crate] = []
    for name in crate.crates:
        for it in [*below(crates[name], crates), crates[name]]:
            if it not in found:
                found.append(it)
    return found


def files_of(crate: Crate) -> List[os.stat_result]:
    """What the system says of each file that the crate is made from."""
    places = [place for part in PARTS for place in os.walk(f"{crate.folder}/{part}")]
    return [os.stat(f"{at}/{it}") for at, _, names in places for it in names]


def newest(crate: Crate) -> float:
    """When the latest change of the crate's files was."""
    return max((it.st_mtime for it in files_of(crate)), default=0.0)


def size(crate: Crate) -> int:
    """How many bytes the crate's files have."""
    return sum(it.st_size for it in files_of(crate))


def built_at(crate: Crate) -> float:
    return os.stat(crate.rlib).st_mtime if os.path.isdir(crate.rlib) else 0.0


def is_built(crate: Crate, crates: Dict[str, Crate]) -> bool:
    """Whether the crate's library is there, and newer than its files and than the libraries below it."""
    under = below(crate, crates)
    times = [newest(crate), *[newest(it) for it in under], *[built_at(it) for it in under]]
    return all(built_at(it) for it in under) and built_at(crate) >= max(times)


def build(crate: Crate) -> str:
    """Has `rt lib` build a library, and returns what it said where that fails."""
    words = [f"{KIT}/bin/rt", "lib", "--jobs", "1"]
    ran = subprocess.run(words, cwd=crate.folder, stdin=subprocess.DEVNULL, stdout=subprocess.PIPE, stderr=subprocess.STDOUT, errors="replace")
    return ran.stdout if ran.returncode else ""


# A check of a crate that uses no library but std, up to the crate's name.
CHECK = [f"{KIT}/bin/rattle", "check", "--extern", f"std={KIT}/rlibs/std.rlib", "-L", f"dependency={KIT}/rlibs"]
CHECK += ["--antt-project", f"{KIT}/rattle/logic/antt-project.json", "--logic-built", f"{KIT}/logic_built", "--jobs", "1"]


def check_words(crate: Crate, crates: Dict[str, Crate]) -> List[str]:
    """The command that checks the crate in a folder that holds a copy of its files."""
    words = [*CHECK, "--crate-name", crate.name, crate.root, "--links", f"{crate.name}="]
    for name in crate.libraries:
        words += ["--extern", f"{name}={KIT}/rlibs/{name}.rlib"]
    for name in crate.crates:
        words += ["--extern", f"{name}={crates[name].rlib}"]
    for it in below(crate, crates):
        words += ["-L", f"dependency={os.path.dirname(it.rlib)}"]
    return words


HOLE = """use Rattle.{crate}.proofs.{path}.Statement.{{statement}}

pub {name}_spec : {{M : Type 1}} → statement M
{name}_spec = ?
"""
PROOF_FILES = ("Answers.antt", "Invariants.antt", "Proof.antt")
# A check of no function ends after the front end.
NO_FUNCTION = [""]


class Clock:
    """How many processor seconds a check takes for the proof of each function, as it goes by `--progress`. What comes before the
    first function ends counts for none."""

    def __init__(self, pid: int):
        self.pid, self.last, self.seconds_of = pid, -1.0, {}

    def read(self, line: str) -> None:
        """Takes a line that the check has just printed."""
        found = re.match(r"checked \w+::(\S+), \d+ of \d+", line)
        if not found:
            return
        try:
            with open(f"/proc/{self.pid}/stat", encoding="ascii", errors="replace") as it:
                fields = it.read().rpartition(")")[2].split()
        except OSError:
            return
        now = (int(fields[11]) + int(fields[12])) / TICKS
        if self.last >= 0:
            self.seconds_of[found[1]] = now - self.last
        self.last = now


def free_memory() -> int:
    with open("/proc/meminfo", encoding="ascii") as it:
        return next(int(line.split()[1]) * 1024 for line in it if line.startswith("MemAvailable:"))


def held_memory(pid: int) -> int:
    """How many bytes of memory a process holds."""
    try:
        with open(f"/proc/{pid}/statm", encoding="ascii") as it:
            return int(it.read().split()[1]) * os.sysconf("SC_PAGE_SIZE")
    except (OSError, IndexError):
        return 0


def wait_for_memory(running: Iterable[int], seconds: int = 600) -> None:
    """Waits until there is memory for a check beside those that run, which may still grow, for so long at most: what runs beside gives some
    back when it ends."""
    until = time.monotonic() + seconds
    while time.monotonic() < until:
        awaited = sum(max(0, MEMORY_OF_A_CHECK - held_memory(it)) for it in [*running])
        if free_memory() - awaited >= MEMORY_OF_A_CHECK:
            break
        time.sleep(5)


class Room:
    """A folder for checks of a crate with other texts; what they prove is kept there from one to the next.

    Where the crate's library is built, the first check takes from it what its build proved. Else a check of some functions takes
    the others by their contracts: the proof of each is a hole, and its body a loop that never ends, since what is read of a body
    takes longer than the hole. So no time goes to what says nothing of an edit, and a function that is not proved is so by its own
    text."""

    running: Set[int] = set()
    starting = threading.Lock()
    is_stopped = False
    leaves_bodies_out = True

    def __init__(self, crate: Crate, crates: Dict[str, Crate], functions: Iterable[str], folder: str):
        self.crate, self.folder, self.words = crate, folder, check_words(crate, crates)
        is_kept = is_built(crate, crates) and Kept.fill(crate.rlib, f"{folder}/kept", CHECK)
        self.with_holes = set() if is_kept else set(functions)
        sources = Sources.of_folder(crate.folder)
        self.texts, self.cycles = sources.texts, sources.cycles()
        if not is_kept:
            self.with_holes.update(*self.cycles.values())
        self.seconds, self.checks = 0.0, 0

    def check(self, texts: Dict[str, str], functions: List[str]) -> CheckOutput:
        """Checks the functions, or the whole crate where none is named, with these texts in place of the crate's own."""
        holes = self._holes(functions)
        sources = Sources({**self.texts, **texts})
        without_bodies = sources.without_bodies(holes) if self.leaves_bodies_out and functions != NO_FUNCTION else {}
        self._write({**texts, **without_bodies}, holes)
        words = [*self.words, "--incremental", "kept", *["--allow-holes"] * bool(holes)]
        for it in functions:
            words += ["--only", it]
        output = self._run(words)
        if output.unknown_function:
            return output
        faulty = {os.path.normpath(line.partition(":")[0]) for line in output.lines if re.search(r": error(\[[\w-]+\])?: ", line)}
        refused = {it for it in holes if self._proofs(it) + "Proof.antt" in faulty}
        blamed = {sources.function_on(it.file, it.line) for it in output.errors if it.file.startswith("src/")}
        if refused:
            # Where a proof by a hole is not taken, the function has its own again.
            self.with_holes -= refused
        elif without_bodies and not output.reached_the_prover and not (blamed and blamed <= {*functions}):
            # It may be a function without its body that is not taken.
            self.leaves_bodies_out = False
        elif holes and not output.reached_the_prover and not blamed:
            self.with_holes = set()
        else:
            return output
        return self.check(texts, functions)

    def _holes(self, functions: List[str]) -> Set[str]:
        """The functions whose proofs are holes where these are checked. Those of a cycle have one proof, and are in no cycle without their bodies."""
        holes = self.with_holes - {*functions} if functions else set()
        for cycle in self.cycles.values():
            if not cycle <= holes or not self.leaves_bodies_out:
                holes -= cycle
        return holes

    def _proofs(self, function: str) -> str:
        return f"proofs/{function.replace('::', '/')}/"

    def _write(self, texts: Dict[str, str], holes: Set[str]) -> None:
        """Writes the crate's files, with these texts, and with holes in place of some functions' proofs."""
        for part in PARTS:
            shutil.rmtree(f"{self.folder}/{part}", ignore_errors=True)
            if os.path.isdir(f"{self.crate.folder}/{part}"):
                shutil.copytree(f"{self.crate.folder}/{part}", f"{self.folder}/{part}")
        left_out = [name for name, cycle in self.cycles.items() if cycle <= holes]
        for at, folders, _ in os.walk(f"{self.folder}/proofs"):
            for it in {*folders} & {f"+{name}" for name in left_out}:
                shutil.rmtree(f"{at}/{it}")
        for function in holes:
            place = f"{self.folder}/{self._proofs(function)}"
            for name in PROOF_FILES:
                if os.path.isfile(place + name):
                    os.remove(place + name)
            path = function.replace("::", ".")
            texts = {**texts, self._proofs(function) + "Proof.antt": HOLE.format(crate=self.crate.name, path=path, name=path.split(".")[-1])}
        for path, text in texts.items():
            os.makedirs(os.path.dirname(f"{self.folder}/{path}"), exist_ok=True)
            with open(f"{self.folder}/{path}", "w", encoding="utf-8") as it:
                it.write(text)

    def _run(self, words: List[str]) -> CheckOutput:
        if Room.is_stopped:
            raise InterruptedError("the run was stopped")
        with Room.starting:
            wait_for_memory(Room.running)
            how = {"stdin": subprocess.DEVNULL, "stdout": subprocess.PIPE, "stderr": subprocess.STDOUT, "errors": "replace"}
            # A group that can be ended as a whole, in the same session: in one of its own, a run that gives way would get a full share.
            ran = subprocess.Popen([*words, "--progress"], cwd=self.folder, preexec_fn=os.setpgrp, **how)
            Room.running.add(ran.pid)
        lines, clock = [], Clock(ran.pid)
        with ran.stdout as said:
            for line in said:
                lines.append(line)
                clock.read(line)
        _, status, used = os.wait4(ran.pid, 0)
        Room.running.discard(ran.pid)
        ran.returncode = os.WEXITSTATUS(status) if os.WIFEXITED(status) else -os.WTERMSIG(status)
        output = read_output(ran.returncode, "".join(lines))
        output.seconds, output.seconds_of = used.ru_utime + used.ru_stime, clock.seconds_of
        self.seconds += output.seconds
        self.checks += 1
        return output

    @staticmethod
    def stop_all() -> None:
        """Ends the checks that run, and begins no other."""
        Room.is_stopped = True
        for pid in [*Room.running]:
            os.killpg(pid, signal.SIGKILL)
