"""What the build of a library proved, as a check of the same crate takes it. A library holds each module that its build checked, and a
check with `--incremental` takes from its folder each module there that is up to date. So edits over a crate that has just been
built cost the proofs of what they change, and of nothing else."""
from __future__ import annotations

import json
import os
import shutil
import subprocess
import tempfile
import threading
from typing import List, Optional

EMPTY = "//! A crate with nothing in it.\n#![tactic(auto)]\n"


class Kept:
    """Fills folders for `--incremental`. The folder has one folder for each build of the toolchain, whose name a check of an empty crate tells."""

    lock, name, is_known = threading.Lock(), None, False

    @classmethod
    def fill(cls, library: str, folder: str, words: List[str]) -> bool:
        """Puts what a built library holds into a folder for `--incremental`, and says whether it could; the words are those of a check
        of any crate, up to the crate's name."""
        if not holds_proofs(f"{library}/toolchain/checked.json") or not cls._name(words):
            return False
        try:
            unpack(f"{library}/toolchain", f"{folder}/{cls._name(words)}")
        except (OSError, ValueError):
            shutil.rmtree(folder, ignore_errors=True)
            return False
        return True

    @classmethod
    def _name(cls, words: List[str]) -> Optional[str]:
        with cls.lock:
            if not cls.is_known:
                cls.name, cls.is_known = name_by_check(words), True
            return cls.name


def holds_proofs(index: str) -> bool:
    """Whether a library holds what was proved, by the index of its modules. One that was built for its statements alone (`rt ci`) does not:
    it holds no module but parts of them, as part/NAME."""
    if not os.path.isfile(index):
        return False
    with open(index, encoding="utf-8") as rows:
        modules = [json.loads(row)[0] for row in rows]
    return any(it.endswith(".Code") and "/" not in it for it in modules)


def unpack(toolchain: str, folder: str) -> None:
    """Writes each module that a library holds as a file. The index says where in the archive each one lies."""
    with open(f"{toolchain}/checked.json", encoding="utf-8") as rows, open(f"{toolchain}/checked.a", "rb") as archive:
        for row in rows:
            module, start, size = json.loads(row)
            place = f"{folder}/{module}.oantt"
            os.makedirs(os.path.dirname(place), exist_ok=True)
            archive.seek(start)
            with open(place, "wb") as it:
                it.write(archive.read(size))


def name_by_check(words: List[str]) -> Optional[str]:
    """The name of the one folder that a check makes in a folder for `--incremental`."""
    with tempfile.TemporaryDirectory(prefix="kept-") as folder:
        os.mkdir(f"{folder}/src")
        with open(f"{folder}/src/lib.rt", "w", encoding="utf-8") as it:
            it.write(EMPTY)
        words = [*words, "--crate-name", "nothing", "src/lib.rt", "--incremental", "kept", "--only", ""]
        subprocess.run(words, cwd=folder, stdin=subprocess.DEVNULL, stdout=subprocess.DEVNULL, stderr=subprocess.DEVNULL)
        names = os.listdir(f"{folder}/kept") if os.path.isdir(f"{folder}/kept") else []
    return names[0] if len(names) == 1 else None
