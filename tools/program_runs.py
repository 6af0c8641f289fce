"""Runs of zarr_run, for the tests beside this file."""
import json
import subprocess
import sys
from pathlib import Path

TOP = Path(__file__).resolve().parent.parent
PROGRAM = TOP / "build/zarr_run"
SECONDS = 120


class Failed(Exception):
    """What came is not what is wanted."""


class Skipped(Exception):
    """Why this machine can't show it."""


def compare(what, got, wanted):
    if got != wanted:
        raise Failed(f"{what}\n    wanted {shown(wanted)}\n    got    {shown(got)}")


def shown(value):
    text = repr(value) if isinstance(value, (bytes, dict)) else json.dumps(value, ensure_ascii=False, default=repr)
    return text if len(text) <= 2000 else text[:2000] + " .."


def program_at(path):
    """The program, where it is built."""
    program = Path(path).resolve()
    if not program.is_file():
        sys.exit(f"{program} isn't built: ./zarr_run --help builds it\n0 passed, 1 failed")
    return program


def run(words, given=b"", **how):
    """Runs a program. Gives its status, standard output and standard error."""
    done = subprocess.run(words, input=given, stdout=subprocess.PIPE, stderr=subprocess.PIPE, timeout=SECONDS, **how)
    return done.returncode, done.stdout, done.stderr


def lines_of(commands):
    """The lines of commands, which are objects or texts."""
    return "".join((it if isinstance(it, str) else json.dumps(it)) + "\n" for it in commands).encode()


def answers_of(program, folder, commands, **how):
    """The answers to commands over a folder, of a run that has to end well."""
    status, output, errors = run([program, "--root", folder], lines_of(commands), **how)
    compare("status and standard error", [status, errors.decode(errors="replace")], [0, ""])
    return [json.loads(line) for line in output.splitlines()]


def session(program, folder, exchanges, **how):
    """Runs pairs of a command and the answer that is wanted."""
    answers = answers_of(program, folder, [command for command, _ in exchanges], **how)
    for (command, wanted), answer in zip(exchanges, answers):
        compare(shown(command), answer, wanted)
    compare("answers", len(answers), len(exchanges))


def files_in(folder):
    """The bytes of each file below a folder, by its path from there."""
    return {str(path.relative_to(folder)): path.read_bytes() for path in Path(folder).rglob("*") if path.is_file()}


def run_tests(tests, *given):
    """Runs functions, and says which failed or were left out. Gives the status of the script."""
    passed = failed = 0
    for test in tests:
        name = test.__name__.replace("_", " ")
        try:
            test(*given)
            passed += 1
        except Skipped as why:
            print(f"{name}: left out: {why}")
        except (Failed, ValueError, OSError, subprocess.SubprocessError) as error:
            print(f"{name}: {error}")
            failed += 1
    print(f"{passed} passed, {failed} failed")
    return 1 if failed or not passed else 0
