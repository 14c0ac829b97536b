"""What tests share: the program that they run, how they say what is wrong, and how they count it.

A test is an executable with a docstring that says how it is used, and calls `run` with its checks. --help prints the
docstring and does nothing else. Words choose checks: each is a check's name, or a part of the names of some.
A check gets a new directory; it is wrong if it raises Wrong, and is left out if it raises Skipped, with the reason. The
last line is `N passed, M failed`, and `, K skipped` if something was; the exit status is 0 if nothing failed and
something passed.
"""
import functools
import os
import shutil
import subprocess
import sys
import tempfile
from concurrent.futures import ThreadPoolExecutor

sys.dont_write_bytecode = True
TOP = os.path.dirname(os.path.dirname(os.path.realpath(__file__)))
sys.path.append(f"{TOP}/lib")
import common

BUILT = f"{TOP}/crates/pam_session_cli/out/pam_session_cli"
# The program: the one that ./build has built, or the one that PAMSESS names.
PROGRAM = common.place_of("pam_session_cli", "pamsess", "PAMSESS")
EXPLAIN = common.place_of("explain", "explain", "PAMSESS_EXPLAIN")
WAYS = common.place_of("ways", "ways", "PAMSESS_WAYS")
FAULTS = (OSError, subprocess.SubprocessError)


class Wrong(Exception):
    """What isn't as it should be."""


class Skipped(Exception):
    """Why a check is left out."""


def expect(what, wanted, given):
    if wanted != given:
        raise Wrong(f"{what}: wanted {wanted!r}, given {given!r}")


def need_program(path=PROGRAM, how="./build"):
    """Leaves a check out if a program isn't built."""
    if not os.access(path, os.X_OK):
        raise Skipped(f"the program isn't built: run {how}")


def needs(path, how="./build"):
    """Makes of a check one that is left out if a program isn't built."""

    def left_out(check):
        @functools.wraps(check)
        def checked(*words):
            need_program(path, how)
            return check(*words)

        return checked

    return left_out


needs_program = needs(PROGRAM)


def needs_ways(check):
    """A check that is left out if the programs `pamsess` and `ways` aren't built."""

    @needs_program
    @functools.wraps(check)
    def checked(*words):
        need_program(WAYS)
        return check(*words)

    return checked


def text_of(path):
    with open(path, encoding="utf-8", errors="surrogateescape") as file:
        return file.read()


def write(root, files):
    """Writes the files of a tree, by their paths: a text, or what makes the file at its path."""
    for path, text in files.items():
        path = f"{root}/{path.lstrip('/')}"
        os.makedirs(os.path.dirname(path), exist_ok=True)
        if callable(text):
            text(path)
            continue
        with open(path, "wb") as file:
            file.write(text if isinstance(text, bytes) else os.fsencode(text))


class Count:
    """How many checks passed, what failed, and what was left out."""

    def __init__(self):
        self.passed = self.failed = 0
        self.skipped = {}

    def add(self, name, fault=None):
        """A check that was run, and what is wrong, if anything is."""
        if fault:
            print(f"{name}: {fault}", flush=True)
        self.passed, self.failed = self.passed + (not fault), self.failed + bool(fault)

    def skip(self, name, why):
        self.skipped.setdefault(why, []).append(name)

    def end(self, is_needed=True):
        """Prints the last line, and the reasons of what was left out above it. The exit status: nothing failed, and
        something passed, if that is needed."""
        for why, names in self.skipped.items():
            print(f"skipped: {', '.join(names[:4])}{f' and {len(names) - 4} others' if names[4:] else ''}: {why}")
        left = sum(map(len, self.skipped.values()))
        print(f"{self.passed} passed, {self.failed} failed" + (f", {left} skipped" if left else ""))
        return 1 if self.failed or is_needed and not self.passed else 0


def help_if_asked(doc, words=None):
    """Ends with the usage of a test on standard output if that is asked for."""
    words = sys.argv[1:] if words is None else words
    if words[:1] in (["--help"], ["-h"]):
        print(doc.strip())
        sys.exit(0)


def chosen(names, words):
    """The names that some words choose, in their order; all of them if there is no word."""
    found = set()
    for word in words:
        like = [word] if word in names else [name for name in names if word in name]
        if not like:
            print(f"{os.path.basename(sys.argv[0])}: there is no check {word}", file=sys.stderr)
            sys.exit(2)
        found.update(like)
    return [name for name in names if not words or name in found]


def fault_of(check):
    """Runs a check in a directory of its own: what is wrong, or nothing, or the reason for which it is left out."""
    room = tempfile.mkdtemp(prefix="test-")
    os.chmod(room, 0o755)
    try:
        check(room)
    except Skipped as why:
        return why
    except (Wrong, *FAULTS) as fault:
        return str(fault) or type(fault).__name__
    finally:
        shutil.rmtree(room, ignore_errors=True)
    return None


def run(doc, checks, words=None, at_once=1, programs=(), is_needed=True):
    """Runs the checks that are chosen, so many at once, and prints what is wrong. `checks` are functions, or functions
    by their names; all are left out if a program that they need isn't built, and may be if the test isn't needed. Ends
    with the exit status."""
    words = sys.argv[1:] if words is None else words
    help_if_asked(doc, words)
    named = checks if isinstance(checks, dict) else {check.__name__: check for check in checks}
    for program in programs:
        if not os.access(program, os.X_OK):
            named = dict.fromkeys(named, lambda _, program=program: need_program(program))
    names, count = chosen(list(named), words), Count()
    with ThreadPoolExecutor(at_once) as workers:
        for name, fault in zip(names, workers.map(lambda name: fault_of(named[name]), names)):
            if isinstance(fault, Skipped):
                count.skip(name, str(fault))
            else:
                count.add(name, fault)
    sys.exit(count.end(is_needed))
