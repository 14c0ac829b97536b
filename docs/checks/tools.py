"""What tools find: in scripts (lines that are too wide, shellcheck, pyflakes), in the C library (cppcheck) and in
manual pages (mandoc, groff). A check is skipped if its tool isn't installed."""
import os
import shutil
import subprocess

import harness
from checks.pages import MANUALS
from sources import TOP

WIDTH = 120
# Programs in Rattle, test cases, mutants and what is built have no scripts.
WITHOUT = {"crates", "mutants", "out", ".git", "__pycache__"}


def kind_of(path):
    """`python` or `sh` for a script, by its name or its first line; nothing for another file."""
    with open(os.path.join(TOP, path), "rb") as file:
        first = file.readline(200)
    if path.endswith(".py") or first.startswith(b"#!") and b"python" in first:
        return "python"
    return "sh" if path.endswith((".sh", ".bash")) or first.startswith(b"#!") and b"sh\n" in first else None


def scripts_below(top=""):
    """The scripts of the repository, with what each is written in."""
    for at, folders, names in os.walk(os.path.join(TOP, top)):
        folders[:] = sorted(set(folders) - WITHOUT)
        for name in sorted(names):
            path = os.path.relpath(os.path.join(at, name), TOP)
            is_stored = path.startswith("tests/cases/") and path.count("/") > 2
            kind = None if is_stored or not os.path.isfile(os.path.join(TOP, path)) else kind_of(path)
            if kind:
                yield path, kind


def narrow():
    """Lines of Python have at most 120 columns."""
    for path, kind in scripts_below():
        if kind == "python":
            with open(os.path.join(TOP, path), encoding="utf-8") as file:
                for number, line in enumerate(file, 1):
                    if len(line.rstrip("\n")) > WIDTH:
                        yield f"{path}:{number}: {len(line) - 1} columns"


def found_by(names, options, paths):
    """What a tool prints of some files; it may have one of several names."""
    tool = next(filter(shutil.which, names), None)
    if not tool:
        raise harness.Skipped(f"{names[0]} isn't installed")
    ran = subprocess.run([tool, *options, *paths], cwd=TOP, capture_output=True, text=True, check=False)
    return (ran.stdout + ran.stderr).splitlines()


def shellcheck():
    """shellcheck finds nothing in the scripts."""
    yield from found_by(["shellcheck"], ["-f", "gcc"], [path for path, kind in scripts_below() if kind == "sh"])


def pyflakes():
    """pyflakes finds nothing in the scripts."""
    yield from found_by(["pyflakes3", "pyflakes"], [], [path for path, kind in scripts_below() if kind == "python"])


def cppcheck():
    """cppcheck finds nothing in the C library."""
    options = ["--enable=warning,style,performance,portability", "--std=c11", "--suppress=missingIncludeSystem"]
    yield from found_by(["cppcheck"], ["-q", *options], ["libpam/src"])


def mandoc():
    """mandoc finds nothing in the manual pages."""
    yield from found_by(["mandoc"], ["-Tlint"], MANUALS)


def groff():
    """groff sets the manual pages without a warning."""
    yield from (line for page in MANUALS for line in found_by(["groff"], ["-mandoc", "-ww", "-z"], [page]))
