"""Idioms of this project's first pages, in pages, comments and scripts; and signs."""
import io
import os
import re

from checks.pages import MANUALS
from sources import TOP, files_below, text_of

# Idioms of this project's first pages that nobody writes by accident, each with the usual words. Text in backquotes, in
# blocks and in the targets of links isn't checked.
HOUSE_WORDS = (
    (r"want of memory", "out of memory; if an allocation fails"),
    (r"in any world|told worlds?", "with real objects too; with modelled objects"),
    (r"be it|and its like", "even; etc."),
    (r"but for", "except"),
    (r"came of", "result"),
    (r"(?:is|are) said of", "holds for"),
    (r"user numbers?", "user ID"),
    (r"(?:greatest|least) age", "maximum age, minimum age"),
    (r"pass(?:es)? that (?:keeps?|kept|follows?)", "first run; run by cached codes"),
    (r"edits? that must fail", "mutant"),
)


def house_words(where, line):
    """This project's old words in a line of prose, each with the usual one."""
    plain = re.sub(r"\]\([^)]*\)", "]", re.sub(r"`[^`]*`", "``", line))
    for pattern, usual in HOUSE_WORDS:
        for found in re.finditer(rf"(?<![\w.-])(?:{pattern})(?![\w.-]*\w)", plain, re.I):
            yield f"{where}: {found[0]}: {usual}"


def words(all_pages):
    """No page has one of this project's old words."""
    for page in all_pages.values():
        for number, line in page.prose:
            yield from house_words(f"{page.path}:{number}", line)
    for path in MANUALS:
        for number, line in enumerate(text_of(path).splitlines(), 1):
            if not line.startswith((".\\\"", ".Sh", ".Cm", ".Ql", ".Pa")):
                yield from house_words(f"{path}:{number}", line)


def signs():
    """Each sign that the sources use is on the page of editors/ and in both snippet files."""
    paths = [*files_below("crates", ".rt"), *files_below("crates", ".antt")]
    used = set().union(*(set(re.findall(r"[^\x00-\x7f]", text_of(path))) for path in paths))
    for path in ("editors/README.md", "editors/pamsess.vim", "editors/pamsess.code-snippets"):
        yield from (f"{path}: lacks {sign}" for sign in sorted(used - set(text_of(path))))


def comments():
    """No comment below crates/ has one of this project's old words."""
    for ending, mark in ((".rt", r"^\s*//[/!]?"), (".antt", r"^\s*--")):
        for path in files_below("crates", ending):
            for number, line in enumerate(text_of(path).splitlines(), 1):
                if re.match(mark, line):
                    yield from house_words(f"{path}:{number}", re.sub(mark, "", line))


def scripts():
    """No comment and no docstring of a script, and no comment of a file in C, has one of this project's old words."""
    places = ("libpam/src", "libpam/tests", "tests/clients", "completions", "examples/wire")
    for directory in (
        "",
        ".ci",
        "bench",
        "bin",
        "docs",
        "docs/checks",
        "editors",
        "examples",
        "lib",
        "libpam",
        "tests/cases",
        "tests/scripts",
        "tests/stress",
        *places,
    ):
        for name in sorted(os.listdir(os.path.join(TOP, directory))):
            path = os.path.join(directory, name)
            with open(
                os.path.join(TOP, path), "rb"
            ) if os.path.isfile(os.path.join(TOP, path)) else io.BytesIO() as file:
                begin = file.read(2)
            if begin == b"#!" or path.endswith((".py", ".c", ".h")) or directory == "completions":
                yield from said_in(path)


def said_in(path):
    """This project's old words in the comments and docstrings of a script."""
    in_docstring = False
    for number, line in enumerate(text_of(path).splitlines(), 1):
        begins = re.match(r'\s*"""\S', line) and not in_docstring
        if begins or in_docstring or re.match(r"\s*/?\* " if path.endswith((".c", ".h")) else r"\s*#", line):
            yield from house_words(f"{path}:{number}", line)
        in_docstring = line.count('"""') % 2 == 1 if begins else in_docstring and '"""' not in line
