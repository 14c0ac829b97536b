"""What docs/check looks for in the rows of linux-pam.md and modules.md: that each difference by which somebody gets in
or is kept out has its test case and its cases over both sides, and that each definition that a row names exists."""
import os
import re

from sources import TOP, files_below, text_of

CASES = "tests/scripts/differences.txt"
TEST_CASES = "tests/cases/differs-from-libpam/"
# What follows a row's subject: in, out or both, which is a link to the row's test case.
MARK = r" \(\[\*\*(?:in|out|in, out)\*\*\]\(\.\./([^)\s]+)\)\)"
UNLINKED = r"\(\*\*(?:in|out|in, out)\*\*\)"


def rows(page):
    """The rows of a page's tables: line, section, cells, and the cells of the table's first row."""
    section, head, was_table = "", [], False
    for number, line in page.prose:
        if line.startswith("#"):
            section = line.lstrip("# ")
        is_row = line.startswith("|")
        if is_row:
            cells = [cell.strip() for cell in re.split(r" \|(?= |$)", line.strip().removeprefix("|"))][:-1]
            head = head if was_table else cells
            if was_table and not line.startswith("|-"):
                yield number, section, cells, head
        was_table = is_row


def named(page, section, cell):
    """What a group of cases calls a row: its page, and its first cell up to the mark."""
    place = f"modules.md {section}" if page.path.endswith("modules.md") else os.path.basename(page.path)
    return f"{place}: {re.sub('[*`]', '', re.split(MARK, cell)[0])}"


def differing(all_pages):
    """Each row of linux-pam.md and modules.md by which somebody gets in or is kept out has a group of
    tests/scripts/differences.txt, and each group is of a row, and has a case or a reason."""
    groups, lines_of = {}, {}
    for number, line in enumerate(text_of(CASES).splitlines(), 1):
        if line.startswith("@ "):
            groups[line[2:]], lines_of[line[2:]] = [], number
        elif line and not line.startswith("#"):
            groups[list(groups)[-1]].append(line)
    known = set()
    for path, number, name, mark, _ in differences(all_pages):
        known.add(name)
        if mark and name not in groups:
            yield f"{path}:{number}: {CASES} has no group {name}"
    for name, cases in groups.items():
        if name not in known:
            yield f"{CASES}:{lines_of[name]}: no page has the row {name}"
        if not cases:
            yield f"{CASES}:{lines_of[name]}: no case"


def tested(all_pages):
    """Each row of linux-pam.md and modules.md by which somebody gets in or is kept out leads to a test case of
    tests/cases/differs-from-libpam, and each of these to a run; linux-pam.md has no row without a column."""
    for path, number, name, mark, cells in differences(all_pages):
        if re.search(UNLINKED, cells[0]):
            yield f"{path}:{number}: the mark leads to no test case"
        if mark:
            to = mark[1]
            if not re.fullmatch(rf"{TEST_CASES}[^/]+", to):
                yield f"{path}:{number}: {to} is none of {TEST_CASES}"
            if not has_run(to):
                yield f"{path}:{number}: {to} has no run"
    for number, _, cells, head in rows(all_pages["docs/linux-pam.md"]):
        if len(cells) != len(head) or head[:4] != ["Subject", "Here", "1.5.2", "1.6, 1.7"]:
            yield f"docs/linux-pam.md:{number}: {len(cells)} cells below {', '.join(head)}"


def differences(all_pages):
    """The rows of both pages: page, line, name, mark if there is one, and cells."""
    for path in ("docs/linux-pam.md", "docs/modules.md"):
        for number, section, cells, _ in rows(all_pages[path]):
            yield path, number, named(all_pages[path], section, cells[0]), re.search(MARK, cells[0]), cells


def has_run(path):
    """Whether a test case runs something, or checks a service."""
    return any(os.path.exists(os.path.join(TOP, path, part)) for part in ("script", "words", "checked", "cases"))


def defined_by(all_pages):
    """Each definition in a column `Defined by` of modules.md is one of the module's crate."""
    crate_of = {}
    for path in files_below("crates", ".rt"):
        if found := re.match(r"crates/(mod_\w+)/src/(pam_\w+)\.rt$", path):
            crate_of[found[2]] = found[1]
    definitions = {}
    page = all_pages["docs/modules.md"]
    for number, section, cells, head in rows(page):
        if head[-1] != "Defined by":
            continue
        module = next(iter(re.findall(r"^\[(pam_\w+)\]", cells[0])), section)
        crate = crate_of.get(module)
        if crate not in definitions:
            texts = "".join(text_of(path) for path in files_below(f"crates/{crate}/specs", ".antt"))
            definitions[crate] = set(re.findall(r"^(?:abbrev |unfoldable )?pub (\w+)", texts, re.M))
        names = re.findall(r"`(\w+)`", cells[-1])
        if len(cells) != len(head) or not names:
            yield f"{page.path}:{number}: no definition"
        for name in names:
            if name not in definitions[crate]:
                yield f"{page.path}:{number}: {crate} defines no {name}"
