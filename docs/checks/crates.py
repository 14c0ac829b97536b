"""What pages say of crates, their functions, clauses and types."""
import os
import re
import subprocess

from rattle import exported_names, methods
from sources import NAME, TOP, files_below, stands_on, text_of


def crates():
    return list(stands_on())


def tokens(text):
    """The names in backquotes, as lists of the parts round `::`."""
    return [
        token.split("::")
        for token in re.findall(r"`([^`\s(]+?)(?:\(\))?`", text)
        if re.fullmatch(rf"{NAME}(?:::{NAME})*", token)
    ]


def paragraphs(page):
    """The paragraphs of a page that begin with names in bold and a stop, with their first lines and those names."""
    found, blank = [], True
    for number, line in page.prose:
        head = re.match(r"\*\*([a-z0-9_, ]+)\.\*\*", line)
        if head and blank:
            found.append([number, re.findall(NAME, head[1]), ""])
        if line.startswith("#"):
            found.append([number, [], ""])
        if found:
            found[-1][2] += line + "\n"
        blank = not line.strip()
    return [one for one in found if one[1]]


def layers(all_pages, all_crates):
    """architecture.md has each crate and no other, and each name in a crate's paragraph is one that the crate has."""
    named = []
    for number, names, text in paragraphs(all_pages["docs/architecture.md"]):
        named += names
        at = [all_crates[name] for name in names if name in all_crates]
        for token in tokens(re.sub(r"\(libpam: [^)]*\)", "", text)):
            if at and not any(set(token) <= crate.names | {crate.name} for crate in at):
                yield f"docs/architecture.md:{number}: {names[0]} has no {'::'.join(token)}"
    yield from differences("docs/architecture.md", named, all_crates)


def libpam(all_pages, all_crates):
    """Each name and file of a crate in the tables of libpam-map.md is one that the crate has."""
    for number, line in all_pages["docs/libpam-map.md"].prose:
        for token in tokens(line):
            crate = (
                all_crates.get(token[0]) or (all_crates.get("pam_base") if token[0] in ("Code", "ItemName") else None)
            )
            if crate and len(token) > 1 and not set(token) <= crate.names | {crate.name}:
                yield f"docs/libpam-map.md:{number}: {crate.name} has no {'::'.join(token)}"
        for name, files in re.findall(rf"({NAME})'s ((?:\w+\.rt(?:, | and )?)+)", line):
            for file in re.findall(r"\w+\.rt", files):
                if not os.path.isfile(os.path.join(TOP, f"crates/{name}/src/{file}")):
                    yield f"docs/libpam-map.md:{number}: {name} has no file {file}"


def differences(path, named, all_crates):
    yield from (f"{path}: no crate {name}" for name in named if name not in all_crates)
    yield from (f"{path}: nothing of the crate {name}" for name in all_crates if name not in named)


def leads_nowhere(path, all_crates):
    """The first name of a path, from a crate on, that the one before it doesn't export, or None."""
    for at, name in zip(path, path[1:]):
        if at not in all_crates:
            return None
        if name not in exported_names(at):
            return name
    return None


def defined(module, name, all_crates):
    """Whether a file of specs/, or a type of a crate's code, has this name."""
    crate, *inner = module.split(".")[1:]
    if crate not in all_crates or inner[:1] != ["specs"]:
        return True
    if inner[1:2] == ["declared"]:
        return name in all_crates[crate].names
    path = f"crates/{crate}/specs/{'/'.join(inner[1:])}.antt"
    return (
        os.path.isfile(os.path.join(TOP, path))
        and re.search(rf"^ *(?:abbrev |unfoldable )?pub (?:record |data )?{re.escape(name)}\b", text_of(path), re.M)
    )


def written(all_pages, all_crates):
    """In the code that a page has and no file: each name that is imported is one of its crate, each function that is
    called by a path too, and a method has its trait's parameters."""
    traits = {}
    for name in all_crates:
        for path in files_below(f"crates/{name}/src", ".rt"):
            text = text_of(path)
            for trait in re.findall(rf"^pub trait ({NAME})", text, re.M):
                traits[trait] = methods(text, rf"pub trait {trait}\b")
    for page in all_pages.values():
        for block in page.blocks:
            text, where = "\n".join(block.lines), f"{page.path}:{block.line}"
            for path, names in re.findall(rf"^use ((?:{NAME}::)+)(?:\{{([^}}]*)\}}|{NAME})", text, re.M):
                for name in re.findall(NAME, names):
                    lacking = leads_nowhere([*path.split("::")[:-1], name], all_crates)
                    if lacking:
                        yield f"{where}: {path.rstrip(':')} has no {lacking}"
            for path in re.findall(rf"^use ({NAME}(?:::{NAME})+);", text, re.M):
                lacking = leads_nowhere(path.split("::"), all_crates)
                if lacking:
                    yield f"{where}: {path} leads nowhere: no {lacking}"
            for crate, name in re.findall(rf"(?<![\w.:])({NAME})::(?:{NAME}::)*({NAME})\(", text):
                if crate in all_crates and name not in all_crates[crate].clauses:
                    yield f"{where}: {crate} has no function {name}"
            for module, names in re.findall(r"^(?:ghost )?use (Rattle(?:\.\w+)+)\.\{([^}]*)\}", text, re.M):
                for name in re.findall(NAME, names):
                    if not defined(module, name, all_crates):
                        yield f"{where}: {module} has no {name}"
            for trait in re.findall(rf"^impl ({NAME}) for ", text, re.M):
                for name, types in methods(text, f"impl {trait} for").items():
                    wanted = traits.get(trait, {}).get(name)
                    if wanted and wanted != types:
                        yield f"{where}: {name} of {trait} gets {', '.join(wanted)}"


def errors(all_pages, all_crates):
    """Each call of docs/errors.table is a function, and each clause that it names is one of a function with that
    name."""
    path, calls = "docs/errors.table", []
    for number, line in enumerate(text_of(path).splitlines(), 1):
        cells = [cell.strip() for cell in line[1:].rstrip().removesuffix("|").split(" | ")]
        if not line.startswith("|"):
            continue
        if len(cells) != 4:
            yield f"{path}:{number}: {len(cells)} cells"
            continue
        calls = tokens(cells[0]) or calls
        having = [crate for crate in all_crates.values() if any(call[-1] in crate.clauses for call in calls)]
        clauses = set().union(
            *(crate.clauses[call[-1]] for crate in having for call in calls if call[-1] in crate.clauses)
        )
        for call in tokens(cells[0]):
            homes = [
                crate for crate in having if call[-1] in crate.clauses and set(call[:-1]) <= crate.names | {crate.name}
            ]
            if not homes:
                yield f"{path}:{number}: no function {'::'.join(call)}"
        for clause in tokens(cells[3]):
            if clause[-1] not in clauses:
                yield f"{path}:{number}: no clause {clause[-1]} of {cells[0] or 'the call above'}"


def cases(all_pages, all_crates):
    """Each test case of tests/allocating-calls.txt is a directory below tests/cases/ or a crate of tests, and each call
    a function; tests/cases/README.md has each group."""
    groups = {
        group.split("/")[0]
        for _, line in all_pages["tests/cases/README.md"].prose
        if line.startswith("| `")
        for group in re.findall(r"`([a-z/A-Z-]+)`", line.split(" | ")[0])
    }
    below = lambda name: os.path.join(TOP, "tests/cases", name)
    rows = [
        name
        for name in os.listdir(below(""))
        if os.path.isdir(os.path.join(below(name), name)) or next(files_below(f"tests/cases/{name}", "output"), None)
    ]
    yield from (f"tests/cases/README.md: nothing of the group {name}" for name in rows if name not in groups)
    functions = {function for crate in all_crates.values() for function in crate.clauses}
    path = "tests/allocating-calls.txt"
    for number, line in enumerate(text_of(path).splitlines(), 1):
        calls, _, shown_by = line.partition(" : ")
        if line.startswith("#"):
            continue
        yield from (
            f"{path}:{number}: no function {one}"
            for one in calls.split()
            if one.split("::")[-1] not in functions | set(all_crates)
        )
        is_there = lambda one: os.path.isdir(below(one)) if "/" in one else one in all_crates
        yield from (
            f"{path}:{number}: no test case {one}"
            for one in shown_by.split() or ["at all"]
            if not is_there(one)
        )


def generated(all_pages, all_crates):
    """docs/crates, docs/api, docs/definitions and docs/errors run, the first two print each crate, crates/README.md is
    as docs/crates makes it, and each file of specs/ begins with a comment."""
    made = subprocess.run([os.path.join(TOP, "docs/crates"), "--check"], capture_output=True, text=True, check=False)
    yield from (made.stdout + made.stderr).splitlines()
    for script in ("docs/crates", "docs/definitions", "docs/api", "docs/errors"):
        made = subprocess.run([os.path.join(TOP, script)], capture_output=True, text=True, check=False)
        if made.returncode:
            yield f"{script}: {made.stderr}"
        if script == "docs/crates":
            yield from (
                f"{script}: nothing of {name}"
                for name in all_crates
                if not re.search(rf"^  {name} +\S", made.stdout, re.M)
            )
        if script == "docs/api":
            yield from (
                f"{script}: nothing of {name}"
                for name in all_crates
                if f"\n## {name}\n" not in made.stdout and not name.startswith("tests_")
                if os.path.isfile(os.path.join(TOP, f"crates/{name}/src/lib.rt"))
            )
    for name in all_crates:
        for path in files_below(f"crates/{name}/specs", ".antt"):
            if not path.endswith("/Lib.antt") and not text_of(path).startswith("--"):
                yield f"{path} begins without a comment"


def tour(all_pages, all_crates):
    """Each function in a row of architecture.md's two calls is one of the crate that the row begins with."""
    within = False
    for number, line in all_pages["docs/architecture.md"].prose:
        within = line == "## Two calls, crate by crate" if line.startswith("## ") else within
        row = re.match(r"\| `([a-z0-9_]+)` \|(.*)", line)
        if not (within and row):
            continue
        crate = all_crates.get(row[1])
        if not crate:
            yield f"docs/architecture.md:{number}: no crate {row[1]}"
            continue
        for token in tokens(row[2]):
            if not set(token) <= crate.names:
                yield f"docs/architecture.md:{number}: {crate.name} has no {'::'.join(token)}"


def picture(all_pages, all_crates):
    """The picture in architecture.md has every crate, and none but tests depends on one in a row above its own."""
    blocks = [block.lines for block in all_pages["docs/architecture.md"].blocks]
    rows = next((lines for lines in blocks if any("pam_base" in line.split() for line in lines)), [])
    row_of = {name: number for number, line in enumerate(rows) for name in re.findall(NAME, line) if name in all_crates}
    for name, below in stands_on().items():
        if name not in row_of:
            yield f"docs/architecture.md: the picture lacks the crate {name}"
        elif not name.startswith("tests_"):
            yield from (
                f"docs/architecture.md: {name} depends on {one}, in a row above it"
                for one in below
                if row_of.get(one, row_of[name]) < row_of[name]
            )
