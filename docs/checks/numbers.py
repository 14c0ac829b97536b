"""Numbers in pages, versions, and limits."""
import os
import re
import subprocess

from checks.modules import module_names
from checks.pages import MANUALS
from sources import TOP, files_below, text_of


def versions(all_pages):
    """CHANGELOG.md has a section for each version, the latest first, with its date or `not released yet`, and each tag
    of a release its section."""
    found = re.findall(r"^## (.*)$", text_of("CHANGELOG.md"), re.M)
    forms = [re.fullmatch(r"(\d+)\.(\d+)\.(\d+), (?:not released yet|\d+ \w+ \d{4})", it) for it in found]
    if None in forms:
        yield f"CHANGELOG.md: this is no version: {found[forms.index(None)]}"
        return
    numbers = [tuple(map(int, it.groups())) for it in forms]
    if numbers != sorted(set(numbers), reverse=True) or any("not released" in it for it in found[1:]):
        yield "CHANGELOG.md: its versions aren't in order"
    tags = subprocess.run(["git", "tag", "--list", "v*"], cwd=TOP, capture_output=True, text=True, check=False).stdout
    for tag in tags.split():
        if not any(it.startswith(f"{tag[1:]}, ") and "not released" not in it for it in found):
            yield f"CHANGELOG.md: no section of the release {tag}"


WORDS = """
    no one two three four five six seven eight nine ten eleven twelve thirteen fourteen fifteen sixteen seventeen
    eighteen nineteen twenty
""".split()


def numbers(all_pages, all_crates):
    """Codes, items, styles, flags and faults have the numbers of pam_base in all pages, limits those of the code's
    constants; commands, modules and faults are counted."""
    base = {name: text_of(f"crates/pam_base/src/{name}.rt") for name in ("code", "item", "style", "flags", "fault")}
    known = {}
    for name, number in re.findall(r"/// (PAM_\w+) \((\d+)\)", base["code"] + base["item"] + base["style"]):
        known.setdefault(name, set()).add(int(number))
    for name, number in re.findall(r"pub const (\w+): u32 = (0x[0-9A-Fa-f_]+);", base["flags"]):
        known.setdefault(f"PAM_{name}", set()).add(int(number, 16))
    codes = {name.removeprefix("PAM_") for name in re.findall(r"/// (PAM_\w+) \(", base["code"])}
    known |= {name: known[f"PAM_{name}"] for name in codes}
    kinds = re.findall(r"^    (\w+) = (\d+),", base["fault"], re.M)
    for name, number in kinds:
        known.setdefault(name, set()).add(int(number))
    for path in (*all_pages, *MANUALS):
        for number, line in enumerate(text_of(path).splitlines(), 1):
            said = re.findall(
                r"(?<![\w\\])([A-Za-z_]+)`? (\d+)(?![\w.,]*[\w:])", line
            ) + re.findall(r"(PAM_\w+) \| (0x[0-9a-f]+)", line)
            said += [
                (name, value) for value, name in re.findall(r"^\| (\d+) \| ([A-Z]\w+) \|", line) if name in dict(kinds)
            ]
            for name, value in said:
                if name in known and int(value, 0) not in known[name]:
                    yield f"{path}:{number}: {name} is {' or '.join(map(str, sorted(known[name])))}"
    counts = (
        ("README.md", r"program of (\w+) commands", len(usage_forms())),
        ("README.md", r"\[(\w+) modules\]\(docs/modules.md\)", len(module_names())),
        ("docs/architecture.md", r"All (\w+) are exactly their definitions", len(module_names())),
        ("docs/errors.table", r"each of the (\w+) modules", len(module_names())),
        (
            "CHANGELOG.md",
            r"(\w+) kinds\s+of faults",
            base["fault"].partition("enum FaultKind")[2].partition("}")[0].count(" = "),
        ),
    )
    for path, pattern, count in counts:
        found = re.search(pattern, text_of(path))
        if not found or found[1] != WORDS[count]:
            yield f"{path}: {pattern} should find {WORDS[count]}"
    yield from limits(all_pages["docs/limits.md"])


# Constants, each with its crate and the beginning of its row in limits.md.
LIMITS = (
    ("conf_lex", "MAX_TEXT", "a service file"),
    ("conf_lex", "MAX_LINE", "a line of it"),
    ("pam_base", "MAX_NAME", "the service's name"),
    ("pam_base", "MAX_DIGITS", "a number in the script"),
    ("record_reader", "CHUNK", "one read"),
    ("pam_base", "MAX_TEXT", "a text in a frame"),
    ("frame_stream", "MAX_FRAMES", "frames"),
    ("random_config", "MAX_RANDOM_LINES", "`generate`"),
    ("pam_session_cli", "TRANSACTIONS", "transactions"),
    ("pam_base", "MAX_TEXT", "a message"),
    ("fail_delay", "LONGEST_REQUEST", "a request"),
    ("fail_delay", "LONGEST_ASKED", "the delay that is asked for"),
    ("pam_session_cli", "LONGEST_WAIT", "what the delay function of"),
    ("pam_outside", "MAX_MOMENT", "the clock"),
    ("module_acts", "ACCOUNT_LIMIT", "`passwd`"),
    ("module_acts", "SMALL_FILE_LIMIT", "the nologin file"),
    ("mod_tally", "TALLY_LIMIT", "the tally"),
    ("module_acts", "SMALL_FILE_LIMIT", "the files of pam_env"),
    ("mod_env", "VALUE_LIMIT", "the files of pam_env"),
    ("system_objects", "MOST", "files that stay open"),
)


def limits(page):
    """The rows of limits.md whose number isn't that of the code's constant."""
    for crate, name, begin in LIMITS:
        texts = "".join(text_of(path) for path in files_below(f"crates/{crate}/src", ".rt"))
        values = {int(value.replace("_", "")) for value in re.findall(rf"const {name}: \w+ = ([0-9_]+);", texts)}
        row = next(((number, line) for number, line in page.prose if line.startswith(f"| {begin}")), None)
        shown = {int(it.replace(",", "")) for it in re.findall(r"\d[\d,]*", row[1])} if row else set()
        if not values & shown:
            yield (
                f"{page.path}:{row[0] if row else 1}: {begin}: {crate} has {name} "
                f"= {' or '.join(map(str, sorted(values))) or 'nothing'}"
            )


def usage_forms():
    """The forms of the program's usage line, as words in lower case."""
    said = re.search(
        r'"usage: pamsess (.*)\\n"', "".join(text_of(path) for path in files_below("crates/cmd_all/src", ".rt"))
    )
    return [form.lower().split() for form in said[1].split(" | ")] if said else []


def figures():
    """The numbers of pages that can be counted are as docs/figures writes them."""
    ran = subprocess.run([os.path.join(TOP, "docs/figures"), "--check"], capture_output=True, text=True, check=False)
    yield from (ran.stdout + ran.stderr).splitlines()
