"""What pages, scripts and modules.table say of the modules."""
import re

from checks.crates import crates
from checks.pages import MANUAL
from sources import files_below, text_of


def modules(all_pages, all_crates):
    """Each module of the program has its heading and its line in modules.md; the manual page and the scripts list the
    same modules."""
    page, names = all_pages["docs/modules.md"], module_names()
    listed = {name for _, line in page.prose for name in re.findall(r"^\| \[(pam_\w+)\]", line)}
    yield from (f"docs/modules.md: nothing of {name}" for name in sorted(names - listed | names - set(page.headings)))
    sources = (
        (MANUAL, r"built-in versions of the modules([^;]*);", "pam_"),
        ("lib/modules.py", r'HERE_TOO = set\("""([^"]*)"""', "pam_"),
    )
    for path, pattern, prefix in sources:
        found = re.search(pattern, text_of(path))
        has = (
            {name if prefix else f"pam_{name}" for name in re.findall(rf"{prefix}[a-z_]+", found[1])}
            if found
            else set()
        )
        yield from (f"{path}: its list of modules differs in {name}" for name in sorted(has ^ names))


def returned(all_pages, all_crates):
    """modules.table has each code that a module may return by the laws of laws_code, or `any`."""
    words = dict(re.findall(r'^name_of (\w+) = codes "(\w+)"', text_of("crates/pam_base/specs/Code.antt"), re.M))
    words.update(re.findall(r'^code_word (\w+) = codes "(\w+)"', text_of("crates/pam_base/specs/Code.antt"), re.M))
    equations = {}
    for line in re.sub(r"\n +", " ", text_of("crates/laws_code/specs/Codes.antt")).splitlines():
        if found := re.fullmatch(r"(\w+)((?: \w+)*) = (.*)", line):
            equations.setdefault(found[1], []).append((found[2].split(), found[3]))
    functions = {"auth": "Authenticate", "account": "AcctMgmt", "password": "ChAuthTok", "session": "OpenSession"}

    def chosen(name, function):
        """What an equation says of a function: of two that fit, the first."""
        return next(said for given, said in equations[name] if given[-1:] in ([], [function], ["func"], ["other"]))

    def listed(said, function):
        by_check = re.fullmatch(r"check_codes (\w+) \((.*)\)", said)
        if by_check:
            rule = chosen("check_codes", function)
            return listed({"check": by_check[1], "setcred": by_check[2]}.get(rule, rule), function)
        codes = re.findall(r"returns\.(\w+)", said)
        return {words[one].lower() for one in codes} if codes else listed(chosen(said, function), function)

    laws, rows = text_of("crates/laws_code/src/laws.rt"), {}
    for line in text_of("modules.table").splitlines():
        if line and not line.startswith("#"):
            name, rule_type, _, codes, _ = line.split(" ")
            for one in functions if rule_type == "*" else [rule_type]:
                rows.setdefault((name, one), codes)
    for name in sorted(module_names()):
        codes = f"{name.removeprefix('pam_')}_codes"
        if f"ReturnsOf {name.removeprefix('pam_')}_plays {codes} " not in laws:
            yield from (f"modules.table: {name} {one} isn't any" for one in functions if rows[name, one] != "any")
            continue
        for one, function in functions.items():
            row, has = rows[name, one], listed(codes, function)
            named = set(row.removeprefix("!").split(","))
            lacks = set() if row == "any" else has & named if row.startswith("!") else has - named
            yield from (f"modules.table: {name} {one} lacks {code}, see laws_code" for code in sorted(lacks))


def module_names():
    """The modules of the program, by the names that lines have for them."""
    paths = [path for name in crates() if name.startswith("mod_") for path in files_below(f"crates/{name}/src", ".rt")]
    return {
        name
        for path in paths
        for name in re.findall(r'fn name\((?:&self)?\) -> &(?:\'static )?\[u8\] \{\s*b"(\w+)"', text_of(path))
    }
