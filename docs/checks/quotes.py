"""Contracts that a page quotes."""
import re

from rattle import functions
from sources import NAME, files_below, stands_on, text_of


def quoted(all_pages):
    """Each signature and clause that using-the-library.md quotes is the function's."""
    known = {}
    for crate, owner in (("pam_handle", "Handle"), ("pam_library", "Library")):
        for path in files_below(f"crates/{crate}/src", ".rt"):
            for is_public, name, signature, clauses in functions(text_of(path)):
                if is_public:
                    known[f"fn {owner}::{name}{signature}"] = {
                        (f"{kind} {label}".strip(), text) for kind, label, text in clauses
                    }
    page = all_pages["docs/using-the-library.md"]
    wanted = f"front_door: {' '.join(stands_on()['example_login'])}"
    for number, line in enumerate(page.lines, 1):
        if line.startswith("    front_door:") and line.strip() != wanted:
            yield f"{page.path}:{number}: crates.txt has {wanted}"
    for block in page.blocks:
        of = None
        for one in re.split(r"\n(?=fn |  requires|  ensures)", "\n".join(block.lines)):
            clause = re.fullmatch(
                rf"  ((?:requires|ensures)(?: {NAME})?): (.*)", " ".join(("  " + " ".join(one.split())).split("\n"))
            )
            one = "\n".join(line for line in one.split("\n") if not line.startswith("//"))
            if one.startswith(("fn Handle::", "fn Library::")):
                of = known.get(one)
                if of is None:
                    yield f"{page.path}:{block.line}: no function {one}"
            elif clause and of is not None and (clause[1], clause[2]) not in of:
                yield f"{page.path}:{block.line}: {clause[1]} is another clause"
