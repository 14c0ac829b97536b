"""The program `ways`, and the table of modules that it is given."""
import os
import re
import shutil

import common
import stacks
from stacks import UNPROVED

TABLES = (f"{common.TOP}/modules.table", f"{common.TOP}/lib/modules.table")
TABLE = next(filter(os.path.exists, TABLES), "/dev/null")


def program(script, is_needed=True):
    return common.program(script, "ways", "ways", "PAMSESS_WAYS", is_needed)


def program_or_sources(script):
    """The program; in a checkout in which it isn't built, what runs its sources unproved, which is said."""
    can_run = shutil.which("rt") and os.path.isdir(f"{common.TOP}/crates/ways")
    found = program(script, is_needed=not can_run)
    if found is None and can_run:
        common.say(
            script,
            "the program isn't built: running the sources unproved, which takes a minute or two for each service "
            "(./build proves and builds it)",
        )
        return UNPROVED
    return found


def possible(rule):
    """The codes that a rule may return by the table, in their order."""
    named = rule.codes.removeprefix("!").split(",")
    others = rule.codes == "any" or rule.codes.startswith("!")
    return [code for code in common.CODES[:-1] if (code in named) != others]


def is_yes(rule):
    """Whether a success of a rule says who the user is, or that they may log in."""
    return rule.says in ("asks", "judges")


def table():
    """The repository's table of modules."""
    with open(TABLE, encoding="latin-1") as file:
        return file.read()


def counting_conditions(text):
    """A table in which a condition that is met counts as a yes, too."""
    return re.sub(r"(?m)^([^#\s]\S* \S+) tests ", r"\1 judges ", text)


def of_service(run, root, service, text=None):
    """The stacks of a service, by a table of modules."""
    return stacks.of_service(run, root, service, table() if text is None else text)
