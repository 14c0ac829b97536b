"""Copies of a tree in which modules return what was chosen."""
import os
import shutil

import common
import replacing
import rewriting

# The most that is copied.
MOST_FILES, MOST_BYTES = 4096, 64 << 20


class TooLarge(Exception):
    """A tree has too many files, or too many bytes."""


def copy_of(run, root, service, made, choices):
    """Copies a tree; the copy's path, and the modules that were chosen and that the service has. A choice is for a
    module, or for a module and a type. `run` is the program `ways`."""
    files = size = 0
    for at, _, names in os.walk(root):
        files += len(names)
        size += sum(os.lstat(f"{at}/{name}").st_size for name in names)
        if files > MOST_FILES or size > MOST_BYTES:
            raise TooLarge
    shutil.copytree(
        root, made, symlinks=True, ignore=lambda at, names: [name for name in names if not is_copied(f"{at}/{name}")]
    )
    below = common.Below(made)
    used = choose(run, below, service, choices) if choices else set()
    os.close(below.fd)
    return made, used


def is_copied(path):
    return os.path.isfile(path) or os.path.isdir(path) or os.path.islink(path)


def choose(run, below, service, choices):
    """Writes the rules of a service again whose modules were chosen, and names these modules."""
    is_conf = not below.is_directory("etc/pam.d")
    found, _ = rewriting.rules_below(run, below.root, {service.lower(), "other"} if is_conf else {service.lower()})
    changed, used = {}, set()
    for (path, number), (of, rule) in found.items():
        module = replacing.module_before(rule)
        code = choices.get((module, rule.kind)) or choices.get(module)
        if code:
            used.add(module)
            line = rewriting.written(of, rule, *replacing.with_code(rule, code))
            changed.setdefault(path, {})[number] = (of, line)
    for path, lines in changed.items():
        text = rewriting.with_rules(run, path, below.read(path), lines)
        # (its path below the copy without links, of which one may lead out of it)
        at = below.root + below.status(path)[1]
        os.remove(at)
        with open(at, "wb") as file:
            file.write(os.fsencode(text))
    return used
