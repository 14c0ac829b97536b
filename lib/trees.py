"""The service files below a root: which services there are, and which of their stacks are those of `other`."""
import functools
import os
import re
import tempfile

import common
import rewriting
import ways
from rewriting import put
from stacks import UNPROVED, Refusal

# Names that an editor or a package manager left.
LEFT = re.compile(r"(~|\.(bak|orig|old|save|sw.|pam-old|rpm\w+|dpkg-\w+|ucf-\w+))$")
# The module of a rule that is put behind those of `other`.
MARK = "pam_end_of_other.so"


def is_service(name):
    """Whether a file of this name can be a service's, or be included as one usually is."""
    return re.fullmatch(r"[A-Za-z0-9_.][A-Za-z0-9_.-]{0,63}", name) is not None and not LEFT.search(name)


class Tree:
    """The service files below a root. What they have is asked of a program."""

    def __init__(self, below, run):
        self.below, self.run = below, run
        self.has_directory = below.is_directory("etc/pam.d")

    def path_of(self, service):
        """The file that has a service's rules."""
        return f"etc/pam.d/{service}" if self.has_directory else "etc/pam.conf"

    def services(self):
        """The services that have a file (or lines of pam.conf), and names that are no service's or that an editor or
        dpkg left."""
        if not self.has_directory:
            # (unproved, each question takes a minute)
            return [name for name in self.words_of_conf() if self.run == UNPROVED or self.has_lines(name)], []
        names = [name for name in self.below.names("etc/pam.d") if not self.below.is_directory(f"etc/pam.d/{name}")]
        left = [name for name in names if not is_service(name) or name != name.lower()]
        return [name for name in names if name not in left], left

    def words_of_conf(self):
        """The words with which lines of pam.conf begin: its services are among them."""
        lines = self.below.text("etc/pam.conf").split("\n")
        words = {re.match(r"\s*([^\s#]*)", line)[1].lower() for line in lines}
        return sorted(word for word in words if is_service(word))

    def has_lines(self, service):
        """Whether pam.conf has a line of a service: its stacks aren't all those of `other`."""
        try:
            return len(self.others(service)) < len(common.TYPES)
        except Refusal:
            return True

    def others(self, service):
        """The types of which a service has no rule, so that its stack is that of `other`."""
        if service == "other":
            return []
        if self.has_directory and not self.below.is_file(f"etc/pam.d/{service}"):
            return list(common.TYPES)
        found = self.stacks_without_other(service)
        return [
            kind for kind, stack in found.items() if not stack.nodes or [it.path for it in stack.rules()][-1:] == [MARK]
        ]

    def stacks_without_other(self, service):
        """The stacks of a service in a tree in which `other` has no file, or in pam.conf marks the end of its stacks.
        There are none if the service includes the file of `other`."""
        while True:
            try:
                return ways.of_service(self.run, self.copy.root, service)
            except Refusal as refusal:
                path = missing_include(self.run, refusal, self.copy, service)
                is_other = path in (None, "etc/pam.d/other") or self.copy.status(path)
                if is_other or not self.below.is_file(path):
                    if not self.has_directory:
                        raise
                    return {}
                put(self.copy.root, path, self.below.text(path, common.MOST_OF_RULES))

    @functools.cached_property
    def copy(self):
        """A directory with a copy of the service files. What they include by a path is copied when it is missed."""
        self.room = tempfile.TemporaryDirectory(prefix="pamsess-")
        made = common.Below(self.room.name)
        if self.has_directory:
            os.makedirs(f"{made.root}/etc/pam.d")
            for name in self.below.names("etc/pam.d"):
                if name != "other" and self.below.is_file(f"etc/pam.d/{name}"):
                    put(made.root, f"etc/pam.d/{name}", self.below.text(f"etc/pam.d/{name}", common.MOST_OF_RULES))
        else:
            marks = "".join(f"other {kind} required {MARK}\n" for kind in common.TYPES)
            put(made.root, "etc/pam.conf", f"{self.below.text('etc/pam.conf')}\n\n{marks}")
        return made


def missing_include(run, refusal, below, service):
    """The included file that is missing, by its path below the root; None if a service is refused for something else,
    or the path isn't known (rewriting.included_by)."""
    found = re.fullmatch(r"refused (\S+) (\d+) IncludeAbsent \d+\n", refusal.args[0])
    if not found:
        return None
    path = common.unquoted(found[1]).lstrip("/")
    return rewriting.included_by(run, path, below.text(path), int(found[2]), service)


def located(run, root, service):
    """The rules of a service's stacks, and the types whose stack is that of `other`."""
    found = ways.of_service(run, root, service)
    return {kind: stack.nodes for kind, stack in found.items()}, Tree(common.Below(root), run).others(service.lower())
