"""The stacks of a service, as the program `ways` prints them: rule by rule, and every way in which each may end."""
import functools
import os
import subprocess
import tempfile

import common
import modules

KEYWORDS = ("required", "requisite", "sufficient", "optional")
# What runs the program's sources unproved.
UNPROVED = f"{common.TOP}/lib/unproved-ways"


class Line:
    """A line of a stack: its type, control, module and arguments, and its file and line. The control is as the program
    `run` prints it."""

    def __init__(self, run, kind, control, path, arguments):
        self.run, self.silent, self.kind = run, kind.startswith("-"), kind.lstrip("-")
        self.path, self.module, self.arguments = path, modules.module_of(path), arguments
        self.file, self.line, self.control = None, 0, control
        self.actions = actions_of(control)

    def jumps(self):
        return {int(action) for action in self.actions.values() if action.isdigit()}

    def decides(self):
        """Whether a success of this line ends its list, or jumps."""
        return is_decisive(self.actions)

    def told(self, code):
        """The control if it is a keyword, or else what it does with a code."""
        written = self.told_control()
        return f"{code}={self.actions[code]}" if written.startswith("[") else written

    def told_control(self):
        """The control as it is shown: the keyword that is short for it, or else as the program prints it."""
        return keywords(self.run).get(self.control, self.control)

    def where(self):
        return f"{self.file}:{self.line}" if self.file else "(unknown)"


class Stack:
    """A stack: its nodes (rules, and lists of nodes for substacks), the ways in which it may end, and the verdict."""

    def __init__(self, kind):
        self.kind, self.nodes, self.ways, self.verdict = kind, [], [], "unknown"

    def rules(self):
        return list(lines_of(self.nodes))

    def grants(self):
        """The sets of rules of which one must have said yes whole, if the stack returns SUCCESS."""
        return [rules for code, rules in self.ways if code == "SUCCESS"]


class Refusal(Exception):
    """What a program printed of a service instead of its stacks, and its exit status."""


def actions_of(control):
    """What a control does with each code, as the program prints it: the codes that differ, and `default`."""
    entries = dict(entry.split("=") for entry in control.strip("[]").split())
    return {code: entries.get(code) or entries["default"] for code in common.CODES}


def is_decisive(actions):
    """Whether a success ends the list, or jumps."""
    return actions["success"] not in ("ok", "ignore", "bad", "reset")


def lines_of(nodes):
    for node in nodes:
        yield from lines_of(node) if isinstance(node, list) else (node,)


def rule_of(run, fields):
    """A rule, of the fields of its line."""
    number, file, place, kind, control, _, says, codes, basis, path, *arguments = map(common.unquoted, fields)
    rule = Line(run, kind, control, path, arguments)
    rule.number, rule.file, rule.line = int(number), file.lstrip("/"), int(place)
    rule.says, rule.codes, rule.basis = says, codes, basis
    return rule


def parsed(run, text):
    """The four stacks of a service, as the program printed them."""
    stacks, inner = {}, []
    for line in text.split("\n"):
        word, *fields = line.split("\t")
        if word == "stack":
            stack = stacks[fields[0]] = Stack(fields[0])
            inner = [stack.nodes]
        elif word == "rule":
            inner[-1].append(rule_of(run, fields))
        elif word == "substack":
            inner[-1].append([])
            inner.append(inner[-1][-1])
        elif word == "end":
            inner.pop()
        elif word == "way":
            stack.ways.append((fields[0], tuple(map(int, fields[1:]))))
        elif word == "verdict":
            stack.verdict = fields[0]
    return stacks


def of_service(run, root, service, table):
    """The stacks of a service, by a table of modules."""
    ran = subprocess.run([run, root, service], input=table.encode("latin-1"), capture_output=True, check=False)
    if ran.returncode:
        raise Refusal(os.fsdecode(ran.stdout), ran.returncode)
    return parsed(run, ran.stdout.decode("latin-1"))


@functools.cache
def keywords(run):
    """The controls for which a keyword is short: the program is asked about a service with one rule for each.
    (Unproved, that would take a minute more.)"""
    if run == UNPROVED:
        return {}
    with tempfile.TemporaryDirectory(prefix="ways-") as root:
        os.makedirs(f"{root}/etc/pam.d")
        with open(f"{root}/etc/pam.d/s", "w", encoding="latin-1") as file:
            file.writelines(f"auth {word} {word}\n" for word in KEYWORDS)
        return {rule.control: rule.module for rule in of_service(run, root, "s", "")["auth"].rules()}
