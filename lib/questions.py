"""Questions about a stack that the program `ways` answers: whether it may return SUCCESS if each rule returns one of
certain codes, by which rules, and where a success leads.

The table that `ways` reads has one entry for all rules of a module, and a question has codes for each rule. So the
program is asked about a service of a temporary directory: the stack rule by rule, each with its own control, and with a
module that is named after its number. The table has what these modules return.
"""
import functools
import itertools
import os
import tempfile

import ways
from stacks import lines_of

# How many lines a file that is written has at most: with the longest controls it then has fewer than 65,536 bytes.
MOST_LINES = 64


def grants(nodes, codes):
    """Whether a stack may return SUCCESS, if each rule may return each of the codes that `codes` gives for it."""
    return answer(nodes, codes).verdict != "denies"


def granting(nodes, codes):
    """The rules that may grant then, in their order: of each smallest set of rules whose success is enough, the first
    that counts."""
    rules = list(lines_of(nodes))
    stack = answer(nodes, codes, lambda rule: rule.actions["success"] in ("ok", "done"))
    if stack.verdict == "unknown":
        # (there are too many such sets to list)
        return [rule for rule in rules if rule.actions["success"] in ("ok", "done") and "success" in codes(rule)]
    return [rules[number - 1] for number in sorted({way[0] for way in stack.grants()})]


def after(nodes, rule):
    """The rule to which a success of a rule leads in its list, or in a substack there; None if the list ends."""
    rest = beginning_with(nodes, rule)
    (_, run), *_ = answer(rest, lambda _: ("success",), lambda _: True).ways
    return list(lines_of(rest))[run[1] - 1] if run[1:] else None


def beginning_with(nodes, rule):
    """The end of a list, from a rule in it on."""
    for at, node in enumerate(nodes):
        if node is rule:
            return nodes[at:]
        if isinstance(node, list) and rule in lines_of(node):
            return beginning_with(node, rule)
    return []


def answer(nodes, codes, asks=lambda rule: False):
    """What the program says of a stack, if each rule returns such codes, and a success of those that `asks` names is a
    yes."""
    rules = list(lines_of(nodes))
    table = "".join(
        f"m{number} * {'asks' if asks(rule) else 'passes'} {','.join(codes(rule))} asked\n"
        for number, rule in enumerate(rules, 1)
    )
    return answered(rules[0].kind, tuple(files_of(nodes).items()), table)


@functools.cache
def answered(kind, files, table):
    with tempfile.TemporaryDirectory(prefix="check-all-") as root:
        os.makedirs(f"{root}/etc/pam.d")
        for name, text in files:
            with open(f"{root}/etc/pam.d/{name}", "w", encoding="latin-1") as file:
                file.write(text)
        return ways.of_service(program(), root, "s", table)[kind]


@functools.cache
def program():
    return ways.program("check-all")


def files_of(nodes, module=lambda rule, number: f"m{number}"):
    """The files of the service `s`, whose stack has these rules: rule N is of module mN, or of the one that is
    given."""
    kind, numbers, files = next(lines_of(nodes)).kind, itertools.count(1), {}

    def put(name, lines):
        if len(lines) > MOST_LINES:
            parts = [lines[at : at + MOST_LINES] for at in range(0, len(lines), MOST_LINES)]
            lines = [f"{kind} include {put(f'{name}-{at}', part)}\n" for at, part in enumerate(parts)]
        files[name] = "".join(lines)
        return name

    def line(node):
        if isinstance(node, list):
            lines = list(map(line, node))
            return f"{kind} substack {put(f's{len(files)}', lines)}\n"
        return f"{kind} {node.control} {module(node, next(numbers))}\n"

    put("s", list(map(line, nodes)))
    return files
