"""A run for each way through a stack, the lines that are never run, and those that change nothing of who gets in.

All of it is asked of the program `ways`, about copies of a stack in which rules may return fewer codes, or which end
earlier (questions.py); and the run itself is made by `pamsess run` with pam_debug in place of each module, and told by
`explain`.
"""
import os
import subprocess
import tempfile

import calls
import common
import questions
import replacing
import ways
from common import CODES, NAMES
from stacks import actions_of, lines_of

# Stacks with more rules aren't asked about, and runs are made of so many ways: each question runs the program once.
MOST_RULES, MOST_WAYS = 64, 12

CALL_OF = {"auth": "authenticate", "account": "acct_mgmt", "password": "chauthtok", "session": "open_session"}
# What a module returns if nothing else is asked for: the usual failures first.
FAILURES = ["auth_err", "user_unknown", "perm_denied", "acct_expired", "authtok_err", "session_err"]
USUAL = [*FAILURES, "ignore", *(code for code in CODES if code not in [*FAILURES, "ignore", "success"]), "success"]


class Probe:
    """A rule of a copy: its control, and the codes that it may return."""

    def __init__(self, kind, control, codes):
        self.kind, self.control, self.codes = kind, control, codes


def control_of(actions):
    """A control with these actions."""
    return "[" + " ".join(f"{code}={action}" for code, action in actions.items()) + "]"


# A run


def run_of(nodes, way):
    """For each rule, by its number, the code that it returns in a run that returns SUCCESS, and in which the rules of a
    way say yes and no others; None if there are too many ways to ask."""
    rules = list(lines_of(nodes))
    may = {rule: ways.possible(rule) for rule in rules}
    first = {rule: candidates(rule, way)[:1] for rule in rules}
    if is_way(nodes, first, way):
        may = first
    elif not is_way(nodes, may, way):
        return None
    for rule in rules:
        for code in candidates(rule, way) if len(may[rule]) > 1 else ():
            fewer = {**may, rule: [code]}
            if is_way(nodes, fewer, way):
                may = fewer
                break
    return {rule.number: may[rule][0] for rule in rules}


def candidates(rule, way):
    """The codes that are tried for a rule, the likeliest first."""
    codes = ways.possible(rule)
    if rule.number in way:
        return ["success"]
    if not ways.is_yes(rule) and "success" in codes:
        return ["success", *(code for code in USUAL if code in codes and code != "success")]
    return [code for code in USUAL if code in codes]


def is_way(nodes, may, way):
    """Whether these rules say yes in a run that returns SUCCESS, if each rule may return some codes."""
    return ("SUCCESS", way) in questions.answer(nodes, may.get, ways.is_yes).ways


def made(nodes, codes, programs):
    """The call of a run in which the rules return these codes, as `explain` tells it. `programs` are `pamsess` and
    `explain`."""
    rules = list(lines_of(nodes))
    kind = rules[0].kind
    files = questions.files_of(nodes, lambda rule, number: replacing.debug(kind, codes[rule.number]))
    with tempfile.TemporaryDirectory(prefix="ways-") as root:
        os.makedirs(f"{root}/etc/pam.d")
        for name, text in files.items():
            with open(f"{root}/etc/pam.d/{name}", "w", encoding="latin-1") as file:
                file.write(text)
        script = f"start 1 s somebody\n{CALL_OF[kind]} 1\nend 1 0\n"
        told = script.encode()
        for words in ([programs[0], "run", root], [programs[1], root, "s"]):
            ran = subprocess.run(words, input=told, capture_output=True, check=False)
            if ran.returncode:
                raise OSError(f"{os.path.basename(words[0])} ends with status {ran.returncode}")
            told = ran.stdout
    call = calls.calls_in(told.decode("ascii", "replace"), lambda place, module: module)[0]
    call.rules = [
        (place, common.shown(rule.where()), common.shown(text_of(rule)), *rest)
        for rule, (place, _, _, *rest) in zip(rules, call.rules)
    ]
    return call


def text_of(rule):
    """A rule as it is shown, without its type."""
    return " ".join([rule.told_control(), rule.path, *rule.arguments])


# Lines that are never run


def never_run(nodes):
    """The numbers of the rules that no run reaches, whatever the modules return."""
    code, copy = copied(nodes)
    if code is None:
        return []
    numbers = {id(rule): number for number, rule in enumerate(lines_of(copy), 1)}
    rules = {numbers[id(rule)]: path for path, rule in paths_of(copy)}
    return [number for number, path in sorted(rules.items()) if not is_reached(copy, path, code)]


def copied(nodes):
    """A code, and a copy of a stack in which no rule returns it, and each rule one code for each of its actions; (None,
    None) if there is no such code."""
    for unused in reversed(CODES[:-1]):
        chosen = {rule: one_of_each(rule, unused) for rule in lines_of(nodes)}
        if all(chosen.values()):
            return unused, copy_of(nodes, lambda rule: Probe(rule.kind, rule.control, chosen[rule]))
    return None, None


def one_of_each(rule, unused):
    """A code for each action of the codes that a rule may return; None if the only one of an action is `unused`."""
    found = {}
    for code in ways.possible(rule):
        if code != unused:
            found.setdefault(rule.actions[code], code)
    if {rule.actions[code] for code in ways.possible(rule)} != set(found):
        return None
    return list(found.values())


def copy_of(nodes, made):
    return [copy_of(node, made) if isinstance(node, list) else made(node) for node in nodes]


def paths_of(nodes, before=()):
    """The rules of a stack, each with the places of the lists that lead to it, and its own."""
    for at, node in enumerate(nodes):
        if isinstance(node, list):
            yield from paths_of(node, (*before, at))
        else:
            yield (*before, at), node


def is_reached(nodes, path, code):
    """Whether some run comes to a node. In place of it the stack gets a line that resets what its list did, and one
    that then fails with a code that no other rule returns. If the list was entered with a failure, only jumps and
    `die` lead through it, and that it is entered so is asked first."""
    if ends_with(ending(nodes, path, ["[default=reset]"], code), code):
        return True
    return len(path) > 1 and is_failing_at(nodes, path[:-1], code) and is_passed(nodes, path, code)


def is_failing_at(nodes, path, code):
    """Whether some run comes to a node after a failure: `done` ends the list otherwise."""
    if ends_with(ending(nodes, path, ["[success=done default=bad]", "[default=reset]"], code), code):
        return True
    return len(path) > 1 and is_failing_at(nodes, path[:-1], code) and is_passed(nodes, path, code)


def is_passed(nodes, path, code):
    """Whether a run comes to a node from the beginning of its list, if it has failed before."""
    for at in path[:-1]:
        nodes = nodes[at]
    kind = next(lines_of(nodes)).kind
    plain = [failed(node, kind) for node in nodes]
    return ends_with(ending(plain, path[-1:], [], code), code)


def failed(node, kind):
    """A node that only jumps and ends its list, since it has failed before; a substack is one node."""
    if isinstance(node, list):
        return Probe(kind, "[default=ignore]", ["success"])
    actions = actions_of(node.control)
    kept = {code: actions[code] if actions[code].isdigit() or actions[code] == "die" else "ignore" for code in CODES}
    return Probe(kind, control_of(kept), node.codes)


def ending(nodes, path, controls, code):
    """A stack up to a node, in whose place lines with these controls stand, and one that fails with a code. What jumps
    over the node jumps over these, too."""
    at, *rest = path
    before = nodes[:at]
    if rest:
        return [*before, ending(nodes[at], rest, controls, code)]
    kind = next(lines_of(nodes)).kind
    before = [
        node if isinstance(node, list) else longer(node, at - index, len(controls))
        for index, node in enumerate(before)
    ]
    return [*before, *(Probe(kind, control, ["success"]) for control in controls), Probe(kind, "[default=die]", [code])]


def longer(probe, left, more):
    """A rule whose jumps over `left` nodes or more are longer."""
    actions = actions_of(probe.control)
    far = {
        code: str(min(255, int(action) + more)) if action.isdigit() and int(action) >= left else action
        for code, action in actions.items()
    }
    return Probe(probe.kind, control_of(far), probe.codes)


def ends_with(nodes, code):
    told = questions.answer(nodes, lambda probe: probe.codes)
    return told.verdict == "unknown" or any(one == NAMES[CODES.index(code)] for one, _ in told.ways)


# Lines whose code never matters


def idle(nodes, grants):
    """The numbers of the rules that may return several codes, and with each of them the same sets of other rules have
    to say yes. A rule of a way isn't one."""
    needed = {number for way in grants for number in way}
    return [rule.number for rule in lines_of(nodes) if rule.number not in needed and is_idle(nodes, rule)]


def is_idle(nodes, rule):
    may, seen = ways.possible(rule), set()
    if len(may) == 1:
        return False
    for code in {(rule.actions[code], code in ("success", "ignore") and code): code for code in may}.values():
        told = questions.answer(
            nodes,
            lambda it, code=code: [code] if it is rule else ways.possible(it),
            lambda it: it is not rule and ways.is_yes(it),
        )
        seen.add(told.verdict if told.verdict == "unknown" else frozenset(told.grants()))
        if len(seen) > 1 or "unknown" in seen:
            return False
    return True
