"""Rules that are written again with other modules, on the lines on which the program `ways` says that they begin, and
the files that they include. What a rule is, which lines belong to it, and which words it has, is asked of the program;
no text is read here."""
import os
import re
import tempfile

import common
import ways
from stacks import Refusal

CONF = "etc/pam.conf"
# The module of a rule that is put before or behind others, and the service whose rules the program is asked for.
MARK, PROBE = "pam_next.so", "pam-next"


def rules_below(run, root, services):
    """The rules of services by file and line, each with its service, and the services that are refused. In pam.conf a
    rule is of the first service that has it, so that `other` comes first."""
    found, refused = {}, {}
    for service in sorted(services, key=lambda name: name != "other"):
        try:
            stacks = ways.of_service(run, root, service)
        except Refusal as refusal:
            refused[service] = refusal
            continue
        for stack in stacks.values():
            for rule in stack.rules():
                found.setdefault((rule.file, rule.line), (service, rule))
    return found, refused


def token(text):
    """A token that is read as a text. One that would end early, or that begins with a bracket, is put into brackets."""
    is_plain = text and not text.startswith("[") and not re.search("[ \t\r#]", text)
    return text if is_plain else "[" + text.replace("]", "\\]") + "]"


def written(service, rule, path, arguments):
    """A rule on one line, with another module and its arguments."""
    kind = f"-{rule.kind}" if rule.silent else rule.kind
    words = [service] if rule.file == CONF else []
    line = " ".join([*words, kind, rule.told_control(), token(path), *map(token, arguments)])
    # (a backslash at the end would join the next line)
    return f"{line} " if line.endswith("\\") else line


def with_rules(run, path, text, changed):
    """The text of a file in which rules are others: by the lines on which they begin, each with its service and what is
    written there. Lines that were joined to them are empty, so that all others stay where they are."""
    lines = text.split("\n")
    for number, (service, line) in changed.items():
        end = end_of(run, path, lines, number, service)
        lines[number - 1 : end] = [line, *[""] * (end - number)]
    return "\n".join(lines)


def end_of(run, path, lines, first, service):
    """The last line of the rule that begins on a line."""
    end = first
    while end < len(lines) and re.search(r"\\\r?$", lines[end - 1]):
        if not is_joined(run, path, lines[first - 1 : end], service):
            break
        end += 1
    return end


def is_joined(run, path, lines, service):
    """Whether a rule after these lines is joined to them: a backslash joins nothing in a comment. The program is asked
    about a service that has only them."""
    name, word = (CONF, f"{service} ") if path == CONF else (f"etc/pam.d/{service}", "")
    with tempfile.TemporaryDirectory(prefix="pamsess-") as root:
        os.makedirs(f"{root}/etc/pam.d" if name != CONF else f"{root}/etc")
        with open(f"{root}/{name}", "wb") as file:
            file.write(os.fsencode("\n".join([*lines, f"{word}auth required {MARK}", ""])))
        try:
            rules = ways.of_service(run, root, service)["auth"].rules()
        except Refusal:
            # (a bracket isn't closed on them)
            return True
    return all(rule.path != MARK for rule in rules)


# Files that rules include


def included_by(run, path, text, number, service):
    """The file that the rule on a line includes, by its path below the root; None if it includes none, or by a path
    with `..` in it. The program is asked about a service that has this rule alone, in trees in which one of its words
    is a file: a rule that the service then has names it."""
    lines, words = rule_at(run, text.split("\n"), number)
    name, service = (CONF, service) if path == CONF else (f"etc/pam.d/{PROBE}", PROBE)
    # (before the file's name there are a service, a type and `include`)
    for word in words[:4]:
        place = plain_path(word if word.startswith("/") else f"etc/pam.d/{word}")
        # (a directory etc/pam.d would be read in place of pam.conf)
        is_path = ".." not in place.split("/") and (name != CONF or not place.startswith("etc/pam.d/"))
        if is_path and place != name and is_read(run, {name: "\n".join([*lines, ""])}, place, service):
            return place
    return None


def is_read(run, files, path, service):
    """Whether a service has rules of a further file, if there is one with this path."""
    with tempfile.TemporaryDirectory(prefix="pamsess-") as root:
        try:
            for name, text in {**files, path: "".join(f"{kind} required {MARK}\n" for kind in common.TYPES)}.items():
                put(root, name, text)
            stacks = ways.of_service(run, root, service)
        except (OSError, Refusal):
            # (the word is no path, or not the one that is included)
            return False
    return any(plain_path(rule.file) == path for stack in stacks.values() for rule in stack.rules())


def rule_at(run, lines, number):
    """The lines of the rule that begins on a line, and its words. A rule before it is continued by it, so that the
    program reads its words as arguments."""
    for end in range(number, len(lines) + 1):
        own = lines[number - 1 : end]
        # (a backslash at the end of the text joins nothing)
        after = [f"auth required {MARK}", ""] if end < len(lines) else []
        try:
            rules = asked(run, [f"auth required {MARK} \\", *own, *after])
        except Refusal:
            # (a bracket isn't closed on them)
            rules = []
        if [rule.path for rule in rules] == [MARK] * (2 if after else 1):
            return own, rules[0].arguments
        if not re.search(r"\\\r?$", own[-1]):
            break
    return [], []


def asked(run, lines):
    """The rules of a service that has these lines."""
    with tempfile.TemporaryDirectory(prefix="pamsess-") as root:
        put(root, f"etc/pam.d/{PROBE}", "\n".join(lines))
        return ways.of_service(run, root, PROBE)["auth"].rules()


def plain_path(path):
    """A path below a root, without what leads nowhere."""
    return "/".join(part for part in path.split("/") if part not in ("", "."))


def put(root, path, text):
    """Writes a new file below a directory that only this process uses."""
    os.makedirs(os.path.dirname(f"{root}/{path}"), exist_ok=True)
    with open(f"{root}/{path}", "xb") as file:
        file.write(os.fsencode(text))
