"""The manual pages."""
import os
import re
import subprocess

from checks.examples import shells
from checks.numbers import usage_forms
from checks.pages import MANUAL, MANUALS
from sources import TOP, text_of


def manual():
    """The manual page and README have the commands of the usage line and of the scripts, and the manual page of scripts
    those that script_lang knows; examples are stored."""
    text, usage, forms = text_of(MANUAL), usage_forms(), []
    for line in text[text.index(".Sh SYNOPSIS") : text.index(".Sh DESCRIPTION")].splitlines():
        words = [word for word in line.split() if word not in (".Cm", ".Ar", "Ar")]
        if line == ".Nm":
            forms.append([])
        elif words[0] == ".Op":
            forms[-1].append(f"[{words[1]}]")
        elif line.startswith((".Cm", ".Ar")):
            forms[-1] += words
    if forms != usage:
        yield f"{MANUAL}: SYNOPSIS has {forms}, and the usage line {usage}"
    table = re.findall(r"^\| `(?:\./|bin/)([^`]*)` \|", text_of("README.md"), re.M)
    shown = [
        form.removeprefix("pamsess ").partition(" <")[0].lower().split()
        for form in table
        if form.startswith("pamsess ")
    ]
    yield from (f"README.md: no command {' '.join(form)}" for form in usage if form not in shown)
    for script in ("stand-in", "check-all", "try", "explain", "ways"):
        form = re.search(
            r"usage: (.*)", text_of(f"bin/{script}")
        )[1].strip().replace("[--html | --json] ", "").replace("[--json] ", "")
        if form not in table:
            yield f"README.md: no command {form}"
        if f".It Nm Ns -{script} " not in text:
            yield f"{MANUAL}: nothing of pamsess-{script}"
    sources = text_of("crates/pam_base/src/call.rt") + text_of("crates/script_lang/src/command.rt")
    commands = set(re.findall(r'(?:Func|CallName|Command)::\w+ => "([a-z_]+)"', sources))
    listed = set(re.findall(r"^\.It Cm ([a-z_]+) Ar", text_of(MANUALS[1]), re.M))
    if commands != listed:
        yield f"{MANUALS[1]} and script_lang differ in {' '.join(sorted(commands ^ listed))}"
    for path in MANUALS:
        for block in re.findall(r"\.Bd -literal.*\n((?:.*\n)*?)\.Ed", text_of(path)):
            yield from shells(path, block.splitlines())


def manuals():
    """The manual pages of scripts are as docs/manuals makes them, and have the options that --help has."""
    ran = subprocess.run([os.path.join(TOP, "docs/manuals"), "--check"], capture_output=True, text=True, check=False)
    yield from (ran.stdout + ran.stderr).splitlines()
