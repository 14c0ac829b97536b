"""What a block of a page shows: stored files, and what stored runs print."""
import os
import re
import subprocess

import harness
from sources import TOP, files_below, text_of


def stored_in(page, before):
    """The stored file that the paragraph before a block names last."""
    folder = os.path.dirname(page.path)
    for name in reversed(re.findall(r"\]\(([^)\s]+)\)|`([^`\s]+)`", before)):
        for path in (os.path.normpath(os.path.join(folder, name[0])) if name[0] else name[1],):
            if (
                "/" in path[1:]
                and path[0] != "/"
                and os.path.isfile(os.path.join(TOP, path))
                and not path.endswith(".md")
            ):
                return path
    return None


def shows(lines, stored):
    """Whether a block's lines are those of a text, except for what its lines `..` leave out."""
    wanted = [line.rstrip() for line in stored.splitlines()]
    parts, part = [], []
    for line in lines:
        if line.strip() in ("..", "// .."):
            parts.append(part)
            part = []
        else:
            part.append(line.rstrip())
    parts.append(part)
    if len(parts) == 1:
        return part == wanted or (len(part) > 1 and contains(wanted, part, 0) is not None)
    at = 0
    for part in parts:
        at = contains(wanted, part, at)
        if at is None:
            return False
    return True


def contains(lines, part, start):
    """The index after a run of lines within others, from a start on, or None."""
    while part and not part[0]:
        part = part[1:]
    while part and not part[-1]:
        part = part[:-1]
    return next(
        (i + len(part) for i in range(start, len(lines) - len(part) + 1) if lines[i : i + len(part)] == part), None
    )


def runs_of(words):
    """Of the words of a shell: each stored file that may have what the program prints for them, and what is typed
    then."""
    words = words.split()
    if words[:1] == ["check"] and len(words) == 3:
        return [(f"{words[1]}/checked/{words[2]}", [])]
    if words[:1] == ["run"] and words[2:4] == ["<", f"{words[1]}/script"]:
        return [(f"{words[1]}/output", [])]
    if words[:1] == ["audit"] and words[3:] == ["<", f"{words[1]}/input"]:
        return [(f"{words[1]}/output", [])]
    folder = next((word for word in words if word.startswith("examples/")), None)
    cases = [folder, *(os.path.dirname(path) for path in files_below(f"{folder}/cases", "words"))] if folder else []
    return [run for case in cases for run in stored_run(words, folder, case)]


def stored_run(words, folder, case):
    """The output and the input of a case, if it is one of these words."""
    if os.path.isfile(os.path.join(TOP, case, "words")):
        stored = [
            word.replace("ROOT", folder) if word.startswith("ROOT") else word
            for word in text_of(f"{case}/words").splitlines()
        ]
        typed = text_of(f"{case}/input").splitlines() if os.path.isfile(os.path.join(TOP, case, "input")) else []
        if words == stored:
            yield f"{case}/output", typed


def shells(where, lines):
    """What a block's lines after `$ ./pamsess ..` should be, and aren't. A line that ends in what is typed is a
    prompt's."""
    runs = [i for i, line in enumerate(lines) if line.startswith("$ ./pamsess ")]
    for i, end in zip(runs, runs[1:] + [len(lines)]):
        stored = [
            one for one in runs_of(lines[i].removeprefix("$ ./pamsess ")) if os.path.isfile(os.path.join(TOP, one[0]))
        ]
        printed = [line.rstrip() for line in lines[i + 1 : end]]
        while printed and not printed[-1]:
            printed.pop()
        if printed and not stored:
            yield f"{where}: no output is stored for {lines[i]}"
        elif printed and not any(is_shown(printed, output, typed) for output, typed in stored):
            yield f"{where}: {lines[i]} prints what {' or '.join(output for output, _ in stored)} has, and not this"


def is_shown(printed, output, typed):
    """Whether lines of a terminal are a stored output's, and prompts that end in what is typed, one for each such
    line."""
    prompts = [line for line in printed if any(line.endswith(one) for one in typed)]
    answered = [one for one, line in zip(typed, prompts) if line.endswith(one)]
    return (
        answered == typed
        and len(prompts) == len(typed)
        and shows([it for it in printed if it not in prompts], text_of(output))
    )


def shown(all_pages):
    """Every example that a page shows is the stored one."""
    for page in all_pages.values():
        for block in page.blocks:
            where = f"{page.path}:{block.line}"
            while block.lines and not block.lines[-1]:
                block.lines.pop()
            stored = stored_in(page, block.before) if block.before.rstrip().endswith(":") else None
            if any(line.startswith("$ ") for line in block.lines):
                yield from shells(where, block.lines)
            elif stored and not shows(block.lines, text_of(stored)):
                yield f"{where}: {stored} has other lines"


def pictures():
    """Each picture is what docs/pictures makes of the examples' stored runs."""
    harness.need_program(harness.WAYS)
    ran = subprocess.run([os.path.join(TOP, "docs/pictures"), "--check"], capture_output=True, text=True)
    yield from (ran.stdout + ran.stderr).splitlines()
