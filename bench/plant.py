#!/usr/bin/env python3
"""Searches crates for wrong bodies that their contracts let through, and compares them with those that were judged.

usage: bench/plant.py [--minutes N] CRATE..     N minutes for each crate, 5 if left out, besides its own check
       bench/plant.py --read FILE..             takes what `rt plant` printed of crates from files, and runs nothing

`rt plant` puts other bodies under the signatures of a crate's public functions, and lists those that are proved. It
runs here in one crate after another, over what ./build has proved of those below, and what it prints is kept in
crates/NAME/out/plants. bench/plant.table has what was found so far, and what it is:

  equivalent   it does the same as the function, or what the contract leaves open on purpose, as that says
  memory       it differs only in that it may run out of memory
  real         real objects alone could tell it, and their contracts say nothing of it
  mended       the contract was strengthened: it mustn't be found again
  open         the contract should say more

Prints what isn't in the table, and what is `mended` or `open` and was found. The exit status is 1 if there is such a
body, else 0.
"""
import os
import re
import subprocess
import sys

TOP = os.path.dirname(os.path.dirname(os.path.realpath(__file__)))
TABLE = f"{TOP}/bench/plant.table"
VERDICTS = ("equivalent", "memory", "real", "mended", "open")
FOUND = re.compile(r"(proves|no-ensures|untested) +(src/\S+?):\d+ (.*)")


def text_of(path):
    try:
        with open(path, encoding="utf-8") as file:
            return file.read()
    except OSError:
        return ""


def judged():
    """The verdicts by crate, kind and body, as the table has them: a line is `VERDICT CRATE KIND FILE BODY`, and lines
    that begin with a space say why."""
    found = {}
    for number, line in enumerate(text_of(TABLE).splitlines(), 1):
        if not line.strip() or line[0] in "# ":
            continue
        words = line.split(" ", 4)
        if len(words) < 5 or words[0] not in VERDICTS:
            sys.exit(f"plant: {TABLE}:{number}: no verdict on a body")
        found[tuple(words[1:])] = words[0]
    return found


def bodies(crate, said):
    """What a run of `rt plant` has found in a crate: as the table names it."""
    for line in said.splitlines():
        row = FOUND.match(line)
        if row:
            yield crate, row[1], row[2], re.sub(r"  \(and in \d+ more impls\)$", "", row[3])


def planted(crate, minutes):
    """What `rt plant` prints of a crate."""
    words = ["rt", "plant", "--minutes", str(minutes), "--jobs", "1"]
    ran = subprocess.run(words, cwd=f"{TOP}/crates/{crate}", capture_output=True, text=True, check=False)
    os.makedirs(f"{TOP}/crates/{crate}/out", exist_ok=True)
    with open(f"{TOP}/crates/{crate}/out/plants", "w", encoding="utf-8") as file:
        file.write(ran.stdout)
    if ran.returncode or "\nplants crate=" not in f"\n{ran.stdout}":
        print(f"plant: {crate}: {(ran.stderr or ran.stdout).strip().splitlines()[-1:]}", flush=True)
    return ran.stdout


def compared(crate, said, verdicts):
    """Prints what a run has found that isn't settled. How many these are."""
    is_open = 0
    for body in bodies(crate, said):
        verdict = verdicts.get(body, "not judged")
        if verdict in ("not judged", "mended", "open"):
            is_open += 1
            print(verdict, *body, flush=True)
    counts = re.search(r"^plants crate=.*", said, re.M)
    print(counts[0] if counts else f"plant: {crate}: no counts", flush=True)
    return is_open + (not counts)


def main(words):
    if words[:1] in (["--help"], ["-h"]):
        print(__doc__.strip())
        return 0
    minutes = 5
    if words[:1] == ["--minutes"] and re.fullmatch("[1-9][0-9]*", "".join(words[1:2])):
        minutes, words = int(words[1]), words[2:]
    is_read = words[:1] == ["--read"]
    words = words[is_read:]
    listed = {line.partition(":")[0].split(" ")[0] for line in text_of(f"{TOP}/crates.txt").splitlines()}
    unknown = [word for word in words if not is_read and word not in listed]
    if not words or unknown:
        print(f"plant: there is no crate {unknown[0]}" if unknown else __doc__.strip(), file=sys.stderr)
        return 2
    verdicts, is_open = judged(), 0
    for word in words:
        said = text_of(word) if is_read else planted(word, minutes)
        crate = re.search(r"^plants crate=(\w+)", said, re.M)
        is_open += compared(crate[1] if crate else word, said, verdicts)
    return 1 if is_open else 0


if __name__ == "__main__":
    sys.exit(main(sys.argv[1:]))
