#!/usr/bin/env python3
"""Runs CI, `rt ci`, and prints what it cost: for each crate the processor seconds (user and system) of its proof, its
tests and its mutants, and the minutes of all by the clock. It looks at the processes of that run twice a second, so
what ends sooner is left out.

  bench/gate.py [--anew] [--beyond] [--save FILE]
      --anew     nothing is taken from earlier runs on this machine, also if the toolchain's `rt ci` keeps what it has
                 proved; only what
                 this run proves and tries is counted
      --beyond   the mutants of tests/mutants are tried beside those of CI, in a copy of the checkout, and counted apart
      --save     keeps the figures
  bench/gate.py --watch PROCESS [--save FILE]
      measures an `rt ci` that was begun elsewhere, or what runs it (.ci/run), or a ./build, from now to its end
  bench/gate.py --load FILE..
      the table of figures that were kept; of a share that several have, the largest counts
"""
import functools
import json
import os
import shutil
import subprocess
import sys
import tempfile
import time

TOP = os.path.dirname(os.path.dirname(os.path.abspath(__file__)))
TICKS = os.sysconf("SC_CLK_TCK")
SHARES = ("proof", "tests", "edits")
BEYOND = "beyond"
# The processor minutes that all crates may take, and the minutes that the longest chain of crates may take by the clock
# on two processors.
BUDGET, CHAIN = 230, 100


def processes():
    """Each process: its parent, its processor seconds, and when it began."""
    found = {}
    for name in filter(str.isdigit, os.listdir("/proc")):
        try:
            with open(f"/proc/{name}/stat", encoding="utf-8", errors="replace") as file:
                fields = file.read().rpartition(")")[2].split()
        except OSError:
            continue
        found[int(name)] = int(fields[1]), (int(fields[11]) + int(fields[12])) / TICKS, fields[19]
    return found


def is_below(process, root, found):
    while process in found and process != root:
        process = found[process][0]
    return process == root


def text_of(path):
    with open(path, encoding="utf-8", errors="surrogateescape") as file:
        return file.read()


def is_edited(room, crate, edit):
    """Whether a copy of a crate has what an edit makes of the crate's files."""
    texts, path, old = {}, None, None
    for line in text_of(edit).splitlines():
        kind, _, text = line.partition(": ")
        if kind == "file":
            path = text.strip()
        elif kind == "old":
            old = text
        elif line.startswith("new:"):
            texts[path] = texts.get(path, text_of(f"{crate}/{path}")).replace(old, line[4:].removeprefix(" "))
    return all(text_of(f"{room}/{path}") == text for path, text in texts.items())


def share_of(process):
    """The crate and the share that a process works for, if it is one of the checker's."""
    words = text_of(f"/proc/{process}/cmdline").split("\0")
    if "--crate-name" not in words:
        return None
    crate = words[words.index("--crate-name") + 1]
    room = os.readlink(f"/proc/{process}/cwd")
    if not os.path.basename(room).startswith("rt-edit-"):
        return crate, "tests" if "--test" in words else "proof"
    folder = f"{TOP}/tests/mutants/{crate}"
    further = [f"{folder}/{name}" for name in os.listdir(folder)] if os.path.isdir(folder) else []
    return (
        crate,
        BEYOND if any(
            is_edited(room, f"{TOP}/crates/{crate}", edit) for edit in further if edit.endswith(".edit")
        ) else "edits",
    )


def lay_beside(room):
    """A copy of the checkout, in which the mutants of tests/mutants are put beside those of CI."""
    shutil.copytree(
        TOP,
        room,
        ignore=lambda at, names: {"out"} & set(names) | ({".git"} if at == TOP else set()),
        dirs_exist_ok=True,
    )
    subprocess.run(["git", "init", "-q", room], check=True)
    for at, _, names in os.walk(f"{TOP}/tests/mutants"):
        for name in names:
            folder = f"{room}/crates/{os.path.basename(at)}/must-fail"
            os.makedirs(folder, exist_ok=True)
            if os.path.exists(f"{folder}/{name}"):
                sys.exit(f"gate: {os.path.basename(at)}/{name} is twice among the edits")
            shutil.copy2(f"{at}/{name}", folder)


def costs_of(shares, seconds):
    costs = {}
    for key, share in shares.items():
        if share:
            crate, kind = share
            costs.setdefault(crate, dict.fromkeys((*SHARES, BEYOND), 0))[kind] += seconds[key]
    return costs


def keep(costs, save):
    if save:
        with open(save, "w", encoding="utf-8") as file:
            json.dump(costs, file)


class Watched:
    """A process that was begun elsewhere, until it ends. With which exit status isn't known here."""

    def __init__(self, pid):
        self.pid, self.returncode, self.begun = pid, 0, processes().get(pid, (0, 0, None))[2]
        if self.begun is None:
            sys.exit(f"gate: there is no process {pid}")

    def poll(self):
        return None if processes().get(self.pid, (0, 0, None))[2] == self.begun else 0


def measure(run, save):
    """The seconds of each crate's shares in a run of CI, when it has ended. What was measured is saved twice a minute,
    for a run that is cut off."""
    shares, seconds, began = {}, {}, time.monotonic()
    kept = began
    while run.poll() is None:
        found = processes()
        for process, (_, used, begun) in found.items():
            if is_below(process, run.pid, found):
                key = process, begun
                try:
                    shares[key] = shares.get(key) or share_of(process)
                except OSError:
                    continue
                seconds[key] = used
        if time.monotonic() - kept > 30:
            keep(costs_of(shares, seconds), save)
            kept = time.monotonic()
        time.sleep(0.5)
    costs = costs_of(shares, seconds)
    keep(costs, save)
    print("\n".join(table(costs)))
    print(f"By the clock: {(time.monotonic() - began) / 60:.0f} minutes, on {len(os.sched_getaffinity(0))} processors.")
    return run.returncode


def listed():
    """The crates of crates.txt in its order, and those that each depends on directly."""
    lines = (line.partition("#")[0].partition(":") for line in text_of(f"{TOP}/crates.txt").splitlines())
    return {name.split()[0]: below.split() for name, _, below in lines if name.strip()}


def longest_chain(costs):
    """The chain of crates, each of which depends on the one before it, whose proofs take longest, and their seconds."""
    below = listed()

    @functools.lru_cache(maxsize=None)
    def chain(name):
        seconds, names = max((chain(one) for one in below[name] if one in below), default=(0, ()))
        return seconds + costs.get(name, {}).get("proof", 0), (*names, name)

    return max(map(chain, below))


def table(costs):
    """The lines of the table. The column of mutants beyond CI is there if some were tried, and no sum counts it."""
    kinds = [*SHARES, *([BEYOND] if any(it.get(BEYOND) for it in costs.values()) else [])]
    total = {kind: sum(it.get(kind, 0) for it in costs.values()) for kind in (*SHARES, BEYOND)}
    yield "| Crate | Proof | Tests | Mutants | Sum |" + (" Beyond |" if BEYOND in kinds else "")
    yield "|---|--:|--:|--:|--:|" + ("--:|" if BEYOND in kinds else "")
    for name, shares in [*((name, costs[name]) for name in listed() if name in costs), ("all", total)]:
        cells = [
            *(shares[kind] for kind in SHARES),
            sum(shares[kind] for kind in SHARES),
            *(shares.get(kind, 0) for kind in kinds[len(SHARES) :]),
        ]
        yield f"| {name} | " + " | ".join(f"{it:.0f}" for it in cells) + " |"
    parts = ", ".join(f"{total[kind] / 60:.0f} of {name}" for kind, name in zip(SHARES, ("proofs", "tests", "mutants")))
    yield f"\nIn processor minutes: {sum(total[kind] for kind in SHARES) / 60:.0f} of {BUDGET} ({parts})."
    seconds, names = longest_chain(costs)
    yield (
        f"Longest chain of proofs: {seconds / 60:.0f} processor minutes ({', '.join(names)}). It may take {CHAIN} by "
        "the clock on two processors."
    )
    if BEYOND in kinds:
        yield f"Mutants beyond the gate: {total[BEYOND] / 60:.0f} more."


def keeps_proofs():
    """Whether the toolchain's `rt ci` takes what an earlier run proved, unless it gets --anew."""
    told = subprocess.run(["rt", "help"], capture_output=True, text=True, check=False)
    return "--anew" in told.stdout + told.stderr


def load(files):
    costs = {}
    for name in files:
        with open(name, encoding="utf-8") as file:
            for crate, shares in json.load(file).items():
                known = costs.setdefault(crate, dict.fromkeys((*SHARES, BEYOND), 0))
                for kind in known:
                    known[kind] = max(known[kind], shares.get(kind, 0))
    return costs


def main(words):
    if words[:1] in (["-h"], ["--help"]):
        print(__doc__.strip())
        return 0
    if words[:1] == ["--load"]:
        print("\n".join(table(load(words[1:]))))
        return 0
    begins, save, watched = set(), None, None
    while words:
        word, words = words[0], words[1:]
        if word in ("--anew", "--beyond"):
            begins.add(word)
        elif word == "--save" and words:
            save, words = os.path.abspath(words[0]), words[1:]
        elif word == "--watch" and words and words[0].isdigit():
            watched, words = int(words[0]), words[1:]
        else:
            sys.exit(__doc__.strip())
    if watched is not None:
        if begins:
            sys.exit(__doc__.strip())
        return measure(Watched(watched), save)
    ci = ["rt", "ci", *(["--anew"] if "--anew" in begins and keeps_proofs() else [])]
    if "--beyond" not in begins:
        return measure(subprocess.Popen(ci, cwd=TOP), save)
    with tempfile.TemporaryDirectory(prefix="gate-") as room:
        lay_beside(room)
        return measure(subprocess.Popen(ci, cwd=room), save)


if __name__ == "__main__":
    sys.exit(main(sys.argv[1:]))
