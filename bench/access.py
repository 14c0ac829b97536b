#!/usr/bin/env python3
"""Measures what a read of a file costs below a ROOT, where each directory on the way is looked at, beside the same over
`/`, where the system finds the file: microseconds of processor time, and system calls.

usage: bench/access.py [ROUNDS]    the least of so many rounds in turns, 10 if left out

The reads are those of pam_listfile, of a file that stays open and of one that doesn't, at 3, 5 and 9 directories.
What a run without them takes is subtracted. Over `/` the program runs in a chroot, so it is linked without shared
libraries. It wants root, strace and libc6-dev, and the program that ./build has built or PAMSESS names.
"""
import os
import re
import resource
import shutil
import stat
import subprocess
import sys
import tempfile

TOP = os.path.dirname(os.path.dirname(os.path.realpath(__file__)))
sys.path.append(f"{TOP}/lib")
import common

CALLS = 2000
DEPTHS = (3, 5, 9)
MODES = {"stays open": 0o644, "is opened each time": 0o600}


def tree(room):
    """A tree with a service for each depth and mode, and one that reads nothing. Returns the services' names."""
    names = ["none"]
    os.makedirs(f"{room}/etc/pam.d")
    os.makedirs(f"{room}/dev")
    os.mknod(f"{room}/dev/null", stat.S_IFCHR | 0o666, os.makedev(1, 3))
    with open(f"{room}/etc/pam.d/none", "w", encoding="ascii") as file:
        file.write("auth required pam_permit.so\n")
    for depth in DEPTHS:
        folder = "/etc" + "/d" * (depth - 1)
        os.makedirs(room + folder, exist_ok=True)
        for number, mode in enumerate(MODES.values()):
            path, name = f"{folder}/list{number}", f"s{depth}-{number}"
            with open(room + path, "w", encoding="ascii") as file:
                file.write("joe\n")
            os.chmod(room + path, mode)
            with open(f"{room}/etc/pam.d/{name}", "w", encoding="ascii") as file:
                file.write(f"auth required pam_listfile.so item=user sense=allow file={path} onerr=fail\n")
            names.append(name)
    return names


def script(service, calls):
    return f"start 1 {service} joe\n" + "authenticate 1\n" * calls + "end 1 0\n"


def seconds(words, text):
    before = resource.getrusage(resource.RUSAGE_CHILDREN)
    ran = subprocess.run(words, input=text, capture_output=True, text=True, check=True)
    after = resource.getrusage(resource.RUSAGE_CHILDREN)
    if " authenticate SUCCESS " not in ran.stdout or ran.stdout.count(" authenticate SUCCESS ") != CALLS:
        sys.exit(f"access: not every call succeeded: {ran.stdout[:200]}")
    return after.ru_utime + after.ru_stime - before.ru_utime - before.ru_stime


def system_calls(words, text, calls):
    ran = subprocess.run(
        ["strace", "-f", "-c", *words], input=text, capture_output=True, text=True, check=True
    )
    return int(re.search(r"(\d+)(?:\s+\d+)? total$", ran.stderr.strip())[1]) / calls


def main():
    rounds = int(sys.argv[1]) if len(sys.argv) > 1 else 10
    program = common.place_of("pam_session_cli", "pamsess", "PAMSESS")
    with tempfile.TemporaryDirectory() as room:
        names = tree(room)
        subprocess.run([f"{TOP}/libpam/link", program, f"{room}/pamsess"], check=True)
        sides = {"/": ["chroot", room, "/pamsess", "run", "/"], "below ROOT": [f"{room}/pamsess", "run", room]}
        least = {}
        for _ in range(rounds):
            for name in names:
                for side, words in sides.items():
                    took = seconds(words, script(name, CALLS))
                    least[name, side] = min(took, least.get((name, side), took))
        print("| A file that | Directories | Over `/` | Below ROOT | System calls over `/` | Below ROOT |")
        print("|---|--:|--:|--:|--:|--:|")
        for name in names[1:]:
            depth, number = name[1:].split("-")
            told = [1e6 * (least[name, side] - least["none", side]) / CALLS for side in sides]
            counts = [
                system_calls(words, script(name, CALLS), CALLS) - system_calls(words, script("none", CALLS), CALLS)
                for words in sides.values()
            ]
            cells = [list(MODES)[int(number)], depth, *(f"{it:.1f}" for it in told), *(f"{it:.0f}" for it in counts)]
            print(f"| {' | '.join(cells)} |")


if "-h" in sys.argv or "--help" in sys.argv:
    print(__doc__.strip())
else:
    shutil.which("strace") or sys.exit("access: strace isn't installed")
    main()
