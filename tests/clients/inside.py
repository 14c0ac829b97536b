"""Keeps scripts that change accounts and mounts from running anywhere but in the root that tests/clients/room makes."""
import os
import sys

# A file that `room` makes, and nothing else.
MARK = "/.made-by-pamsess-tests-clients-room"


def begin(words, about):
    """Prints the usage of a script with these arguments if it is asked for, and ends it outside the room."""
    name = os.path.basename(sys.argv[0])
    if sys.argv[1:2] in (["-h"], ["--help"]):
        print(f"usage: tests/clients/room SYS LIBRARY SERVER /tests/{name} {words}\n\n{about}")
        sys.exit(0)
    if not os.path.exists(MARK):
        print(f"{name}: it runs only in the root that tests/clients/room makes", file=sys.stderr)
        sys.exit(2)
