#!/usr/bin/python3 -B
"""What an application does with its handle in its own conversation: `callback joe` with that user, `callback` with
none, so that a module asks for the name. Each line that it prints is a fact."""
import os
import sys

sys.path.insert(0, os.path.dirname(os.path.abspath(__file__)))
import inside  # noqa: E402
from raw import PROMPT_HIDDEN, Pam, RHOST, USER

inside.begin("[USER]", __doc__)
user = sys.argv[1] if len(sys.argv) > 1 else None


def talk(style, text):
    if style == PROMPT_HIDDEN:
        print(
            "user",
            pam.item(USER),
            "service",
            pam.item(1),
            "rhost",
            pam.call("set_item", RHOST, b"far"),
            pam.item(RHOST),
            "putenv",
            pam.call("putenv", b"A=b"),
            pam.lib.pam_getenv(pam.handle, b"A"),
            "fail_delay",
            pam.call("fail_delay", 0),
            "authenticate",
            pam.call("authenticate", 0),
            "end",
            pam.call("end", 0),
        )
    return "Hello world!" if style == PROMPT_HIDDEN else "joe"


pam = Pam("unixn", user, talk)
print("start", pam.started, "authenticate", pam.call("authenticate", 0), "acct_mgmt", pam.call("acct_mgmt", 0))
print(
    "user",
    pam.item(USER),
    "rhost",
    pam.item(RHOST),
    "A",
    pam.lib.pam_getenv(pam.handle, b"A"),
    "end",
    pam.call("end", 0),
)
