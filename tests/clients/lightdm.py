#!/usr/bin/python3 -B
"""Logs joe in by lightdm's process of a session, in place of its daemon: `lightdm PASSWORD`. Its conversation asks for
PAM_USER."""
import os
import select
import struct
import subprocess
import sys

sys.path.insert(0, os.path.dirname(os.path.abspath(__file__)))
import inside  # noqa: E402


def read(fd, size):
    got = b""
    while len(got) < size:
        if not select.select([fd], [], [], 10)[0]:
            raise EOFError
        piece = os.read(fd, size - len(got))
        if not piece:
            raise EOFError
        got += piece
    return got


def number(fd):
    return struct.unpack("i", read(fd, 4))[0]


def text(fd):
    size = number(fd)
    return read(fd, size).decode() if size >= 0 else None


def put(fd, *words):
    for word in words:
        if isinstance(word, int):
            os.write(fd, struct.pack("i", word))
        else:
            os.write(fd, struct.pack("i", -1 if word is None else len(word)) + (word or "").encode())


inside.begin("PASSWORD", __doc__)
os.makedirs("/var/log/lightdm", exist_ok=True)
their_in, to = os.pipe()
of, their_out = os.pipe()
child = subprocess.Popen(
    ["/usr/sbin/lightdm", "--session-child", str(their_in), str(their_out)],
    pass_fds=(their_in, their_out),
    stderr=subprocess.DEVNULL,
)
os.close(their_in)
os.close(their_out)
# The protocol's version, service, user, whether to authenticate and interactively, class, tty, host, display, its
# authority.
put(to, 1, "lightdm", "joe", 1, 1, None, "tty7", None, ":0", None)
try:
    while True:
        user, is_over = text(of), number(of)
        if is_over:
            print("over: user", user, "result", number(of))
            break
        messages = [(number(of), text(of)) for _ in range(number(of))]
        print("asked: user", user, [style for style, _ in messages])
        put(to, 0)
        for style, _ in messages:
            put(to, sys.argv[1] if style == 1 else None, 0)
except EOFError:
    print("it ended")
child.kill()
