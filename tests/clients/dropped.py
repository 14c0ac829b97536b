#!/usr/bin/python3 -B
"""Who may still make calls of a transaction of root's: `dropped library|frames|lowered|ends` starts one for joe and
forks, as sshd and vsftpd do. `dropped session PID` is joe in a process of sshd's, with its descriptors. Each line that
it prints is a fact."""
import ctypes
import os
import socket
import sys
import time

sys.path.insert(0, os.path.dirname(os.path.abspath(__file__)))
import inside  # noqa: E402
from raw import (
    AUTHENTICATE, CHAUTHTOK, END, Pam, REPLY, TTY, USER, answer, drop, frame, send, set_item, sockets_of,
)

JOE = 1000


def reply(style, text):
    return "Hello world!" if os.getuid() == 0 else "owned by joe"


def socket_at(number):
    return socket.socket(fileno=number)


def shadow_of_root():
    with open("/etc/shadow") as file:
        return [line for line in file if line.startswith("root:")]


def in_a_copy(work):
    sys.stdout.flush()
    pid = os.fork()
    if pid == 0:
        work()
        sys.stdout.flush()
        os._exit(0)
    os.waitpid(pid, 0)


def attack(sock):
    """What somebody sends who wants to change root's password, and what he gets."""
    print("as root:", send(sock, set_item(USER, b"root"), 0))
    for message in (
        set_item(USER, b"root"),
        frame(CHAUTHTOK, bytes(4)),
        frame(AUTHENTICATE, bytes(4)),
        frame(END, bytes(4)),
    ):
        send(sock, message)
        print("frame:", answer(sock).strip().splitlines()[-1])
    half = set_item(USER, b"root")
    send(sock, half[:5])
    time.sleep(0.3)
    send(sock, half[5:] + frame(CHAUTHTOK, bytes(4)))
    print("in pieces:", answer(sock, 0.5))
    send(sock, frame(REPLY, b"owned by joe"))
    print("a reply:", answer(sock, 0.5))


def main(what, *words):
    before = shadow_of_root()
    if what == "session":
        libc, pid = ctypes.CDLL(None, use_errno=True), int(words[0])  # noqa: F405
        inode = sockets_of(int(words[1]))[1]
        process = os.pidfd_open(pid)
        for number, other in sockets_of(pid).items():
            if abs(other - inode) == 1:
                sock = socket_at(libc.syscall(438, process, number, 0))
                drop(JOE)
                attack(sock)
        os._exit(0)
    pam = Pam("sshd", "joe", reply)
    print(
        "start", pam.started, "authenticate", pam.call("authenticate", 0), "open_session", pam.call("open_session", 0)
    )
    if what == "library":
        def copy():
            drop(JOE)
            print("set_item", pam.call("set_item", USER, b"root"), "chauthtok", pam.call("chauthtok", 0), "putenv",
                pam.call("putenv", b"A=b"), "user", pam.item(USER), "of", pam.lib.pam_getenv(pam.handle, b"FROM_CONF"))
        in_a_copy(copy)
    elif what == "frames":
        def copy():
            sock = next(sock for sock in map(socket_at, sockets_of("self")) if sock.type == socket.SOCK_STREAM)
            drop(JOE)
            attack(sock)
        in_a_copy(copy)
    elif what == "lowered":
        def copy():
            os.seteuid(JOE)
            print("tty", pam.call("set_item", TTY, b"pts/7"), pam.item(TTY))
        in_a_copy(copy)
    elif what == "ends":
        drop(JOE)
        print("tty", pam.call("set_item", TTY, b"pts/7"), "user", pam.item(USER), "end", pam.call("end", 0))
        os._exit(0)
    print("root's entry", "stands" if shadow_of_root() == before else "has changed")
    print("user", pam.item(USER), "close_session", pam.call("close_session", 0), "end", pam.call("end", 0))


inside.begin("library|frames|lowered|ends|session PID", __doc__)
main(*sys.argv[1:])
