"""Frames of docs/wire.md as somebody sends them who doesn't use the library, and libpam by ctypes."""
import array
import ctypes
import os
import socket
import struct

START, END, AUTHENTICATE, CHAUTHTOK, SET_ITEM, GET_ITEM, ENVLIST, REPLY = 1, 2, 3, 8, 9, 10, 13, 16
USER, TTY, RHOST, PROMPT_HIDDEN = 2, 3, 4, 1


def frame(kind, rest=b""):
    return struct.pack(">H", 2 + len(rest)) + bytes([1, kind]) + rest


def set_item(item, text):
    return frame(SET_ITEM, bytes([item, 1]) + text)


def answer(sock, seconds=5):
    """One answer, or why there is none in that time."""
    sock.settimeout(seconds)
    got = b""
    try:
        while len(got) < 8 or len(got) < 8 + struct.unpack(">Q", got[:8])[0]:
            piece = sock.recv(4096)
            if not piece:
                return "the end"
            got += piece
    except (TimeoutError, ConnectionResetError):
        return "nothing"
    return got[8:].decode()


def send(sock, message, uid=None):
    """Sends; with a user ID it says that it is that user. Returns None, or the error."""
    extra = []
    if uid is not None:
        extra = [(socket.SOL_SOCKET, socket.SCM_CREDENTIALS, array.array("i", [os.getpid(), uid, uid]))]
    try:
        sock.sendmsg([message], extra)
    except OSError as error:
        return error.strerror
    return None


class Message(ctypes.Structure):
    _fields_ = [("style", ctypes.c_int), ("text", ctypes.c_char_p)]


class Response(ctypes.Structure):
    _fields_ = [("reply", ctypes.c_void_p), ("code", ctypes.c_int)]


TALK = ctypes.CFUNCTYPE(
    ctypes.c_int,
    ctypes.c_int,
    ctypes.POINTER(ctypes.POINTER(Message)),
    ctypes.POINTER(ctypes.c_void_p),
    ctypes.c_void_p,
)


class Conversation(ctypes.Structure):
    _fields_ = [("talk", TALK), ("data", ctypes.c_void_p)]


class Pam:
    """A transaction. `talk(style, text)` returns the reply."""

    def __init__(self, service, user, talk):
        self.lib, libc = ctypes.CDLL("libpam.so.0"), ctypes.CDLL(None)
        self.handle = ctypes.c_void_p()
        libc.calloc.restype = libc.strdup.restype = ctypes.c_void_p
        self.lib.pam_getenv.restype = ctypes.c_char_p

        def converse(count, messages, responses, _):
            made = ctypes.cast(libc.calloc(count, ctypes.sizeof(Response)), ctypes.POINTER(Response))
            for i in range(count):
                reply = talk(messages[i].contents.style, messages[i].contents.text.decode())
                if reply is not None:
                    made[i].reply = libc.strdup(reply.encode())
            responses[0] = ctypes.cast(made, ctypes.c_void_p)
            return 0
        self.conversation = Conversation(TALK(converse), None)
        self.started = self.lib.pam_start(service.encode(), user and user.encode(), ctypes.byref(self.conversation),
            ctypes.byref(self.handle))

    def call(self, name, *words):
        return getattr(self.lib, "pam_" + name)(self.handle, *words)

    def item(self, item):
        value = ctypes.c_char_p()
        code = self.call("get_item", item, ctypes.byref(value))
        return code if code else value.value and value.value.decode()


def sockets_of(pid):
    """The descriptors of a process that are sockets, and their inodes."""
    found = {}
    for name in os.listdir(f"/proc/{pid}/fd"):
        try:
            link = os.readlink(f"/proc/{pid}/fd/{name}")
        except OSError:
            continue
        if link.startswith("socket:["):
            found[int(name)] = int(link[8:-1])
    return found


def drop(uid):
    os.setgroups([])
    os.setresgid(uid, uid, uid)
    os.setresuid(uid, uid, uid)
