#!/usr/bin/python3 -B
"""What joe gets who starts the setgid program himself: `user words|frames|streams|limits|inside`. Each line that it
prints is a fact."""
import ctypes
import os
import resource
import signal
import struct
import subprocess
import sys

sys.path.insert(0, os.path.dirname(os.path.abspath(__file__)))
import inside  # noqa: E402
from raw import AUTHENTICATE, CHAUTHTOK, REPLY, START, drop, frame  # noqa: E402

# As the room has it, or else the package.
PROGRAM = "/usr/local/libexec/pamsess/pam_service_user"
if not os.path.exists(PROGRAM):
    PROGRAM = "/usr/libexec/pamsess/pam_service_user"
ACCT_MGMT, JOE = 5, 1000
# What a program with more rights than its user's mustn't listen to.
HOSTILE = {
    "LD_PRELOAD": "/usr/lib/x86_64-linux-gnu/libm.so.6", "LD_LIBRARY_PATH": "/tmp", "LD_DEBUG": "all", "PATH": "/tmp",
    "GLIBC_TUNABLES": "glibc.malloc.check=3", "LOCPATH": "/tmp", "LC_ALL": "xx", "TZ": "/etc/shadow", "HOME": "/root",
    "USER": "ann", "LOGNAME": "ann", "SUDO_UID": "1001", "IFS": "/",
}


def start(service, user):
    return frame(START, bytes([len(service)]) + service + b"\x01" + user)


def call(kind):
    return frame(kind, bytes(4))


def answer(server):
    """The last line of the next answer, without its number."""
    size = struct.unpack(">Q", server.stdout.read(8))[0]
    return server.stdout.read(size).decode().splitlines()[-1].split()[1:]


def attempt(service, user, *replies, kind=AUTHENTICATE, **how):
    """What a call returns, if each prompt gets the next reply."""
    replies = list(replies)
    with subprocess.Popen([PROGRAM], stdin=subprocess.PIPE, stdout=subprocess.PIPE,
            stderr=subprocess.DEVNULL, **how) as server:
        try:
            for message in start(service, user), call(kind):
                os.write(server.stdin.fileno(), message)
                said = answer(server)
            while said[0] == "asks":
                for _ in range(int(said[1])):
                    os.write(server.stdin.fileno(), frame(REPLY, replies.pop(0)))
                said = answer(server)
        except (OSError, struct.error, IndexError):
            said = ["nothing"]
    return " ".join(said[:2])


def words():
    for given in ["/tmp"], ["/"], ["--caller", "1001"], ["--caller", "0"], ["wire", "/"], [""], ["--help"]:
        done = subprocess.run([PROGRAM, *given], input=start(b"unix", b"joe"), capture_output=True, timeout=30)
        print("words", *given, done.returncode, done.stdout)


def frames():
    own, anns = b"Hello world!", b"old secret"
    for user, password in (b"joe", own), (b"joe", b"x"), (b"ann", anns), (b"root", b"root secret"):
        print(user.decode(), password.decode(), attempt(b"unix", user, password))
    print("hostile", *[attempt(b"unix", *whose, env=HOSTILE) for whose in ((b"joe", own), (b"ann", anns))])
    print("account joe", attempt(b"unix", b"joe", kind=ACCT_MGMT), "ann", attempt(b"unix", b"ann", kind=ACCT_MGMT))
    print("change", attempt(b"unix", b"joe", own, b"a new one", b"a new one", kind=CHAUTHTOK))
    with open("/tests/etc/shadow", "rb") as file:
        for line in file.read().splitlines():
            seen = [attempt(service, line) for service in (b"peek", b"peek-", b"gpeek", b"peek2")]
            print("seen", line.partition(b":")[0].decode(), *seen)


def without(*closed):
    """Runs it with these streams closed."""
    pid = os.fork()
    if pid == 0:
        for stream in closed:
            os.close(stream)
        os.execv(PROGRAM, [PROGRAM])
    return os.waitstatus_to_exitcode(os.waitpid(pid, 0)[1])


def streams():
    print("closed", *[without(*range(count)) for count in range(1, 4)])


def limits():
    kinds = {"NOFILE": (0, 3, 4, 6), "STACK": (0, 65536), "AS": (0, 1 << 20, 8 << 20), "FSIZE": (0,),
        "DATA": (0, 65536), "CPU": (0,), "NPROC": (0,), "MEMLOCK": (0,)}
    for name, values in kinds.items():
        for value in values:
            def lower(kind=getattr(resource, f"RLIMIT_{name}"), value=value):
                resource.setrlimit(kind, (value, value))
            got = []
            for user, password in (b"joe", b"x"), (b"ann", b"old secret"):
                try:
                    got.append(attempt(b"unix", user, password, preexec_fn=lower))
                except (subprocess.SubprocessError, OSError):
                    got.append("nothing")
            print("limit", name, value, "let in" if any("SUCCESS" in str(one) for one in got) else "refused")


def may_open(path):
    try:
        with open(path, "rb"):
            return "opened"
    except OSError as error:
        return error.strerror


def look(pid):
    """What joe may do to the process."""
    libc = ctypes.CDLL(None, use_errno=True)
    attached = libc.ptrace(16, pid, 0, 0)  # PTRACE_ATTACH
    print("ptrace", os.strerror(ctypes.get_errno()) if attached else "attached")
    print("files", *[may_open(f"/proc/{pid}/{name}") for name in ("mem", "maps", "environ", "auxv", "stack")])
    try:
        print("descriptors", len(os.listdir(f"/proc/{pid}/fd")))
    except OSError as error:
        print("descriptors", error.strerror)
    libc.process_vm_readv.restype = ctypes.c_ssize_t
    room = ctypes.create_string_buffer(16)
    part = (ctypes.c_size_t * 2)(ctypes.addressof(room), 16)
    other = (ctypes.c_size_t * 2)(0x400000, 16)
    got = libc.process_vm_readv(pid, part, 1, other, 1, 0)
    print("process_vm_readv", os.strerror(ctypes.get_errno()) if got < 0 else "read")


def inside_it():
    """A process that waits for a password, and its user."""
    os.chdir("/tmp")
    resource.setrlimit(resource.RLIMIT_CORE, (resource.getrlimit(resource.RLIMIT_CORE)[1],) * 2)
    server = subprocess.Popen([PROGRAM], stdin=subprocess.PIPE, stdout=subprocess.PIPE, stderr=subprocess.DEVNULL,
        env=HOSTILE)
    server.stdin.write(start(b"unix", b"joe") + call(AUTHENTICATE))
    server.stdin.flush()
    print("waits", answer(server), answer(server))
    look(server.pid)
    before = set(os.listdir("/tmp"))
    os.kill(server.pid, signal.SIGSEGV)
    status = server.wait()
    print("killed", status, "left", *sorted(set(os.listdir("/tmp")) - before), "end")


if __name__ == "__main__":
    inside.begin("words|frames|streams|limits|inside", __doc__)
    what = sys.argv[1]
    drop(JOE)
    {"words": words, "frames": frames, "streams": streams, "limits": limits, "inside": inside_it}[what]()
