"""A program on a pseudo-terminal: what it shows is waited for, and what is typed is typed when the echo is as it should
be."""
import os
import pty
import select
import signal
import termios
import time

PATIENCE = 25


class Wrong(Exception):
    pass


class Terminal:
    def __init__(self, command, uid):
        self.seen = self.all = ""
        self.pid, self.fd = pty.fork()
        if self.pid == 0:
            if uid:
                os.setgroups([])
                os.setgid(uid)
                os.setuid(uid)
            for number in signal.SIGINT, signal.SIGQUIT:  # which a job in the background ignores
                signal.signal(number, signal.SIG_DFL)
            os.chdir("/")
            os.execv("/bin/sh", ["/bin/sh", "-c", command])

    def read(self, until):
        """Reads once. False at the end."""
        ready, _, _ = select.select([self.fd], [], [], max(0, until - time.monotonic()))
        if not ready:
            raise Wrong("nothing more came")
        try:
            piece = os.read(self.fd, 4096)
        except OSError:
            return False
        text = piece.decode("utf-8", "replace")
        self.seen += text
        self.all += text
        return bool(piece)

    def expect(self, text):
        until = time.monotonic() + PATIENCE
        while text not in self.seen:
            if not self.read(until):
                raise Wrong("it ended")
        self.seen = self.seen[self.seen.index(text) + len(text):]

    def await_echo(self, echo):
        until = time.monotonic() + 3
        while bool(termios.tcgetattr(self.fd)[3] & termios.ECHO) != echo:
            if time.monotonic() > until:
                raise Wrong(f"the echo isn't {'on' if echo else 'off'}")
            time.sleep(0.005)

    def type(self, text):
        os.write(self.fd, text.encode())

    def finish(self, patience=PATIENCE):
        """All that is left, and the exit status; a negative number names a signal."""
        until = time.monotonic() + patience
        while self.read(until):
            pass
        return os.waitstatus_to_exitcode(os.waitpid(self.pid, 0)[1])

    def close(self):
        try:
            os.kill(self.pid, signal.SIGKILL)
            os.waitpid(self.pid, 0)
        except (ProcessLookupError, ChildProcessError):
            pass
        os.close(self.fd)
