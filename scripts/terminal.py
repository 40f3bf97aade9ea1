"""A program that runs in a terminal, as it does where a person calls it: what it writes there, and the keys that are pressed."""
import os
import pty
import re
import select
import signal
import time

CTRL_A = b"\x01"
CTRL_C = b"\x03"


def usual_signals():
    """For a process that begins: a caller in the background may ignore signals, and what it begins would ignore them too."""
    for number in signal.SIGINT, signal.SIGHUP, signal.SIGTERM:
        signal.signal(number, signal.SIG_DFL)


class Terminal:
    def __init__(self, command, env, cwd):
        self.written = b""
        self.pid, self.master = pty.fork()
        if self.pid == 0:
            try:
                usual_signals()
                os.chdir(cwd)
                os.execvpe(command[0], command, env)
            finally:
                os._exit(127)

    def press(self, keys):
        os.write(self.master, keys)

    def _more(self, until):
        """Takes what is written next; false once the program has closed the terminal, or the time is over."""
        ready, _, _ = select.select([self.master], [], [], max(0, until - time.time()))
        try:
            piece = os.read(self.master, 65536) if ready else b""
        except OSError:  # how Linux says that the last process has closed its side
            piece = b""
        self.written += piece
        return piece != b""

    def sees(self, pattern, seconds=30):
        """Whether something that matches is written, now or within the time."""
        until = time.time() + seconds
        while not re.search(pattern, self.written):
            if not self._more(until):
                return False
        return True

    def end(self, seconds=30):
        """The exit status, once the program has ended; one that does not within the time is killed."""
        until = time.time() + seconds
        while self._more(until):
            pass
        if time.time() >= until:
            os.kill(self.pid, signal.SIGKILL)
        os.close(self.master)
        return os.waitstatus_to_exitcode(os.waitpid(self.pid, 0)[1])

    def lines(self):
        """The lines as they stand on the screen: a carriage return with an erased line takes away what was written before it."""
        rows = self.written.decode().replace("\r\n", "\n").split("\n")
        return [row.split("\r\x1b[K")[-1] for row in rows]
