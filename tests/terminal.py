"""Runs a program at a pseudo-terminal. messages.py and tour.py use it."""
import os
import pty
import select
import subprocess
import termios
import threading
import time
import tty

CLEAR = "\r\x1b[K"


def left_of(shown):
    """What is left at a terminal that showed this: of each line what follows the last time that it was cleared."""
    return "\n".join(line.rpartition(CLEAR)[2] for line in shown.split("\n"))


class Terminal:
    """A pseudo-terminal and what it has shown. It passes each byte on as it is, and reads input line by line."""

    def __init__(self):
        self.leader, self.follower = pty.openpty()
        tty.setraw(self.follower)
        attributes = termios.tcgetattr(self.follower)
        attributes[3] |= termios.ICANON
        termios.tcsetattr(self.follower, termios.TCSANOW, attributes)
        self.shown = b""

    def wait_for(self, text, seconds=120):
        """Waits until this text is shown, at most this many seconds."""
        end = time.monotonic() + seconds
        while text not in self.shown and time.monotonic() < end:
            time.sleep(0.02)

    def read_all(self, seconds):
        """Notes what is shown until all programs have closed the terminal, or nothing comes for this time."""
        while select.select([self.leader], [], [], seconds)[0]:
            try:
                part = os.read(self.leader, 65536)
            except OSError:
                return
            if not part:
                return
            self.shown += part


def run(command, give, at, typed=b"", seconds=600, **how):
    """Runs a command with the devices `at` at one terminal, of "input", "output" and "error". Returns its status, what
    the terminal showed, and what came on other devices.

    `give(source, terminal)` writes standard input if it is a pipe, and `typed` is typed if it is the terminal.
    """
    terminal = Terminal()
    ends = {name: terminal.follower if name in at else subprocess.PIPE for name in ("input", "output", "error")}
    process = subprocess.Popen(command, stdin=ends["input"], stdout=ends["output"], stderr=ends["error"], **how)
    os.close(terminal.follower)

    def write():
        try:
            give(process.stdin, terminal)
            process.stdin.close()
        except BrokenPipeError:
            pass
    pipes = {name: b"" for name in ("output", "error") if name not in at}

    def read(name, pipe):
        pipes[name] = pipe.read()
    helpers = []
    for name, pipe in (("output", process.stdout), ("error", process.stderr)):
        if pipe:
            helpers.append(threading.Thread(target=read, args=(name, pipe)))
    if process.stdin:
        helpers.append(threading.Thread(target=write))
    else:
        os.write(terminal.leader, typed)
    for helper in helpers:
        helper.start()
    terminal.read_all(seconds)
    try:
        status = process.wait(timeout=seconds)
    except subprocess.TimeoutExpired:
        process.kill()
        status = process.wait()
    for helper in helpers:
        helper.join()
    os.close(terminal.leader)
    return status, terminal.shown, pipes
