"""A running program that is talked to through two pipes, a piece at a time.

This shows what the program has written when it has been given no more than that piece: a program that reads on
before it answers, or that holds back what it wrote, gives no line in time, and fails the test.
"""

import os
import select
import subprocess
import termios
import time

from harness import kernel, programs


class Dialogue:
    """The program `name`, run with `words`; leaving the `with` block kills it if it still runs."""

    def __init__(self, name, *words):
        self.process = subprocess.Popen([programs.path_of(name), *words], env=programs.environment(), bufsize=0,
                                        stdin=subprocess.PIPE, stdout=subprocess.PIPE, stderr=subprocess.PIPE)
        self.waiting = b""

    def __enter__(self):
        return self

    def __exit__(self, *_):
        self.process.kill()
        self.process.wait()
        for end in (self.process.stdin, self.process.stdout, self.process.stderr):
            end.close()

    def give(self, piece):
        """Writes `piece`, which fits the pipe's buffer, to the program's standard input."""
        self.process.stdin.write(piece)

    def end_input(self):
        """Ends the program's standard input."""
        self.process.stdin.close()

    def stop_listening(self):
        """Closes our end of the program's standard output, so that its next write is refused."""
        self.process.stdout.close()

    def _take(self, seconds):
        """Takes what the program writes next; false if nothing came in time or its output has ended."""
        descriptor = self.process.stdout.fileno()
        if not select.select([descriptor], [], [], max(seconds, 0))[0]:
            return False
        piece = os.read(descriptor, 65536)
        self.waiting += piece
        return piece != b""

    def read_line(self, end=b"\n"):
        """The next line of output, its end included."""
        deadline = time.monotonic() + programs.NEXT_OUTPUT_SECONDS
        while end not in self.waiting:
            if not self._take(deadline - time.monotonic()):
                raise AssertionError(f"no whole line was written: {self.waiting!r}")
        line, _, self.waiting = self.waiting.partition(end)
        return line + end

    def wrote_nothing(self):
        """True if it has taken all that it was given, waits, and has written nothing."""
        if not self.process.stdin.closed:
            kernel.wait_for(lambda: kernel.octets_of(self.process.stdin, termios.FIONREAD) == 0, "its input isn't read")
        kernel.wait_for_state(self.process.pid, "S")
        return self.waiting == b"" and not self._take(0)

    def finish(self):
        """What the program writes from here to its end, and its exit status; its input stays as it is."""
        deadline = time.monotonic() + programs.NEXT_OUTPUT_SECONDS
        while self._take(deadline - time.monotonic()):
            pass
        status = self.process.wait(timeout=max(deadline - time.monotonic(), 0.001))
        return self.waiting, status
