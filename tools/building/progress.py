"""What standard error shows of a build: one line that moves, or plain lines where it is no terminal."""

import os
import sys


def minutes(seconds):
    """Returns a time as a reader wants it: seconds up to two minutes, then minutes."""
    return f"{seconds:.0f} s" if seconds < 120 else f"{seconds / 60:.0f} min"


class Progress:
    def __init__(self, label):
        self.label = label
        self.is_terminal = sys.stderr.isatty()
        self.shown = None

    def show(self, text):
        """Shows this in the line that moves. Where there is none, nothing is shown."""
        if self.is_terminal and text != self.shown:
            columns = os.get_terminal_size(2).columns
            self.write("\r\033[K" + f"{self.label}: {text}"[: max(columns - 1, 20)])
            self.shown = text

    def say(self, text):
        """Writes a line that stays."""
        clear = "\r\033[K" if self.is_terminal and self.shown else ""
        self.write(f"{clear}{self.label}: {text}\n")
        self.shown = None

    def step(self, text):
        """Writes a line that stays, unless a line moves, which shows the same."""
        if not self.is_terminal:
            self.say(text)

    def write(self, text):
        # A reader that has gone away is no reason to end a build.
        try:
            sys.stderr.write(text)
            sys.stderr.flush()
        except OSError:
            self.is_terminal = False
