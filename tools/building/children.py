"""The processes of a build, in one group that ends as a whole, however the build ends."""

import os
import signal
import subprocess
import time


class Child:
    """A command under way. After it has ended, `status` is its status, or less than 0 where a signal ended it."""

    def __init__(self, process, jobs):
        self.process, self.jobs = process, jobs
        self.began = time.monotonic()
        self.ended = self.status = self.usage = None

    def has_ended(self):
        if self.status is None:
            number, status, usage = os.wait4(self.process.pid, os.WNOHANG)
            if number:
                self.ended = time.monotonic()
                self.status, self.usage = os.waitstatus_to_exitcode(status), usage
                self.process.returncode = self.status
        return self.status is not None

    def elapsed(self):
        return (self.ended or time.monotonic()) - self.began

    def processor_seconds(self):
        return self.usage.ru_utime + self.usage.ru_stime


class Children:
    def __init__(self):
        # The shell leads the group. Its read ends when this process does, even by SIGKILL, since the pipe then closes.
        end, self.held = os.pipe()
        self.leader = subprocess.Popen(
            ["sh", "-c", "read -r _; kill -9 0"],
            stdin=end,
            stdout=subprocess.DEVNULL,
            stderr=subprocess.DEVNULL,
            preexec_fn=os.setpgrp,
        )
        os.close(end)

    def start(self, words, folder, notes, jobs=1):
        """Starts a command in a folder, with its output in a file."""

        def join():
            os.setpgid(0, self.leader.pid)
            # Python ignores these two, which a command would inherit.
            signal.signal(signal.SIGPIPE, signal.SIG_DFL)
            signal.signal(signal.SIGXFSZ, signal.SIG_DFL)

        with open(notes, "wb") as file:
            process = subprocess.Popen(
                words,
                cwd=folder,
                stdin=subprocess.DEVNULL,
                stdout=file,
                stderr=subprocess.STDOUT,
                preexec_fn=join,
            )
        return Child(process, jobs)

    def end(self):
        """Ends all of them, and waits until they are gone."""
        try:
            os.killpg(self.leader.pid, signal.SIGKILL)
        except ProcessLookupError:
            pass
        while True:
            try:
                os.wait()
            except ChildProcessError:
                return
