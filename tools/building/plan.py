"""Which crate is proved next, with how many jobs, and about how long the rest takes.

A crate begins when all that it stands on is built. Its way is its own work and that of the longest chain of crates
above it, up to the program: the program comes no sooner than the longest way that is left.
"""

import os

# The memory of a check, and what each further job adds, in bytes, as measured: 0.6 to 1.0 GB, and 0.2 to 0.5 GB. A
# program takes 2.6 GB, but nothing is left then that could run beside it.
FIRST_JOB = 1_200_000_000
NEXT_JOB = 500_000_000

# The part of a check's work that its jobs share: three jobs were measured to be 2.2 to 2.6 times as fast as one.
SHARED = 0.85


def read_measured(path):
    """Returns the seconds by crate that a file has, a crate a line; '#' begins a comment."""
    found = {}
    if os.path.isfile(path):
        with open(path, encoding="utf-8") as file:
            for line in file:
                words = line.partition("#")[0].split()
                if len(words) == 2:
                    found[words[0]] = float(words[1])
    return found


def work_of(crate, measured):
    """Returns about how many seconds one job takes over the crate: as measured, else by its lines."""
    if crate.name in measured:
        return measured[crate.name]
    code, proofs = crate.lines()
    return 5 + 0.08 * code + 0.008 * proofs


def span_of(work, jobs):
    """Returns about how long jobs take over work that they share."""
    return work * (1 - SHARED + SHARED / jobs)


def memory_of(jobs):
    return FIRST_JOB + (jobs - 1) * NEXT_JOB


class Plan:
    """The crates that are still to be built, which come lowest first, and those of them that are being proved."""

    def __init__(self, crates, names, work, processors, memory):
        self.work, self.processors, self.memory = work, processors, memory
        self.left = list(names)
        # By crate the number of jobs.
        self.running = {}
        # What was killed once, most likely for memory: it runs by itself, with one job.
        self.alone = set()
        self.waits = {name: {it for it in crates[name].uses if it in names} for name in names}
        self.way = {}
        for name in reversed(self.left):
            above = [self.way[it] for it in self.left if name in self.waits[it]]
            self.way[name] = work[name] + max(above, default=0)

    def ready(self):
        """Returns the crates that may begin, those with the longest way first."""
        found = [it for it in self.left if it not in self.running and not self.waits[it]]
        return sorted(found, key=lambda it: -self.way[it])

    def begin(self):
        """Returns the crate to begin now and its number of jobs, or None.

        As many checks run as there are processors, where memory allows. That with the longest way gets a job for each
        processor, which is more than there are: a check is one process at its start and its end, and the others then
        take what it leaves free. The others get one job, or those that no crate asks for, since the same check takes
        the more of the processors in all the more jobs share it.
        """
        ready = self.ready()
        if not ready or len(self.running) >= self.processors or self.alone & {*self.running}:
            return None
        name = ready[0]
        if name in self.alone and self.running:
            return None
        spare = self.processors - len(self.running) - len(ready) + 1
        jobs = max(1, spare)
        if all(self.way[name] >= self.way[it] for it in self.running):
            jobs = self.processors
        if name in self.alone:
            jobs = 1
        room = self.memory - sum(memory_of(it) for it in self.running.values())
        while jobs > 1 and memory_of(jobs) > room:
            jobs -= 1
        if self.running and memory_of(jobs) > room:
            return None
        self.running[name] = jobs
        return name, jobs

    def end(self, name, is_built):
        """Takes a crate that is built off the list. One that is not, since it was killed, begins again by itself."""
        del self.running[name]
        if not is_built:
            self.alone.add(name)
        else:
            self.left.remove(name)
            for waits in self.waits.values():
                waits.discard(name)

    def seconds_left(self, elapsed, pace):
        """Returns about how long the rest takes, where a check takes so many times what its work says. Of those that
        are being proved, what they have done is estimated by the seconds for which they have run."""
        left = {}
        for name in self.left:
            done = pace * span_of(self.work[name], self.running.get(name, 1))
            left[name] = self.work[name] * max(0.05, 1 - elapsed.get(name, 0) / done)
        ways = {}
        for name in reversed(self.left):
            above = [ways[it] for it in self.left if name in self.waits[it]]
            ways[name] = span_of(left[name], self.processors) + max(above, default=0)
        return pace * max(max(ways.values(), default=0), sum(left.values()) / self.processors)
