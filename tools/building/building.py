"""Proves a program with all that it stands on, several crates at a time, and links it."""

import os
import signal
import time

from crates import below, read_crates, stamps
from kept import read_record
from kit import verdict_of
from machine import free_memory
from plan import Plan, read_measured, work_of
from progress import minutes

# How long to wait before the children are looked at again, and before the line that moves is made anew, in seconds.
TICK = 0.1
SHOWN = 1


class NotBuilt(Exception):
    """Why the program cannot be built, in words for whoever asked for it."""


def is_built(top, kept, kit, name):
    """Returns whether the program stands there that this kit built of these sources. Without a kit, any will do."""
    return kept.is_built(read_crates(top)[name], stamps(top, [name])[name], kit)


def beside_dist(top, kept, name):
    """Returns how the program that stands there compares with that of dist/, in words, or None where dist/ has none."""
    dist, stamp = read_record(f"{top}/dist/proved"), stamps(top, [name])[name]
    if name not in dist:
        return None
    if not dist[name].startswith(f"sources {stamp} "):
        return f"dist/ has no program of these sources, with which out/{name} could be compared"
    crate = read_crates(top)[name]
    if dist[name] == kept.made_of(crate, stamp):
        return f"out/{name}, proved and built here, is the program of dist/, to the byte"
    kit = read_record(kept.record_path(crate)).get("kit")
    return f"out/{name}, proved and built here by {kit}, is NOT the program of dist/, made by {dist.get('kit')}"


class Build:
    def __init__(self, top, name, kept, kit, processors, progress):
        self.top, self.name, self.kept, self.kit, self.progress = top, name, kept, kit, progress
        self.crates = read_crates(top)
        self.names = below(self.crates, name)
        self.stamps = stamps(top, self.names)
        measured = read_measured(f"{os.path.dirname(os.path.abspath(__file__))}/seconds")
        work = {it: work_of(self.crates[it], measured) for it in self.names}
        left = [it for it in self.names if not kept.is_built(self.crates[it], self.stamps[it], kit)]
        if name not in left:
            left.append(name)
        self.plan = Plan(self.crates, left, work, processors, 0.85 * free_memory())
        self.children, self.times, self.last_shown = {}, [], 0
        self.began, self.first_left = time.monotonic(), self.plan.seconds_left({}, 1)

    def run(self, group):
        """Builds everything that is not built, lowest first. The group takes the processes."""
        while self.plan.left:
            while begun := self.plan.begin():
                self.start(group, *begun)
            time.sleep(TICK)
            for name in [it for it, child in self.children.items() if child.has_ended()]:
                self.finish(group, name, self.children.pop(name))
            self.show()
        if stamps(self.top, [self.name])[self.name] != self.stamps[self.name]:
            raise NotBuilt("the sources changed while they were proved: run it again")

    def start(self, group, name, jobs):
        crate = self.crates[name]
        self.kept.make_room(crate)
        made = f"{self.kept.made(crate)}.o" if crate.is_program else self.kept.made(crate)
        words = self.kit.build_words(self.crates, crate, self.kept.libraries, made, jobs)
        notes = f"{self.kept.notes}/{name}.txt"
        self.children[name] = group.start(words, crate.folder, notes, jobs)

    def finish(self, group, name, child):
        """Takes what a check came to: keeps what it built, or says why the program cannot be built."""
        notes = f"{self.kept.notes}/{name}.txt"
        if child.status == -signal.SIGKILL and name not in self.plan.alone:
            self.progress.step(f"the proof of {name} was killed, most likely for memory: once more, by itself")
            self.plan.end(name, is_built=False)
            return
        verdict = verdict_of(notes) if child.status == 0 else None
        if verdict is None:
            raise NotBuilt(f"{name} is not proved; what the prover says is in {notes}")
        self.hold_to_sources(name)
        if self.crates[name].is_program:
            self.link(group, name)
        self.keep(name, child, verdict)
        self.plan.end(name, is_built=True)
        done = len(self.names) - len(self.plan.left)
        self.progress.step(f"proved {name}, {done} of {len(self.names)} crates; {self.times_so_far()}")

    def hold_to_sources(self, name):
        """What was built is kept only where the sources are still those that the stamp was made of."""
        if stamps(self.top, [name])[name] != self.stamps[name]:
            raise NotBuilt(f"sources of {name} or below it changed while it was proved: run it again")

    def link(self, group, name):
        """Links the program, and puts it in its place as a whole."""
        program, notes = self.kept.made(self.crates[name]), f"{self.kept.notes}/link.txt"
        linking = group.start(
            self.kit.link_words(f"{program}.o", f"{program}.part"), self.kept.programs, notes
        )
        while not linking.has_ended():
            time.sleep(TICK)
        if linking.status:
            raise NotBuilt(f"{name} is proved, but cannot be linked; the reason is in {notes}")
        os.remove(f"{program}.o")
        with open(f"{program}.part", "rb") as file:
            os.fsync(file.fileno())
        os.replace(f"{program}.part", program)

    def keep(self, name, child, verdict):
        crate = self.crates[name]
        took = {
            "seconds": round(child.elapsed(), 1),
            "jobs": child.jobs,
            "processor_seconds": round(child.processor_seconds(), 1),
            "greatest_process_mb": child.usage.ru_maxrss // 1024,
        }
        record = {name: self.kept.made_of(crate, self.stamps[name]), "verdict": verdict}
        self.kept.keep(crate, record | {"kit": self.kit.line, "kit_sum": self.kit.identity(), **took})
        self.times.append((name, child.ended - self.began, took))

    # ---- What is shown ----

    def pace(self):
        """Returns how many times as long this machine takes as the plan says, by what is done so far."""
        done = self.first_left - self.plan.seconds_left(self.elapsed(), 1)
        return (30 + time.monotonic() - self.began) / (30 + max(done, 0))

    def elapsed(self):
        return {name: child.elapsed() for name, child in self.children.items()}

    def times_so_far(self):
        left = self.plan.seconds_left(self.elapsed(), self.pace())
        so_far = time.monotonic() - self.began
        return f"{minutes(so_far)} so far, about {minutes(left)} left"

    def show(self):
        if time.monotonic() < self.last_shown + SHOWN:
            return
        self.last_shown = time.monotonic()
        done = len(self.names) - len(self.plan.left)
        proving = ", ".join(self.plan.running)
        text = f"{done} of {len(self.names)} crates proved, {self.times_so_far()} (proving {proving})"
        self.progress.show(text)

    def table(self):
        """Returns when each crate was proved and what it took, and the chain of crates that the program waited for."""
        lines = ["ended  seconds  jobs  processor seconds  greatest process (MB)  crate"]
        ends = {}
        for name, ended, took in self.times:
            ends[name] = ended
            lines.append(
                f"{ended:7.1f} {took['seconds']:7.1f} {took['jobs']:3} {took['processor_seconds']:8.1f}"
                f" {took['greatest_process_mb']:6}  {name}"
            )
        chain, at = [], self.name
        while at in ends:
            chain.append(at)
            at = max((it for it in self.crates[at].uses if it in ends), key=ends.get, default=None)
        lines.append(f"the chain that the program waited for: {' '.join(reversed(chain))}")
        return "\n".join(lines) + "\n"
