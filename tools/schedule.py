"""Crates that are proved side by side, each as soon as those that it stands on are.

Of those that may begin the one goes first that the longest chain of crates stands on, by the size of their code, and it
gets what processors are idle but for one for each other that may begin too. A line on standard error tells of each crate
how long it took, its place, and the time so far. Where a crate fails, what the kit says of it is shown, and the others
are stopped.
"""
import concurrent.futures
import graphlib
import os
import signal
import sys
import time

import crates
from crates import say

# More processors for one crate seldom help, says the kit.
MOST_FOR_ONE = 8


def code_size(name):
    """The bytes of a crate's code, by which the time of its proof goes."""
    return sum(file.stat().st_size for file in (crates.TOP / "crates" / name / "src").rglob("*.rt") if file.is_file())


def heights(needed):
    """For each crate the bytes of code in the longest chain of crates from it upwards."""
    size = {name: code_size(name) for name in needed}
    height = dict(size)
    for name in reversed(list(graphlib.TopologicalSorter(needed).static_order())):
        for other in needed[name]:
            height[other] = max(height[other], size[other] + height[name])
    return height


class Running:
    """The commands of the kit that run, each a process group of its own, so that all can be stopped."""

    def __init__(self):
        self.processes, self.is_stopped = set(), False

    def wait(self, process):
        """What a command said, and its status."""
        self.processes.add(process)
        if self.is_stopped:
            # it was begun while the others were stopped
            self.stop()
        said = process.communicate()[0]
        self.processes.discard(process)
        return process.returncode, said

    def stop(self):
        self.is_stopped = True
        for process in list(self.processes):
            try:
                os.killpg(process.pid, 15)
            except ProcessLookupError:
                pass


class Schedule:
    """The proofs of a crate and of those below it, from the lowest to the crate itself, and of what is proved with it.

    `prove` takes a crate's name, how many processors it may use, and a Running, and answers a status and what was said.
    """

    def __init__(self, name, jobs, prove):
        self.name, self.jobs, self.prove = name, jobs, prove
        self.needed = crates.needed(*crates.proved_with(name))
        self.height = heights(self.needed)
        self.order = graphlib.TopologicalSorter(self.needed)
        self.running, self.ready, self.futures = Running(), [], {}
        self.began, self.done = time.monotonic(), 0

    def timed(self, name, share):
        began = time.monotonic()
        return *self.prove(name, share, self.running), time.monotonic() - began

    def begin(self, pool):
        self.ready = sorted([*self.ready, *self.order.get_ready()], key=lambda name: -self.height[name])
        idle = self.jobs - sum(share for _, share in self.futures.values())
        while self.ready and idle > 0:
            share = min(max(idle - len(self.ready) + 1, 1), MOST_FOR_ONE)
            name = self.ready.pop(0)
            self.futures[pool.submit(self.timed, name, share)] = name, share
            idle -= share

    def end(self, future):
        """Takes up what came of a crate. Answers whether it is proved."""
        name, _ = self.futures.pop(future)
        status, said, seconds = future.result()
        if status:
            self.running.stop()
            sys.stderr.write(said)
            say("%s isn't proved, so %s isn't built" % (name, self.name))
            return False
        self.done += 1
        self.order.done(name)
        so_far = time.monotonic() - self.began
        say("%d of %d: %s, %.0f s; so far %.0f s" % (self.done, len(self.needed), name, seconds, so_far))
        return True

    def run(self):
        """Proves all of them. Answers the status of the command."""
        self.order.prepare()
        say("proving %d crates, %d at once" % (len(self.needed), self.jobs))
        with concurrent.futures.ThreadPoolExecutor(self.jobs) as pool:
            try:
                while self.order.is_active():
                    self.begin(pool)
                    for future in concurrent.futures.wait(self.futures, return_when="FIRST_COMPLETED").done:
                        if not self.end(future):
                            return 1
            except BaseException:
                self.running.stop()
                raise
        say("proved and built in %.0f s" % (time.monotonic() - self.began))
        return 0


def ended_by_interrupt(main):
    """The status of a tool. What ends it otherwise is taken as an interrupt, so that the commands of the kit are stopped."""
    for number in (signal.SIGTERM, signal.SIGHUP):
        signal.signal(number, signal.default_int_handler)
    try:
        return main()
    except KeyboardInterrupt:
        return 130
