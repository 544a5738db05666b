"""Whether processors run at full speed just now.

A machine that is shared with others has phases in which the same instructions take up to two and a half times as long. So a
sample is taken on processors that run at full speed before and after it, and else it is taken anew.
"""

import os
import time

# A processor runs at full speed where a fixed loop takes at most so many times the least that it ever took.
NEAR = 1.2
# How often a sample is taken anew, how long one waits for a processor before it, and for how long in all, in seconds.
TRIES = 6
WAIT = 4.0
PATIENCE = 240.0


def spin():
    """The seconds of a fixed loop, some four milliseconds."""
    since = time.perf_counter()
    number = 0
    for step in range(30_000):
        number = (number * 1_103_515_245 + step) & 0xFFFF_FFFF
    return time.perf_counter() - since


class Pace:
    """Finds processors that run at full speed, and counts the samples that were taken anew. A sample of one thread has one
    processor to itself, any; one of several threads has all of them."""

    def __init__(self, alone):
        self.threads = "one thread" if alone else "several threads"
        self.processors = sorted(os.sched_getaffinity(0))
        self.choices = [{it} for it in self.processors] if alone else [set(self.processors)]
        self.least, self.waited = float("inf"), 0.0
        self.samples = self.anew = self.slow = 0
        until = time.monotonic() + 2
        while time.monotonic() < until:
            self.are_fast(self.processors)

    def are_fast(self, processors):
        slow = 0
        for it in processors:
            os.sched_setaffinity(0, {it})
            took = min(spin(), spin())
            self.least = min(self.least, took)
            slow += took > NEAR * self.least
        os.sched_setaffinity(0, self.processors)
        return not slow

    def fast_processors(self):
        """Processors at full speed, or any where none are found in time."""
        since = time.monotonic()
        while time.monotonic() - since <= WAIT and self.waited <= PATIENCE:
            for processors in self.choices:
                if self.are_fast(processors):
                    return processors
            time.sleep(0.05)
        return self.choices[0]

    def sample(self, take):
        """Takes a sample, anew where its processors slowed down."""
        self.samples += 1
        for tried in range(TRIES):
            since = time.monotonic()
            processors = self.fast_processors()
            begun = time.monotonic()
            found = take(processors)
            is_good = self.are_fast(processors)
            self.waited += (begun if is_good else time.monotonic()) - since
            is_last = tried + 1 == TRIES or self.waited > PATIENCE
            if is_good or is_last:
                self.slow += not is_good
                return found
            self.anew += 1

    def told(self):
        return (f"Pace: of {self.samples} runs of {self.threads} {self.samples - self.slow} were on processors at full speed "
                f"before and after, {self.anew} were made anew, and {self.slow} stand though a processor had slowed down")
