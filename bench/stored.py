"""A run of the bench: its rows and peers, and its samples as they are stored.

results/latest.tsv has what is said about the run, in lines that begin with `#`, and every sample, rounded once.
results/latest.longest.tsv has how long the calls of the rows of the longest call took. The tables of the pages are
made of these two.
"""

import datetime
import glob
import os
import pathlib
import re
import shutil
import statistics
import subprocess
import sys
import tomllib

BENCH = pathlib.Path(__file__).resolve().parent
# The peers' programs, ours among them with all bounds checks, and without those whose bounds are proved.
PEERS, PEERS_PROVED = (BENCH / "target" / it / "release" / "peers" for it in ("", "proved-bounds"))
SETUP = "apt-get install -y --no-install-recommends -o DPkg::Lock::Timeout=300 librust-tokio-dev librust-tokio-util-dev librust-futures-util-dev"
RESULTS = BENCH / "results"
STORED, LONGEST = RESULTS / "latest.tsv", RESULTS / "latest.longest.tsv"

# The rows, the peers and their names, and what tables show of them.
PLAN = tomllib.loads((BENCH / "plan.toml").read_text(encoding="utf-8"))
SINGLE_ROWS, WHOLE_ROWS, NAMED_ROWS = (PLAN["rows"][it] for it in ("single", "whole", "named"))
SHARD_ROWS = [*NAMED_ROWS, *PLAN["rows"]["bursts"]]
LONGEST_ROWS, NAMES = PLAN["longest"], PLAN["names"]
SHARES = ["half", "99%", "99.9%", "99.99%", "all"]
# Before the name of a row in which each thread has a shard of its own.
OWN = "own-"
# 64 full shards have 4.2 million entries. A round is long, so it is timed once.
FULL_SHARDS, FULL_ENTRIES = 64, 65_536
# A run over more entries takes seconds, longer than a processor keeps its pace.
MANY = 2**18
COUNTS = ["inserts", "extends", "resets", "removes", "cancels", "outs", "values", "deadlines"]
# By the cargo crate, without the bounds checks whose bounds are proved.
UNCHECKED = ("rust", "rust-shards", "queue-at-proved", "adapter-proved")


class Case:
    """One row at one size and number of callers, with its samples. A row of shards has their number behind its name."""

    def __init__(self, row, entries, threads):
        self.row, self.entries, self.threads = row, entries, threads
        self.call, _, shards = row.partition("/")
        self.shards = int(shards or 0)
        self.is_life = self.shards > 0 and self.call.removeprefix(OWN) not in SHARD_ROWS
        self.is_large = max(1, self.shards) * entries > MANY
        self.is_longest = row in LONGEST_ROWS
        self.is_once = self.is_longest or (self.shards, entries) == (FULL_SHARDS, FULL_ENTRIES)
        # Our load has no whole lives over shards, nothing beyond what a core has, and no row of what a program links.
        self.is_of_load = not self.is_life and entries <= FULL_ENTRIES and row not in PLAN["rows"]["linked"]
        self.samples = {}
        # Of a row of the longest call: by peer and kind of call how many calls there were, and what they took.
        self.spreads = {}
        self.counts = {}

    @property
    def key(self):
        return self.row, self.entries, self.threads

    def __str__(self):
        return f"{self.row} at {self.entries:,}{' a shard' if self.shards else ''}, threads: {self.threads}"

    def take(self, line):
        """Takes a line that a program printed. Fails where its counts aren't those of the peers before it."""
        peer, row, entries, threads, turn, spent, operations, *counts = line.split()
        assert (row, int(entries), int(threads)) == self.key, line
        counts, spreads = counts[:len(COUNTS)], counts[len(COUNTS):]
        expected = self.counts.setdefault(turn, counts)
        for name, count, other in zip(COUNTS, counts, expected, strict=True):
            # A dash stands where the last deadlines are the schedule's.
            if count != other and "-" not in (count, other):
                raise ValueError(f"{self}: {peer} has {count} {name}, a peer before it {other}")
        self.samples.setdefault(peer, []).append(int(spent) / int(operations))
        for call, *numbers in zip(*[iter(spreads)] * (2 + len(SHARES))):
            self.spreads[peer, call] = [int(number) for number in numbers]

    def median(self, peer):
        return statistics.median(self.samples[peer])


def are_installed(*programs):
    """Whether Debian's packages are there, and those programs. What lacks is installed where root asks."""
    def are_there():
        return all([glob.glob("/usr/share/cargo/registry/tokio-util-*"), *map(shutil.which, programs)])
    if not are_there() and os.geteuid() == 0 and shutil.which("apt-get"):
        for command in ["apt-get", "update"], [*SETUP.split(), *programs]:
            subprocess.run(command, stdout=subprocess.DEVNULL, stderr=subprocess.DEVNULL, check=False)
    return are_there()


def build_peers(*how):
    """Builds the peers, with our own queue by its crates."""
    if not are_installed():
        sys.exit(f"the peers' packages aren't installed; as root: {SETUP}")
    command = ["cargo", "--config", "../tools/debian.toml", "build", "--release", "--offline", "--locked", "--quiet", *how]
    if subprocess.run(command, cwd=BENCH, check=False).returncode:
        sys.exit("the peers can't be built")


def rows_of(name):
    """The rows of a file of results/."""
    text = (RESULTS / f"{name}.tsv").read_text(encoding="utf-8")
    return [it.split("\t") for it in text.splitlines() if it and not it.startswith("#")]


def rewrite(name, rows):
    """Writes a file of results/ anew: what it says of itself stays, but for the code, the day and what was counted later."""
    path = RESULTS / f"{name}.tsv"
    commit = subprocess.check_output(["git", "describe", "--always", "--dirty"], cwd=BENCH, text=True).strip()
    head = "".join(re.findall(r"(?m)^#(?! Counted later).*\n", path.read_text()))
    head = re.sub(r"Of the code at \S+\. Day", f"Of the code at {commit}. Day", head)
    path.write_text(re.sub(r"Day: [-\d]+", f"Day: {datetime.date.today()}", head) + "".join(rows))


def write_samples(all_cases, about):
    """Stores what was timed."""
    head = "peer\trow\tentries\tthreads\tnanoseconds an operation, one number for each round"
    lines = [*(f"# {line}" for line in about), head]
    spreads = ["peer\trow\tentries\tcall\tcalls\tnanoseconds that " + ", ".join(SHARES) + " of the calls take at most"]
    for case in all_cases:
        for peer, taken in case.samples.items():
            numbers = " ".join(f"{sample:.2f}" for sample in taken)
            lines.append(f"{peer}\t{case.row}\t{case.entries}\t{case.threads}\t{numbers}")
        for (peer, call), (calls, *taken) in case.spreads.items():
            spreads.append(f"{peer}\t{case.row}\t{case.entries}\t{call}\t{calls}\t{' '.join(map(str, taken))}")
    STORED.write_text("\n".join(lines) + "\n")
    LONGEST.write_text("\n".join(spreads) + "\n")


def read():
    """The cases of the stored run, by their keys."""
    found = {}
    for line in [it for it in STORED.read_text().splitlines() if not it.startswith("# ")][1:]:
        peer, row, entries, threads, samples = line.split("\t")
        case = found.setdefault((row, int(entries), int(threads)), Case(row, int(entries), int(threads)))
        case.samples[peer] = list(map(float, samples.split()))
    for line in LONGEST.read_text().splitlines()[1:]:
        peer, row, entries, call, calls, taken = line.split("\t")
        found[row, int(entries), 1].spreads[peer, call] = [int(calls), *map(int, taken.split())]
    return found
