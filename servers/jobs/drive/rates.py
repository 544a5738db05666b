"""Measures how late jobs are, and what they cost.

    rates.py [OTHER]

At two rates, five turns of twenty seconds each, in turns with OTHER, an older program, where one is given. What was measured
stands in measured.tsv, and the table of README.md is made of it.
"""
import contextlib
import os
import pathlib
import re
import statistics
import sys
import time

import cluster
from cluster import EFFECT, HERE, end, lateness

HERTZ = os.sysconf("SC_CLK_TCK")
WORKERS, TURNS, SECONDS, RATES = 3, 5, 20, (1000, 10000)
STORED = HERE / "measured.tsv"


def times(pid):
    """The processor seconds of a process, and those of its children that have ended."""
    fields = pathlib.Path(f"/proc/{pid}/stat").read_text().rsplit(")", 1)[1].split()
    return sum(map(int, fields[11:13])) / HERTZ, sum(map(int, fields[13:15])) / HERTZ


def database_seconds(it):
    parent = int((it.data / "postmaster.pid").read_text().split()[0])
    children = pathlib.Path(f"/proc/{parent}/task/{parent}/children").read_text().split()
    total = sum(times(parent))
    for child in children:
        # One that has ended stands in its parent's sum from now on.
        with contextlib.suppress(FileNotFoundError, ProcessLookupError):
            total += times(child)[0]
    return total


def used(it, workers):
    """The processor seconds so far of the workers, of the database, and those that other machines took of this one's."""
    stolen = int(pathlib.Path("/proc/stat").read_text().split(maxsplit=9)[8]) / HERTZ
    return sum(times(it.pid)[0] for it in workers), database_seconds(it), stolen


def load(it, rate):
    it.sql("TRUNCATE jobs; TRUNCATE effects; CHECKPOINT")
    workers = [it.spawn("worker", "--name", f"w{number}", "--effect", EFFECT) for number in range(WORKERS)]
    it.wait_for_owners(WORKERS)
    begun, before = time.monotonic(), used(it, workers)
    it.enqueue(rate * SECONDS, delay=4, spread=SECONDS)
    time.sleep(SECONDS)
    it.wait_for_number("SELECT count(*) FROM jobs WHERE state = 'waiting'", 0)
    took, after = time.monotonic() - begun, used(it, workers)
    end(*workers)
    return [*map(float, lateness(it).split()), *[(now - then) / took for now, then in zip(after, before)]]


def measure(programs):
    """Each turn of each program, one after the other, each with a database of its own."""
    model = re.search(r"^model name\s*: (.*)", pathlib.Path("/proc/cpuinfo").read_text(), re.M)[1]
    with contextlib.ExitStack() as stack, open(STORED, "w") as out:
        print(f"# {time.strftime('%Y-%m-%d')}, {model}, {os.cpu_count()} cores, {SECONDS} s a turn", file=out)
        print("a second, program, ms late p50, p99, max, cores of workers, of database, taken by other machines", file=out)
        databases = {}
        for name, cluster.JOBS in programs.items():
            databases[name] = stack.enter_context(cluster.cluster())
        for turn in range(TURNS):
            for rate in RATES:
                for name in list(programs)[:: 1 if turn % 2 else -1]:
                    cluster.JOBS = programs[name]
                    row = [f"{it:.4g}" for it in load(databases[name], rate)]
                    print(rate, name, *row, sep="\t", file=out, flush=True)


def table():
    """Medians of the turns; and the p99 of each beside the cores that others took: how late jobs are hangs on that first."""
    note, _, *lines = STORED.read_text().splitlines()
    turns = {}
    for rate, name, *row in (line.split("\t") for line in lines):
        turns.setdefault((int(rate), name), []).append([float(it) for it in row])
    rows = ["| A second | Program | p50 ms | p99 ms (cores that others took) | max ms | cores of workers | of database |"]
    rows.append("| --: | --- | --: | --- | --: | --: | --: |")
    for (rate, name), its in sorted(turns.items()):
        p50, _, most, *cores, _ = (f"{statistics.median(it):.3g}" for it in zip(*its))
        p99 = ", ".join(f"{it[1]:g} ({it[-1]:.2f})" for it in sorted(its, key=lambda it: it[-1]))
        rows.append(f"| {rate:,} | {' | '.join([name, p50, p99, most, *cores])} |")
    text = f"{note[2:]}. Medians of {len(its)} turns.\n\n" + "\n".join(rows)
    page = HERE / "README.md"
    mark = re.compile("(<!-- table jobs -->\n).*?(\n<!-- end -->)", re.S)
    page.write_text(mark.sub(lambda it: it[1] + text + it[2], page.read_text(), count=1))


if __name__ == "__main__":
    measure({"this": cluster.JOBS, **{"older": it for it in sys.argv[1:]}})
    table()
