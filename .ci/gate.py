#!/usr/bin/env python3
"""The gate: what the pages say, the C file's hashes, the tests of the plain Rust and the instructions of its calls, `rt ci`, and
the wrong bodies.

  .ci/run            with one wrong body for each row of crates/PROMISES.md, drawn by the commit's hash, and with all of the
                     crates that changed since the last whole run
  .ci/run --all      with all wrong bodies, a whole run: first with one for each row, and then with the others
  .ci/run --all --store
                     and writes to bench/results/gate.tsv the commit, and what the parts took, if nothing failed: of the
                     whole run, and of what `.ci/run` is for the same commit then, which is the same run without the
                     others; hold it to two cores by `taskset -c 0,1`

A crate has changed if a file below its src/, specs/, proofs/ or edits/ isn't as in the commit that gate.tsv has of a whole
run; what is only below it in the graph doesn't count. If this clone hasn't that commit, or tools/ or crates.txt changed,
all wrong bodies are tried.

The first two take seconds, and nothing else is tried where one of them fails. Where there is more than one processor, the
others run beside each other: `tools/test-edits` begins with a crate's wrong bodies once `rt ci` has proved the crate,
and takes what `rt ci` leaves of the processors. If `rt ci` fails, nothing is told of them. The last line counts what
passed and what failed in all. The status is that of `rt ci`, or 1 where only another part failed.
"""

import contextlib
import datetime
import hashlib
import os
import pathlib
import re
import resource
import signal
import subprocess
import sys
import tempfile
import textwrap
import time

TOP = pathlib.Path(__file__).resolve().parent.parent
STORED = TOP / "bench" / "results" / "gate.tsv"
# Both need Python alone, as rt does.
FIRST = {"docs/check": ["python3", "docs/check"], "c/generate": ["python3", "c/generate", "--hash"]}
SAID = {"cwd": TOP, "stderr": subprocess.STDOUT, "encoding": "utf-8", "errors": "replace"}
# What each form of the gate is called in gate.tsv.
DRAWN, WHOLE = ".ci/run", ".ci/run --all"
OF_EDIT = re.compile(r"^edit: (\w+)\n(?:promise: (.*))?", re.M)
# A crate's files on which its wrong bodies depend, and what all of them depend on.
OWN = re.compile(r"crates/(\w+)/(?:src|specs|proofs|edits)/")
SHARED = ("tools/", "crates.txt")


def say(text):
    print(text, flush=True)


def counts(last, status):
    """What a last line counts as passed and failed: at least one failed where it counts none or the status isn't 0."""
    found = re.search(r"(\d+) passed, (\d+) failed", last)
    passed, failed = (int(found[1]), int(found[2])) if found else (0, 1)
    return passed, max(failed, status != 0)


def used():
    """The minutes of the clock, and those of a processor that all parts used which have ended."""
    its = resource.getrusage(resource.RUSAGE_CHILDREN)
    return time.monotonic() / 60, (its.ru_utime + its.ru_stime) / 60


# What each part took, and the whole, by the clock and of a processor.
TOOK = {}


def tell_times(name, before):
    """Says what a part took, and keeps it: of one that ran twice, both."""
    clock, processor = [now - then for now, then in zip(used(), before)]
    TOOK[name] = [was + now for was, now in zip(TOOK.get(name, (0, 0)), (clock, processor))]
    say(f"-- {name} took {clock:.1f} minutes of the clock and {processor:.1f} of a processor")


def all_took(begun):
    """What each part took so far, and all."""
    return {**TOOK, "in all": [(time.monotonic() - begun) / 60, sum(it[1] for it in TOOK.values())]}


def git(*words):
    """What git says, or None if it fails."""
    ran = subprocess.run(["git", *words], cwd=TOP, stdout=subprocess.PIPE, stderr=subprocess.DEVNULL, text=True, check=False)
    return None if ran.returncode else ran.stdout.strip()


def stored():
    """The rows of gate.tsv: the form, the part, what it is of that part, and that."""
    return [it.split("\t") for it in STORED.read_text(encoding="utf-8").splitlines()[1:]] if STORED.is_file() else []


def store(forms):
    """Writes what the parts took of a whole run, and of its part that is `.ci/run`."""
    commit = git("describe", "--always", "--abbrev=40", "--exclude=*", "--dirty") or "none"
    run = {"commit": commit, "cores": len(os.sched_getaffinity(0)), "day": datetime.date.today()}
    rows = []
    for form, took in forms.items():
        rows += [(form, "run", what, str(it)) for what, it in run.items()]
        rows += [(form, part, what, f"{minutes:.1f}") for part, its in took.items() for what, minutes in zip(("clock", "processor"), its)]
    head = "# What a whole run of the gate took, in minutes, and its part that is `.ci/run`, as `.ci/run --all --store` writes it.\n"
    STORED.write_text(head + "".join("\t".join(it) + "\n" for it in rows), encoding="utf-8")


def changed_since(commit):
    """The crates that changed since a commit; None where all count as changed."""
    tracked, others = git("diff", "--name-only", "--no-renames", commit, "--"), git("ls-files", "--others", "--exclude-standard")
    paths = [] if tracked is None or others is None else [*tracked.splitlines(), *others.splitlines()]
    if tracked is None or any(it.startswith(SHARED) for it in paths):
        return None
    return {found[1] for found in map(OWN.match, paths) if found}


def wrong_bodies():
    """The names of all wrong bodies, and of those that break each row of crates/PROMISES.md."""
    names, rows = [], {}
    for path in sorted(TOP.glob("crates/*/edits/*.edits")):
        for edit, promises in OF_EDIT.findall(path.read_text(encoding="utf-8")):
            names.append(f"{path.parts[-3]}/{edit}")
            for row in set(promises.split()):
                rows.setdefault(row, []).append(names[-1])
    return names, rows


def to_try(is_whole):
    """The wrong bodies that this run tries, by their names, none for all, and those that a whole run tries then; it says which."""
    edits, rows = wrong_bodies()
    commit, last = git("rev-parse", "HEAD"), next((it[3] for it in stored() if it[:3] == [WHOLE, "run", "commit"]), "none")
    # one for each row, the same for the same commit
    number = lambda row: int(hashlib.sha256(f"{commit}{row}".encode()).hexdigest(), 16)
    its = {its[number(row) % len(its)] for row, its in rows.items()}
    if is_whole:
        say(f"-- wrong bodies: all {len(edits)}, of which the first {len(its)} are one for each of {len(rows)} rows of"
            f" crates/PROMISES.md, drawn by {commit}")
        return sorted(its), sorted({*edits} - its)
    crates = changed_since(last)
    if crates is None:
        say(f"-- wrong bodies: all {len(edits)}, since {' or '.join(SHARED)} changed, or this clone hasn't {last},"
            " the commit of the last whole run")
        return [], []
    whole = {it for it in edits if it.partition("/")[0] in crates}
    say(f"-- wrong bodies: {len(its | whole)} of {len(edits)}: all {len(whole)} of the crates that changed since {last},"
        f" the commit of the last whole run ({' '.join(sorted(crates)) or 'none'}), and one for each of {len(rows)} rows of"
        f" crates/PROMISES.md, drawn by {commit}; beside those crates:")
    say(textwrap.fill(" ".join(sorted(its - whole)), 140, initial_indent="   ", subsequent_indent="   "))
    return sorted(its | whole), []


def shown(name, words, heard=lambda line: None, **more):
    """Runs a part, with more in its environment, and passes on what it says: its status, and what its last line counts."""
    say(f"== {name}")
    last, before = "", used()
    with subprocess.Popen(words, stdout=subprocess.PIPE, env={**os.environ, **more}, **SAID) as ran:
        for line in ran.stdout:
            print(line, end="", flush=True)
            heard(line)
            last = line if line.strip() else last
    tell_times(name, before)
    return ran.returncode, counts(last, ran.returncode)


class Beside:
    """A part that runs beside others: it says what it has to say into a file."""

    def __init__(self, name, *words):
        self.name, self.words, self.ran = name, words, None
        self.said = tempfile.TemporaryFile("w+", encoding="utf-8", errors="replace")

    def begin(self):
        # (its processes are of this session, so that `nice` counts among them and those of other parts)
        how = {"stdin": subprocess.PIPE, "stdout": self.said, "process_group": 0}
        self.ran = self.ran or subprocess.Popen(self.words, **how, **SAID)

    def hear(self, line):
        """Gives it a line of its input."""
        with contextlib.suppress(BrokenPipeError):
            if self.ran:
                print(line, file=self.ran.stdin, flush=True)

    def end(self):
        """Waits, and tells all that it said: its status, and what its last line counts."""
        self.begin()
        with contextlib.suppress(BrokenPipeError):
            self.ran.stdin.close()
        before, status = used(), self.ran.wait()
        self.said.seek(0)
        text = self.said.read()
        say(f"== {self.name}\n" + text.rstrip("\n"))
        tell_times(self.name, before)
        return status, counts((text.strip().splitlines() or [""])[-1], status)

    def stop(self):
        if self.ran is not None and self.ran.poll() is None:
            os.killpg(self.ran.pid, signal.SIGTERM)
            self.ran.wait()


def proved(edits):
    """Runs `rt ci`, and waits for the wrong bodies of all that it proved."""
    def heard(line):
        if crate := re.fullmatch(r"rt: (\w+) proved\n", line):
            edits.hear(crate[1])

    # two jobs of one proof take more of a processor than one: where there are two, other work takes the second
    jobs = {"RT_JOBS": "2"} if len(os.sched_getaffinity(0)) == 2 else {}
    parts = [shown("rt ci", ["rt", "ci"], heard, **jobs)]
    if parts[0][0]:
        say("rt ci failed, so nothing is told of the wrong bodies")
        return parts
    return [*parts, edits.end()]


def main():
    begun, asked = time.monotonic(), {*sys.argv[1:]}
    if asked not in (set(), {"--all"}, {"--all", "--store"}):
        print(__doc__, end="")
        return 2
    if any([shown(*part)[0] for part in FIRST.items()]):
        say("0 passed, 1 failed")
        return 1
    processors, (first, others) = len(os.sched_getaffinity(0)), to_try("--all" in asked)
    tries = ["nice", "python3", "tools/test-edits", "-j", str(processors)]
    tests = [Beside("rust/test", "rust/test"), Beside("bench/count", "bench/count", "--check")]
    edits, more = (Beside("tools/test-edits", *tries, *words) for words in (("--follow", *first), ("--built", *others)))
    try:
        for it in [*tests, edits] if processors > 1 else []:
            it.begin()
        parts = [*proved(edits), *(it.end() for it in tests)]
        forms = {DRAWN: all_took(begun)}
        if others and not parts[0][0]:
            parts.append(more.end())
        forms[WHOLE] = all_took(begun)
    finally:
        for it in (edits, more, *tests):
            it.stop()
    failed = parts[0][0] or int(any(status or it[1] for status, it in parts))
    if "--store" in asked and not failed:
        store(forms)
    say(f"{sum(it[0] for _, it in parts)} passed, {sum(it[1] for _, it in parts)} failed")
    return failed


signal.signal(signal.SIGTERM, lambda *_: sys.exit(130))
sys.exit(main())
