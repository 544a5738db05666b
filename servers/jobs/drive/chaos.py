"""Three workers that are killed, stopped and cut off at drawn moments, each behind a link of its own, and the database.

    chaos.py [SEED..]

Effects are had once. What a holder was told of a lease holds, and one attempt of a job alone is done.
"""
import concurrent.futures
import contextlib
import os
import random
import signal
import sys
import threading
import time
from itertools import repeat

from cluster import EFFECT, HANG, cluster, end, exactly_once, free_port, kill, say
from holder import GONE, Connection, Refusal
from links import Apart, Wire

SECONDS = 25


class Host:
    """A worker behind a link, which is started again when it was killed. Only root has it in a network of its own."""

    def __init__(self, it, stack, number, words):
        self.it = it
        self.apart = stack.enter_context(Apart(number)) if os.geteuid() == 0 else None
        self.wire = Wire(it.port, self.apart.host if self.apart else "127.0.0.1")
        self.address = f"{self.apart.guest if self.apart else '127.0.0.1'}:{free_port()}"
        listen = [] if "--effect" in words else ["--listen", self.address]
        self.words = ["worker", "--name", f"w{number}", "--attempts", "100", *listen, *words]
        self.start()

    def start(self):
        within = self.apart.within if self.apart else ()
        self.process = self.it.spawn(*self.words, url=self.wire.url(self.it.url), within=within)

    def kill(self, _seconds):
        kill(self.process)
        self.start()

    def stop(self, seconds):
        self.process.send_signal(signal.SIGSTOP)
        time.sleep(seconds)
        self.process.send_signal(signal.SIGCONT)

    def suffer(self, draws, until, happened):
        harms = {"kill": self.kill, "stop": self.stop, "cut_database": self.wire.cut_for}
        if self.apart:
            harms["cut"] = self.apart.cut_for
        while time.monotonic() < until:
            time.sleep(draws.uniform(0.5, 4))
            what = draws.choice(list(harms))
            happened.append(what)
            harms[what](draws.uniform(0.5, 8))


def trouble(it, hosts, seed):
    """Lets each host suffer for some seconds, and stops the database hard once."""
    until, happened = time.monotonic() + SECONDS, []
    with concurrent.futures.ThreadPoolExecutor(len(hosts)) as pool:
        draws = [random.Random(f"{seed} {number}") for number in range(len(hosts))]
        over = pool.map(Host.suffer, hosts, draws, repeat(until), repeat(happened))
        time.sleep(random.Random(seed).uniform(5, 20))
        it.stop("immediate")
        it.start()
        list(over)
    return ", ".join(f"{happened.count(name)} {name}" for name in ("kill", "stop", "cut", "cut_database"))


def ask(address, *words):
    with contextlib.closing(Connection(address, timeout=3)) as connection:
        return connection.call(*words)


class Holding(threading.Thread):
    """Takes jobs wherever it finds some, beats, and ends them, or is silent, as it draws."""

    def __init__(self, addresses, seed):
        super().__init__(daemon=True)
        self.draws, self.addresses = random.Random(seed), addresses
        # What it was told at least: until when each attempt is its own, and which are done or failed.
        self.told, self.done, self.failed = {}, [], set()
        self.ends = False

    def run(self):
        while not self.ends:
            address = self.draws.choice(self.addresses)
            with contextlib.suppress(*GONE):
                jobs = ask(address, "JOBS.TAKE", 5, "WAIT", 300)
                if isinstance(jobs, list):
                    told = {(id, attempt): until / 1000 for id, attempt, until, _ in jobs}
                    self.told.update(told)
                    self.hold(address, list(told))

    def say(self, address, word, attempt):
        """The answer of whoever owns the job."""
        for _ in range(20):
            try:
                reply = ask(address, word, *attempt)
            except GONE:
                address, reply = self.draws.choice(self.addresses), Refusal("TRYAGAIN")
            if not isinstance(reply, Refusal) or reply.startswith("FENCED"):
                return reply
            if reply.startswith("MOVED"):
                address = reply.split()[2]
            time.sleep(0.2)
        return Refusal("TRYAGAIN")

    def hold(self, address, attempts):
        for _ in range(self.draws.randrange(4)):
            time.sleep(0.3)
            for attempt in attempts:
                until = self.say(address, "JOBS.BEAT", attempt)
                if not isinstance(until, Refusal):
                    self.told[attempt] = max(self.told[attempt], until / 1000)
        for attempt in attempts:
            what = self.draws.random()
            if what < 0.8:
                if self.say(address, "JOBS.DONE", attempt) == "OK":
                    self.done.append(attempt)
            elif what < 0.9:
                # Its answer may be lost.
                self.failed.add(attempt)
                self.say(address, "JOBS.FAIL", attempt)


def effects(it, hosts, seed):
    it.enqueue(20000, spread=SECONDS)
    happened = trouble(it, hosts, seed)
    over = time.monotonic()
    exactly_once(it, 20000)
    took = time.monotonic() - over
    assert it.number("SELECT count(*) FROM jobs WHERE attempt <> 1") == 0
    say(f"seed {seed}: {happened}: 20,000 effects once, all {took:.1f} s after it")


def holders(it, hosts, seed):
    it.sql(
        "CREATE TABLE IF NOT EXISTS given (job bigint, attempt integer, at timestamptz); TRUNCATE given; "
        "CREATE OR REPLACE FUNCTION note_given() RETURNS trigger LANGUAGE plpgsql AS $$ BEGIN INSERT INTO given VALUES "
        "(NEW.id, NEW.attempt, NEW.started); RETURN NULL; END $$; "
        "CREATE OR REPLACE TRIGGER note_given AFTER UPDATE ON jobs FOR EACH ROW WHEN (OLD.state = 'waiting' AND "
        "NEW.state = 'running') EXECUTE FUNCTION note_given()"
    )
    # Those that fail again and again are tried again soon.
    it.sql("INSERT INTO jobs_kinds (kind, most_delay) VALUES ('', 2) ON CONFLICT DO NOTHING")
    it.enqueue(1500, spread=SECONDS)
    holding = [Holding([host.address for host in hosts], f"{seed} {number}") for number in range(12)]
    for thread in holding:
        thread.start()
    happened = trouble(it, hosts, seed)
    over = time.monotonic()
    it.wait_for_number("SELECT count(*) FROM jobs WHERE state <> 'done'", 0)
    took = time.monotonic() - over
    for thread in holding:
        thread.ends = True
    for thread in holding:
        thread.join(HANG)
        assert not thread.is_alive(), "a holder hangs"
    rows = it.sql("SELECT job, attempt, extract(epoch FROM at) FROM given")
    # When the attempt after each was given.
    after = {(int(job), int(attempt) - 1): float(at) for job, attempt, at in rows}
    failed = set().union(*(it.failed for it in holding))
    told = {attempt: until for it in holding for attempt, until in it.told.items() if attempt not in failed}
    early = [(attempt, until - after[attempt]) for attempt, until in told.items() if after.get(attempt, until) < until]
    assert not early, f"{len(early)} jobs were given again before what holders were told: {early[:5]}"
    done = [attempt for it in holding for attempt in it.done]
    last = {int(id): int(attempt) for id, attempt in it.sql("SELECT id, attempt FROM jobs")}
    wrong = [attempt for attempt in done if last[attempt[0]] != attempt[1]]
    assert not wrong and len(set(it[0] for it in done)) == len(set(done)), wrong[:5]
    say(
        f"seed {seed}: {happened}: 1,500 jobs by {len(after)} attempts, {len(told)} of them told until when, "
        f"none replaced sooner, one of each job done; all {took:.1f} s after it"
    )


def main(seeds):
    for seed in seeds:
        for case, words in [
            (effects, ["--effect", EFFECT]),
            (holders, ["--lease", "6000", "--write-every", "1000"]),
        ]:
            with cluster() as it, contextlib.ExitStack() as stack:
                hosts = [Host(it, stack, number, words) for number in range(3)]
                it.wait_for_owners(3)
                case(it, hosts, seed)
                end(*(host.process for host in hosts))


if __name__ == "__main__":
    main(sys.argv[1:] or [1])
