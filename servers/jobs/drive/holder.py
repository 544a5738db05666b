"""A holder of leases: takes jobs from workers, beats, and follows a job to the worker that owns it."""
import functools
import time

from cluster import HANG, wait_for

from client import GONE, Client, Refusal, packed

# A holder's, to which payloads are texts.
Connection = functools.partial(Client, timeout=HANG, is_text=True)


class Job:
    def __init__(self, id, attempt, until, address, sent):
        self.id, self.attempt, self.address = id, attempt, address
        # By this machine's clock, which is the database's here: when its last accepted word was sent, a whole lease after
        # which the lease ends and no sooner, and until when the table had it then.
        self.sent, self.until = sent, until / 1000
        # When it was heard that another has the job.
        self.refused = None


class Holder:
    def __init__(self, addresses):
        self.addresses = list(addresses)
        self.connections = {}
        self.jobs = {}

    def connection(self, address):
        if address not in self.connections:
            self.connections[address] = Connection(address)
        return self.connections[address]

    def leave(self, address):
        if address in self.connections:
            self.connections.pop(address).close()

    def take(self, count, also=lambda: None):
        """So many jobs, from whichever worker has them."""
        end = time.monotonic() + HANG
        got = []
        while len(got) < count:
            assert time.monotonic() < end, f"{len(got)} of {count} jobs were given"
            also()
            for address in self.addresses:
                sent = time.time()
                try:
                    jobs = self.connection(address).call("JOBS.TAKE", min(100, count - len(got) or 1), "WAIT", 20)
                except GONE:
                    self.leave(address)
                    continue
                if isinstance(jobs, list) and len(got) < count:
                    for id, attempt, until, _payload in jobs:
                        self.jobs[id] = Job(id, attempt, until, address, sent)
                        got.append(self.jobs[id])
        return got

    def beat(self, jobs):
        """One beat of each, at the worker that is known to own it."""
        self.say(jobs, "JOBS.BEAT", lambda job, until: setattr(job, "until", until / 1000))

    def say(self, jobs, word, accepted):
        by_address = {}
        for job in jobs:
            if job.refused is None:
                by_address.setdefault(job.address, []).append(job)
        for address, its_jobs in by_address.items():
            sent = time.time()
            try:
                replies = self.connection(address).calls([(word, it.id, it.attempt) for it in its_jobs])
            except GONE:
                self.leave(address)
                others = [it for it in self.addresses if it != address] or [address]
                for job in its_jobs:
                    job.address = others[job.id % len(others)]
                continue
            for job, reply in zip(its_jobs, replies):
                if not isinstance(reply, Refusal):
                    job.sent = sent
                    accepted(job, reply)
                elif reply.startswith("MOVED "):
                    job.address = reply.split()[2]
                elif reply.startswith("FENCED "):
                    job.refused = time.time()
                else:
                    assert reply.startswith("TRYAGAIN "), reply

    def beat_for(self, jobs, seconds, every):
        end = time.monotonic() + seconds
        while time.monotonic() < end:
            begun = time.monotonic()
            self.beat(jobs)
            time.sleep(max(0, every - (time.monotonic() - begun)))

    def end(self):
        """Has its jobs done. One whose lease the machine let end is given again, and done then."""
        wanted, ended = set(self.jobs), set()

        def all_ended():
            """each job is done"""
            mine = [job for job in self.jobs.values() if job.id not in ended]
            self.say(mine, "JOBS.DONE", lambda job, _: ended.add(job.id))
            if any(job.refused for job in mine):
                self.take(1)
            return wanted <= ended

        wait_for(all_ended, every=0.2)


def replaced(jobs, lease):
    """The jobs that another has within a lease of their last accepted word, which isn't the machine's doing."""
    return [job for job in jobs if job.refused and job.refused < job.sent + lease]
