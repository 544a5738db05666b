"""What the tables' rules do: kinds that are paused, bounded, many or changed, jobs that are cancelled or deleted, workers of two
sorts, holders that are silent, and names and numbers as long as they may be."""
import signal
import subprocess
import time

from cluster import EFFECT, HANG, LONG, WAIT, empty, end, exactly_once, free_port, metric, run, run_cases, say, wait_for
from holder import Connection, Refusal
from links import Wire


def sorts(it):
    """A worker that has an effect isn't begun beside one that serves holders, nor the other way round."""
    worker, address = it.serve()
    other = it.spawn("worker", "--effect", EFFECT, log="refused")
    assert other.wait(HANG) == 1 and f"worker at {address} works at this table" in it.logged("refused")
    end(worker)
    both = [it.spawn("worker", *words) for words in (["--effect", EFFECT], ["--listen", f"127.0.0.1:{free_port()}"])]
    wait_for(lambda: [worker.poll() for worker in both].count(1) == 1)
    (left,) = [worker for worker in both if worker.poll() is None]
    it.wait_for_owners(1)
    # It stands still until its terms are over, and another of the other sort comes meanwhile: awake it ends.
    left.send_signal(signal.SIGSTOP)
    words = ["--effect", EFFECT] if left is both[1] else ["--listen", f"127.0.0.1:{free_port()}"]
    it.spawn("worker", *words)
    it.wait_for_number(f"SELECT count(*) FROM jobs_workers WHERE until > now() AND (address = '-') = {left is both[1]}", 1)
    left.send_signal(signal.SIGCONT)
    wait_for(lambda: left.poll() == 1)
    it.wait_for_owners(1)
    say("of two workers of both sorts one was refused, and one that had stood still, once it was awake")


def follow(address, *words):
    """The answer of whoever is named last, and how often another was named."""
    for moved in range(1000):
        reply = Connection(address).call(*words)
        if not (isinstance(reply, Refusal) and reply.startswith("MOVED ")):
            return reply, moved
        address = reply.split()[2]
    raise AssertionError(f"{words}: nobody")


def many_kinds(it):
    """Three workers and 1,000 kinds: a holder that asks one worker for one of these has it, while the others wait."""
    addresses = [it.serve()[1] for _ in range(3)]
    it.wait_for_owners(3)
    it.sql("INSERT INTO jobs (kind) SELECT 'k' || i FROM generate_series(1, 1000) i")
    kinds, moved = [f"k{number}" for number in range(1, 1000, 25)], 0

    def all_given():
        """each kind is given"""
        nonlocal moved
        for kind in list(kinds):
            reply, more = follow(addresses[0], "JOBS.TAKE", 1, "KIND", kind)
            moved += more
            if reply and not isinstance(reply, Refusal):
                kinds.remove(kind)
        return not kinds

    wait_for(all_given)
    say(f"a holder that asked one of three workers had each of 40 of 1,000 kinds, sent on {moved} times")


def silent(it):
    """A silent holder is closed where it is told so, and the system asks whether its host is there."""
    worker, address = it.serve("--clients", "1")
    held = [Connection(address)]
    port = address.split(":")[1]
    asked = subprocess.run(["ss", "-tno", f"sport = :{port}"], capture_output=True, text=True, check=True).stdout
    assert asked.count("timer:(keepalive") == 1, asked
    refused = Connection(address).reply()
    assert refused == "ERR max number of clients reached", refused
    end(worker)
    _, address = it.serve("--clients", "1", "--timeout", "500")
    held.append(Connection(address))
    wait_for(lambda: Connection(address).call("PING") == "PONG")
    # Who waits for a job isn't silent, once the last one's place is free.
    wait_for(lambda: Connection(address).call("JOBS.TAKE", 1, "WAIT", 1500) == [])
    say("a silent holder was closed, and another had its place")


def ends(it):
    """A holder is told the end of its lease as the table has it, by the database's clock."""
    _, address = it.serve("--write-every", "300")
    it.enqueue(1)
    asks = Connection(address)
    ((id, attempt, until, _),) = asks.call("JOBS.TAKE", 1, "WAIT", WAIT)
    table = "SELECT extract(epoch FROM lease_until) * 1000 FROM jobs"
    assert it.number(table) == until
    seconds, micros = map(int, asks.call("TIME"))
    assert abs(it.number("SELECT extract(epoch FROM clock_timestamp())") - seconds - micros / 1e6) < HANG
    wait_for(lambda: asks.call("JOBS.BEAT", id, attempt) > until)
    told = asks.call("JOBS.BEAT", id, attempt)
    assert told <= it.number(table)
    # A deleted job is nobody's, also where the worker hears it from its own write alone.
    it.sql("DELETE FROM jobs")
    wait_for(lambda: str(asks.call("JOBS.BEAT", id, attempt)).startswith("FENCED"))
    say("a holder was told the end of its lease as the table has it, and that its job was deleted")


def cancelled(it):
    """A job is cancelled while it waits, runs, or is over."""
    _, address = it.serve("--write-every", str(int(LONG) // 2))
    it.sql("INSERT INTO jobs (due) SELECT now() + i * interval '1 hour' FROM generate_series(0, 1) i")
    asks = Connection(address)
    ((id, attempt, *_),) = asks.call("JOBS.TAKE", 1, "WAIT", WAIT)
    assert asks.call("JOBS.BEAT", id, attempt) > 0
    assert it.sql(f"SELECT jobs_cancel(i) FROM generate_series({id}, {id + 2}) i") == [["t"], ["t"], ["f"]]
    # No lease is written meanwhile: it was told by a notification.
    wait_for(lambda: asks.call("JOBS.BEAT", id, attempt) == f"CANCELLED job {id} was cancelled")
    assert asks.call("JOBS.DONE", id, attempt).startswith("FENCED")
    assert it.sql("SELECT DISTINCT state, error FROM jobs") == [["dead", "cancelled"]]
    assert it.sql(f"SELECT jobs_cancel({id})") == [["f"]]
    assert it.number("SELECT jobs_retry()") == 0
    assert it.number(f"SELECT jobs_retry(ARRAY[{id}])") == 1
    ((again, *_),) = asks.call("JOBS.TAKE", 1, "WAIT", WAIT)
    assert again == id
    say("a job that ran and one that waited were cancelled, and the holder told")


def take_all(asks, count, *words):
    """So many jobs are given, and no more."""
    got = []
    wait_for(lambda: got.extend(asks.call("JOBS.TAKE", 100, "WAIT", 1000, *words)) or len(got) >= count)
    assert len(got) == count, got


def slow_and_quick(it, column, value):
    """200,000 jobs of a slow kind, more than a worker holds in memory, are due before 50 quick ones."""
    it.sql(
        f"INSERT INTO jobs_kinds (kind, {column}) VALUES ('slow', {value}); "
        "INSERT INTO jobs (kind, due) SELECT 'slow', now() - interval '1 hour' FROM generate_series(1, 200000); "
        "INSERT INTO jobs (kind) SELECT 'quick' FROM generate_series(1, 50)"
    )


def changed_kind(it):
    """A job whose kind is changed goes to holders of the new one, whether it is in memory already or not."""
    metrics = free_port()
    _, address = it.serve("--metrics", f"127.0.0.1:{metrics}")
    it.sql("INSERT INTO jobs (kind) SELECT 'old' FROM generate_series(1, 5)")
    wait_for(lambda: metric(metrics, "jobs_indexed") == 5)
    it.sql("UPDATE jobs SET kind = 'new'")
    asks = Connection(address)
    assert asks.call("JOBS.TAKE", 5, "KIND", "old") == []
    take_all(asks, 5, "KIND", "new")
    assert asks.call("JOBS.TAKE", 5, "KIND", "old") == []
    say("five jobs whose kind was changed went to a holder of the new one")


def paused(it):
    """Jobs of a paused kind wait, however many are due before others, and go on after it."""
    for effect in (True, False):
        empty(it)
        slow_and_quick(it, "paused", "true")
        if effect:
            worker = it.effect()
            exactly_once(it, 50)
        else:
            worker, address = it.serve()
            asks = Connection(address)
            take_all(asks, 50)
        assert it.sql("SELECT DISTINCT state, attempt FROM jobs WHERE kind = 'slow'") == [["waiting", "0"]]
        it.sql("DELETE FROM jobs WHERE kind = 'slow' AND id % 100 <> 0; UPDATE jobs_kinds SET paused = false")
        left = it.number("SELECT count(*) FROM jobs WHERE kind = 'slow'")
        if effect:
            exactly_once(it, 50 + int(left))
        else:
            take_all(asks, left)
        # What is paused while it stands in memory isn't given either.
        it.sql("UPDATE jobs_kinds SET paused = true")
        it.sql("INSERT INTO jobs (kind) VALUES ('slow'), ('quick')")
        it.wait_for_number("SELECT count(*) FROM jobs WHERE kind = 'quick' AND state <> 'waiting'", 50 if not effect else 51)
        assert it.number("SELECT count(*) FROM jobs WHERE kind = 'slow' AND state = 'waiting'") == 1
        end(worker)
    say("200,000 jobs of a paused kind kept no other, and went on after it")


def bounded(it):
    """So many jobs of a kind run at a time over all workers, and those that wait keep no other."""
    slow_and_quick(it, "at_most", 3)
    addresses = [it.serve()[1] for _ in range(2)]
    it.wait_for_owners(2)
    slow, quick, most = [], [], 0
    over = 0

    def all_had():
        """the quick ones and some of the slow are done"""
        nonlocal over, most
        for address in addresses:
            jobs = Connection(address).call("JOBS.TAKE", 20, "WAIT", 100)
            if isinstance(jobs, list):
                kinds = dict(it.sql("SELECT id, kind FROM jobs WHERE state = 'running'"))
                slow.extend((address, *job[:2]) for job in jobs if kinds[str(job[0])] == "slow")
                quick.extend(job for job in jobs if kinds[str(job[0])] == "quick")
        most = max(most, it.number("SELECT count(*) FROM jobs WHERE kind = 'slow' AND state = 'running'"))
        if len(slow) == 3:
            for address, *attempt in slow:
                reply = follow(address, "JOBS.DONE", *attempt)[0]
                assert reply == "OK", reply
            over += 3
            slow.clear()
        return len(quick) == 50 and over >= 12

    wait_for(all_had)
    assert most == 3, most
    say(f"{most:.0f} of a bounded kind ran at a time, and 50 others beside 200,000 of it")


def bounded_effects(it):
    """Two effects of a bounded kind are never had at once, whatever becomes of the sessions that have them."""
    it.sql(
        "CREATE SEQUENCE beside; CREATE FUNCTION alone(job bigint) RETURNS void LANGUAGE plpgsql AS $$ BEGIN "
        "IF NOT pg_try_advisory_xact_lock(1) THEN PERFORM nextval('beside'); END IF; PERFORM pg_sleep(0.005); "
        "INSERT INTO effects (job) VALUES (job); END $$; "
        "INSERT INTO jobs_kinds (kind, at_most, most_delay) VALUES ('slow', 1, 1)"
    )
    wire = Wire(it.port)
    for url in (it.url, wire.url(it.url)):
        it.spawn("worker", "--effect", "SELECT alone(id) FROM taken", url=url)
    its = "FROM pg_stat_activity WHERE application_name LIKE 'jobs-work%' AND state = 'active' AND query LIKE '%alone%'"
    count = cuts = 0
    while cuts < 6:
        if not it.number("SELECT count(*) FROM jobs WHERE state <> 'done'"):
            count += 500
            it.sql("INSERT INTO jobs (kind, due) SELECT 'slow', now() + i * interval '2 ms' FROM generate_series(1, 500) i")
        if not it.number(f"SELECT count(*) {its}"):
            continue
        # The sessions are ended, or a worker is cut off from those that go on.
        if cuts % 2:
            it.sql(f"SELECT pg_terminate_backend(pid) {its}")
        else:
            wire.cut_for(1)
        cuts += 1
    exactly_once(it, count)
    assert it.sql("SELECT is_called FROM beside") == [["f"]], "two effects of the kind were had at once"
    say(f"{count} effects of a bounded kind were had one after another, though sessions were ended and cut off {cuts} times")


def long_names(it):
    """A schema whose name is a word of SQL, with 200 partitions, and jobs whose ids and kinds are as long as they may be."""
    schema = ["--schema", "select", "--partitions"]
    it.jobs("setup", *schema, "200")
    refused = run("setup", *schema, "64", url=it.url)
    assert refused.returncode == 1 and "200 partitions" in refused.stderr, refused
    it.sql(
        'ALTER TABLE "select".jobs ALTER COLUMN id RESTART WITH 9000000000000000000; '
        "INSERT INTO \"select\".jobs (kind) SELECT repeat('k', 40) FROM generate_series(1, 400)"
    )
    for _ in range(7):
        it.spawn("worker", "--schema", "select", "--effect", "SELECT FROM taken")
    it.wait_for_owners(7, 200, '"select"')
    it.wait_for_number("SELECT count(*) FROM \"select\".jobs WHERE state = 'done'", 400)
    say("the schema select had 200 partitions over 7 workers, and jobs whose ids have 19 digits and whose kinds 40 letters")


def odd_rows(it):
    """What the table's types allow and no clock or counter does: it is refused, or done."""
    for row, why in [
        ("(attempt) VALUES (-1)", "jobs_attempt_counts"),
        ("(attempt) VALUES (1000000000)", "jobs_attempt_counts"),
        ("(due) VALUES ('infinity')", "jobs_due_check"),
        ("(due) VALUES ('-infinity')", "jobs_due_check"),
        ("(state) VALUES ('running')", "jobs_lease_ends"),
        ("(state, lease_until) VALUES ('running', 'infinity')", "jobs_lease_ends"),
        ("(kind) VALUES ('a b')", "jobs_kind_is_plain"),
    ]:
        it.refuses(f"INSERT INTO jobs {row}", why)
    # Too many for a notification, and before 1970.
    it.sql(
        "INSERT INTO jobs (due) SELECT '1960-01-01'::timestamptz + i * interval '1 day' FROM generate_series(1, 150) i; "
        "INSERT INTO jobs (due) VALUES ('4713-01-01 BC'), ('294276-12-31')"
    )
    assert it.sql("SELECT jobs_is_last(1000000000, 2000000000, '', 25)") == [["t"]], "it waits again"
    it.sql("INSERT INTO jobs (attempt) VALUES (999999999)")
    it.effect()
    exactly_once(it, 152)
    say("jobs that were due before 1970 were done, and rows that can't be counted on are refused")


def pruned(it):
    """Jobs that are dead for long are pruned, also where nothing is said of it, and done ones only where it is."""
    it.sql(
        "INSERT INTO jobs (state, due, ended) SELECT state, now(), now() - days * interval '1 day' "
        "FROM unnest(ARRAY['dead', 'done']) state, unnest(ARRAY[89, 91]) days"
    )
    old = "SELECT count(*) FROM jobs WHERE ended < now() - interval '90 days'"
    worker = it.effect()
    it.wait_for_number("SELECT count(*) FROM jobs", 3)
    assert it.number(f"{old} AND state = 'dead'") == 0
    end(worker)
    for _ in range(3):
        it.spawn("worker", "--effect", EFFECT, "--keep-done", str(90 * 24 * 3_600_000))
    it.wait_for_number("SELECT count(*) FROM jobs", 2)
    assert it.number(old) == 0
    say("a job that was dead for more than 90 days was pruned, and a done one where it was said")


def delays(it):
    """A job is tried 25 times over 20 days, where nobody says otherwise."""
    rows = it.sql("SELECT extract(epoch FROM sum(jobs_delay(i, 'no such'))) / 86400 FROM generate_series(1, 24) i")
    assert 20 < float(rows[0][0]) < 21, rows
    for kind, first, attempt, seconds in [("a", "0.5", 2, 8), ("b", "'Infinity'", 3, 31536000), ("c", "1e300", 30, 31536000)]:
        it.sql(f"INSERT INTO jobs_kinds (kind, first_delay) VALUES ('{kind}', {first})")
        assert it.number(f"SELECT extract(epoch FROM jobs_delay({attempt}, '{kind}'))") == seconds, kind
    say("25 attempts take 20 days, and no kind has a delay that can't be counted")


if __name__ == "__main__":
    cases = [sorts, many_kinds, silent, ends, cancelled, changed_kind, paused, bounded, bounded_effects]
    run_cases([*cases, long_names, odd_rows, pruned, delays])
