"""What does harm, and what stalls.

Clocks that are wrong, great payloads, floods, clients that say nonsense, rows that others have locked: whoever isn't
concerned goes on, and whoever is does so soon after it.
"""
import contextlib
import glob
import os
import signal
import socket
import tempfile
import threading
import time

from cluster import EFFECT, HANG, LONG, MANY, WAIT, cluster, done, empty, end, exactly_once, held, kill, lateness
from cluster import run_cases, say, wait_for
from holder import GONE, Connection, Holder, Refusal, packed, replaced
from links import Wire

MEBIBYTE = 1 << 20
# Jobs whose payloads go through a socket piece by piece.
LARGE = (
    "INSERT INTO jobs (payload) SELECT (SELECT string_agg(md5((i * j)::text), '') FROM generate_series(1, 10000) j) "
    "FROM generate_series(1, {}) i"
)


def shifted(**more):
    """The environment of a process whose clock of the day isn't this machine's."""
    library = glob.glob("/usr/lib/*/faketime/libfaketime.so.1")
    assert library, "libfaketime is missing"
    return dict(os.environ, LD_PRELOAD=library[0], DONT_FAKE_MONOTONIC="1", **more)


def stepped_clock():
    """The database's clock is set while jobs run, back and ahead, by up to an hour, beside a worker whose own is wrong: each
    job is done once."""
    with tempfile.NamedTemporaryFile("w+") as told:
        os.chmod(told.name, 0o644)

        def step(shift):
            told.seek(0)
            told.write(f"{shift:<8}")
            told.flush()

        step("+0s")
        with cluster(env=shifted(FAKETIME_TIMESTAMP_FILE=told.name, FAKETIME_NO_CACHE="1")) as it:
            workers = [it.spawn("worker", "--effect", EFFECT, env=env) for env in (None, shifted(FAKETIME="+1h"))]
            it.wait_for_owners(2)
            it.enqueue(4000, spread=20)
            seen = []
            for shift in ("-20s", "+3s", "-3600s", "+5s", "+0s", "+60s"):
                time.sleep(2)
                step(shift)
                before = time.time()
                ours = it.number("SELECT extract(epoch FROM clock_timestamp())") - float(shift[:-1])
                assert before - 1 < ours < time.time() + 1, (shift, ours - before)
                seen.append(f"{it.number('SELECT count(*) FROM effects'):.0f}")
            it.wait_for_number("SELECT count(*) FROM jobs WHERE state = 'done'", 4000)
            rows = it.sql("SELECT count(*), count(DISTINCT job) FROM effects")
            assert rows == [["4000", "4000"]], f"effects, of jobs: {rows}"
            end(*workers)
    say(f"the database's clock was set six times; {', '.join(seen)} of 4,000 jobs were done by then, all once")


def great_payloads(it):
    """A payload of a mebibyte comes whole, and one byte more is refused. Ten holders take 100 of them each: the worker gives
    them out a piece at a time."""
    worker, address = it.serve()
    it.refuses(f"INSERT INTO jobs (payload) VALUES (repeat('x', {MEBIBYTE} + 1))", "violates check constraint")
    it.sql(f"INSERT INTO jobs (payload) SELECT string_agg(chr(97 + (i * 7) % 26), '') FROM generate_series(1, {MEBIBYTE}) i")
    ((id, attempt, _until, payload),) = Connection(address).call("JOBS.TAKE", 1, "WAIT", WAIT)
    assert payload == "".join(chr(97 + (i * 7) % 26) for i in range(1, MEBIBYTE + 1)), "the payload comes as it was"
    assert Connection(address).call("JOBS.DONE", id, attempt) == "OK"
    it.sql("INSERT INTO jobs (payload) SELECT repeat(md5(i::text), 32768) FROM generate_series(1, 300) i")
    asks = [Connection(address) for _ in range(10)]
    for it_asks in asks:
        it_asks.socket.sendall(packed("JOBS.TAKE", 100, "WAIT", WAIT))
    counts = [len(it_asks.reply()) for it_asks in asks]
    assert 1 <= max(counts) <= 5, counts
    with open(f"/proc/{worker.pid}/status") as status:
        most = next(int(line.split()[1]) / 1024 for line in status if line.startswith("VmHWM"))
    assert most < 400, f"{most:.0f} MiB"
    say(f"a mebibyte came whole; ten holders asked for 100 of them: {counts} were given, by {most:.0f} MiB")


def nonsense(it):
    """Clients that say nonsense, and what a web page can send to an address of this machine, harm nobody."""
    _, address = it.serve()
    it.enqueue(10)
    host, port = address.split(":")
    body = b"JOBS.TAKE 10\r\n" + b"".join(b"JOBS.DONE %d 1\r\n" % id for id in range(1, 11))
    for text, said in [
        (b"*1\r\n$99999999\r\n", b"-ERR Protocol error: invalid bulk length"),
        (b"*99999\r\n", b"-ERR Protocol error: invalid multibulk length"),
        (b"x" * 20_000, b"-ERR Protocol error: too big inline request"),
        (b"*40\r\n" + b"$1000\r\n%s\r\n" % (b"x" * 1000) * 20, b"-ERR Protocol error: too big a request"),
        (b"SET a b\r\n", b"-ERR there is no command SET"),
        (b"JOBS.BEAT 1\r\n", b"-ERR wrong arguments of JOBS.BEAT"),
        (b"JOBS.BEAT 12345678 1\r\n", b"-FENCED"),
        (b"JOBS.DONE -5 1\r\n", b"-FENCED"),
        (b"*3\r\n$9\r\nJOBS.BEAT\r\n$1\r\n", b""),
        (b"POST / HTTP/1.1\r\nContent-Type: text/plain\r\n\r\n" + body, b""),
        (b"PUT / HTTP/1.1\r\nHost: 127.0.0.1\r\n\r\n" + body, b""),
    ]:
        with socket.create_connection((host, int(port)), timeout=HANG) as sends:
            got = b""
            # Whoever is closed can't say that it has ended.
            with contextlib.suppress(OSError):
                sends.sendall(text)
                sends.shutdown(socket.SHUT_WR)
            with contextlib.suppress(ConnectionError):
                while piece := sends.recv(1000):
                    got += piece
            assert got.startswith(said) and b"OK" not in got, (text[:30], got)
    assert it.sql("SELECT DISTINCT state, attempt FROM jobs") == [["waiting", "0"]], "a web page did jobs"
    assert Connection(address).call("PING") == "PONG"
    say("clients that say nonsense harmed nobody, and what a web page may send did none of 10 jobs")


def flood(it):
    """Notifications that the trigger didn't send: no session is given up for a job that isn't there."""
    worker = it.effect()
    sessions = "FROM pg_stat_activity WHERE application_name LIKE 'jobs-work%'"
    it.wait_for_number(f"SELECT count(*) {sessions}", 3)
    before = it.sql(f"SELECT pid {sessions} ORDER BY 1")
    told = """
        SELECT pg_notify('jobs_' || 'jobs'::regclass::oid, CASE i % 4 WHEN 0 THEN '*' WHEN 1 THEN repeat('x', 7000) || i
            WHEN 2 THEN (1000000 + i) || ' ' || (extract(epoch FROM clock_timestamp()) * 1000000)::bigint || ' 0 '
            ELSE i || ' 99999999999999999999' END)
        FROM generate_series(1, 2000) i;"""
    stop, sent = threading.Event(), [0]

    def shout():
        while not stop.is_set():
            it.sql(told)
            sent[0] += 2000

    thread = threading.Thread(target=shout)
    thread.start()
    try:
        it.enqueue(5000, spread=5)
        exactly_once(it, 5000)
    finally:
        stop.set()
        thread.join()
    assert it.number("SELECT count(*) FROM jobs WHERE attempt <> 1") == 0 and worker.poll() is None
    assert it.sql(f"SELECT pid {sessions} ORDER BY 1") == before, "a session was given up"
    say(f"{sent[0]} false notifications beside 5,000 jobs: each done once; ms late p50, p99, max: {lateness(it)}")


def taken_away(it):
    """Another has a worker's partitions without its knowing: no word of its holders changes a job any more."""
    worker, address = it.serve("--sessions", "2")
    it.enqueue(30)
    jobs = Holder([address]).take(30)
    connection = Connection(address)
    worker.send_signal(signal.SIGSTOP)
    it.sql("UPDATE jobs_partitions SET owner = 1, term = term + 1, until = now() + interval '1 hour'")
    before = it.sql("SELECT id, state, attempt, lease_until FROM jobs ORDER BY id")
    words = [(word, job.id, 1) for job in jobs for word in ("JOBS.DONE", "JOBS.FAIL", "JOBS.BEAT")]
    connection.socket.sendall(b"".join(packed(*it) for it in words))
    worker.send_signal(signal.SIGCONT)
    replies = [connection.reply() for _ in words]
    accepted = [reply for reply in replies if not isinstance(reply, Refusal) or reply.startswith("FENCED")]
    time.sleep(3)
    assert not [it for it in accepted if isinstance(it, str)], accepted
    assert it.sql("SELECT id, state, attempt, lease_until FROM jobs ORDER BY id") == before, "a job was changed"
    it.sql("UPDATE jobs_partitions SET owner = NULL, until = '-infinity'")
    it.wait_for_owners(1)
    assert set(Connection(address).calls([("JOBS.DONE", job.id, 1) for job in jobs])) == {"OK"}
    say("a worker whose partitions another had taken changed nothing by 90 words of its holders")


def vanished_host(it):
    """A host vanishes while the database sends it 40 MB of jobs."""
    wire = Wire(it.port)
    lost, lost_address = it.serve("--name", "lost", url=wire.url(it.url))
    it.sql(LARGE.format(150))
    wire.left = MEBIBYTE
    Connection(lost_address).socket.sendall(packed("JOBS.TAKE", 50, "WAIT", WAIT))
    wait_for(lambda: not wire.whole.is_set())
    begun = time.monotonic()
    _, address = it.serve("--name", "other")
    given = len(Holder([address]).take(100))
    took = time.monotonic() - begun
    assert not wire.whole.is_set(), "the host is back"
    kill(lost)
    wire.mend()
    say(f"a host vanished while jobs were sent to it; another gave {given}, {took:.1f} s later")


def frozen_host(it):
    """A worker stands still in the middle of a take, and goes on later: the jobs that it gave are given again, and whoever
    has its late answer ends none of them."""
    words = ["--lease", "6000", "--write-every", "1000", *MANY]
    worker, frozen = it.serve("--name", "frozen", *words)
    it.sql(LARGE.format(100))
    asks = Connection(frozen)
    asks.socket.sendall(packed("JOBS.TAKE", 50, "WAIT", WAIT))
    # The rows are taken in the table, and on their way.
    wait_for(lambda: it.number("SELECT count(*) FROM jobs WHERE state = 'running'") > 0, every=0.001)
    worker.send_signal(signal.SIGSTOP)
    begun = time.monotonic()
    _, address = it.serve("--name", "other", *words)
    holder = Holder([address])
    # Others have its jobs while it stands still: nobody waits for it.
    holder.take(60, also=lambda: holder.beat(holder.jobs.values()))
    took = time.monotonic() - begun
    while len(holder.jobs) < 100:
        holder.take(1, also=lambda: holder.beat(holder.jobs.values()))
    assert not replaced(holder.jobs.values(), 6), "a holder that beats is replaced"
    worker.send_signal(signal.SIGCONT)
    try:
        late = asks.reply()
    except GONE:
        # After so long it gives up whoever hasn't read its answer.
        late, asks = [], Connection(frozen)
    late = [] if isinstance(late, Refusal) else late
    first = {(id, attempt) for id, attempt, *_ in late} | {(job.id, 1) for job in holder.jobs.values() if job.attempt > 1}
    said = [asks.call("JOBS.DONE", *it) for it in first]
    assert all(isinstance(word, Refusal) for word in said), said

    def answered():
        """the other worker knows whose the jobs are"""
        said = [holder.connection(address).call("JOBS.DONE", *it) for it in first]
        return [] if any(word.startswith("TRYAGAIN") for word in said) else [said]

    (said,) = wait_for(answered)
    assert all(word.startswith("FENCED") for word in said), said
    holder.end()
    assert done(it) == 100, done(it)
    say(
        f"a worker stood still within a take; another gave what waits {took:.1f} s later, and of {len(late)} jobs in its late "
        "answer none was ended by it"
    )


def locked_rows(it):
    """Somebody has locked three of many jobs and forgot it, in both ways of doing jobs; a worker drains meanwhile."""
    for effect in (True, False):
        empty(it)
        worker, address = (it.effect(EFFECT, "--drain", LONG), "") if effect else it.serve("--drain", LONG)
        it.enqueue(1000, delay=3)
        three = "id - (SELECT min(id) FROM jobs) IN (300, 600, 900)"
        with held(it, f"UPDATE jobs SET due = due + interval '1 ms' WHERE {three}"):
            if effect:
                wait_for(lambda: done(it) >= 997)
            else:
                holder = Holder([address])
                holder.take(900)
                holder.end()
                assert done(it) == 900, done(it)
            begun = time.monotonic()
            worker.terminate()
            assert worker.wait(HANG) == 0, "a worker drains while rows are locked"
            took = time.monotonic() - begun
    say(f"three locked jobs of 1,000 kept no other, and a drain took {took:.1f} s")


def locked_leases(it):
    """The row of one job is locked while 60 beat, and a second worker joins: no beat that was accepted is broken. Then all
    rows are locked when their leases end, which come back after it."""
    it.sql("ALTER ROLE jobs SET lock_timeout = '100ms'")
    words = ["--lease", "6000", "--write-every", "1000", "--lock-timeout", "100"]
    _, address = it.serve(*words)
    it.enqueue(60)
    holder = Holder([address])
    jobs = holder.take(60)
    row = jobs[0].id
    with held(it, f"SELECT FROM jobs WHERE id = {row} FOR UPDATE"):
        holder.beat_for(jobs, 4, 0.3)
        holder.addresses.append(it.serve(*words)[1])
        holder.beat_for(jobs, 6, 0.3)
        assert holder.jobs[row].until < time.time() + 1, "a lease that can't be written is promised"
    holder.beat_for(jobs, 4, 0.3)
    others = [job for job in jobs if job.id != row]
    wrong, lost = replaced(others, 6), sum(bool(job.refused) for job in others)
    assert not wrong, f"{len(wrong)} holders that beat were replaced"
    with held(it, "SELECT FROM jobs FOR UPDATE"):
        wait_for(lambda: it.number("SELECT count(*) FROM jobs WHERE lease_until > now()") == 0)
        time.sleep(1)
    again = Holder(holder.addresses).take(60)
    assert all(job.attempt > 1 for job in again)
    it.sql("ALTER ROLE jobs RESET lock_timeout")
    say(f"with one lease's row locked {59 - lost} of 59 that beat kept theirs; all came back that were locked at their ends")


def old_snapshot(it):
    """A transaction is left open, so that rows that are over stay: the readings don't come to them again and again."""
    it.effect()
    with held(it, "SET TRANSACTION ISOLATION LEVEL REPEATABLE READ", "SELECT count(*) FROM jobs"):
        it.enqueue(150000)
        wait_for(lambda: done(it) == 150000, every=0.5)
        # What was due within a second is read again, and a session tells at most once a second what it has read. A
        # longer wait would hide readings that notifications of jobs that are over still ask for, one after another.
        time.sleep(4)
        it.sql("SELECT pg_stat_reset()")
        read = "SELECT sum(idx_blks_hit + idx_blks_read) FROM pg_statio_user_indexes WHERE indexrelname = 'jobs_waiting'"
        begun = time.monotonic()
        time.sleep(6)
        pages = it.number(read) / (time.monotonic() - begun)
    exactly_once(it, 150000)
    assert pages < 1500, f"{pages:.0f} pages of the index a second"
    say(f"beside an old snapshot and 150,000 jobs that are over, {pages:.0f} pages of the index are read a second")


def old_statistics(it):
    """A table that was filled since it was analyzed: jobs are taken by their ids, and not out of all that is due."""
    it.sql("ALTER TABLE jobs SET (autovacuum_enabled = off); VACUUM ANALYZE jobs")
    it.effect()
    it.enqueue(60000, delay=2, spread=12)
    it.sql("SELECT pg_stat_reset()")
    exactly_once(it, 60000)
    time.sleep(1)
    read = it.number("SELECT sum(idx_tup_read) FROM pg_stat_user_indexes WHERE indexrelname = 'jobs_waiting'") / 60000
    it.sql("ALTER TABLE jobs RESET (autovacuum_enabled)")
    assert read < 20, f"{read:.0f} entries of the index of what waits were read for each job"
    say(f"with old statistics {read:.1f} entries of the index of what waits are read for each job")


if __name__ == "__main__":
    run_cases([nonsense, great_payloads, flood, taken_away, vanished_host, frozen_host])
    run_cases([locked_rows, locked_leases, old_snapshot, old_statistics])
    stepped_clock()
