"""Whose fault an error is: one bad job, kind or schedule stops no other, and is told of.

The faults of jobs are raised by an effect, those of schedules by a trigger, and by rows that the table couldn't refuse.
"""
import contextlib
import time

from cluster import EFFECT, done, empty, exactly_once, free_port, held, metric, run_cases, say, wait_for

# One of each class of errors that PostgreSQL knows.
CODES = """01000 02000 03000 08001 09000 0A000 0B000 0F000 0L000 0P000 0Z000 10608 20000 21000 22012 23505 24000 25006
26000 27000 28000 2B000 2D000 2F000 34000 38000 39000 3B000 3D000 3F000 40001 40P01 42P01 44000 53100 54001 55P03 55000
57014 57P01 57P03 58030 72000 F0000 HV000 P0001 XX000""".split()
EACH = f"unnest(string_to_array('{' '.join(CODES)}', ' ')) code"
ACT = """
CREATE OR REPLACE FUNCTION act(job bigint, what text) RETURNS void LANGUAGE plpgsql AS $$
BEGIN
    IF what ~ '^[0-9A-Z]{5}$' THEN
        RAISE EXCEPTION 'thrown' USING ERRCODE = what;
    ELSIF what = 'end' THEN
        PERFORM pg_terminate_backend(pg_backend_pid());
    ELSIF what = 'crash' THEN
        EXECUTE format('COPY (SELECT 1) TO PROGRAM %L', 'kill -9 ' || pg_backend_pid());
    ELSIF what LIKE 'class %' THEN
        PERFORM substr(what, 7)::regclass;
    END IF;
    INSERT INTO effects (job) VALUES (job);
END
$$;
CREATE OR REPLACE FUNCTION throw() RETURNS trigger LANGUAGE plpgsql AS $$
BEGIN
    RAISE EXCEPTION 'thrown' USING ERRCODE = NEW.payload;
END
$$;
CREATE OR REPLACE TRIGGER throw BEFORE INSERT ON jobs FOR EACH ROW WHEN (NEW.kind = 'thrown') EXECUTE FUNCTION throw()"""
ACTS = "SELECT act(id, payload) FROM taken"


def states(it):
    """How many jobs of each payload are in each state, by so many attempts. None while the database is away."""
    with contextlib.suppress(AssertionError):
        return it.sql("SELECT payload, state, attempt, count(*) FROM jobs GROUP BY 1, 2, 3 ORDER BY 1, 2")
    return None


def among(it, bad, count, of, attempts=2):
    """So many bad jobs among others: the bad ones are dead after their attempts, and each other is done once."""
    it.sql(
        f"INSERT INTO jobs (due, payload, attempts) SELECT now() + interval '300 ms', CASE WHEN i <= {count} "
        f"THEN '{bad}' ELSE '' END, CASE WHEN i <= {count} THEN {attempts} END FROM generate_series(1, {of}) i"
    )

    def settled():
        """the good jobs are done, and the bad ones dead"""
        good, wrong = ["", "done", "1", str(of - count)], [bad, "dead", str(attempts), str(count)]
        return states(it) == [good, wrong]

    wait_for(settled)
    rows = it.sql("SELECT count(*), count(DISTINCT job) FROM effects")
    assert rows == [[str(of - count)] * 2], rows
    empty(it)


def codes(it):
    """Each class of errors, thrown by one job of 200."""
    it.sql(ACT)
    it.effect(ACTS)
    # That it met a lock is a job's fault where it is minutes late.
    it.sql(
        "INSERT INTO jobs (due, payload, attempts) SELECT now() - interval '10 minutes', CASE i WHEN 1 THEN code ELSE '' "
        f"END, 1 FROM {EACH}, generate_series(1, 200) i"
    )
    wrong = [[code, "dead", "1", "1"] for code in sorted(CODES)]
    wait_for(lambda: states(it) == [["", "done", "1", str(199 * len(CODES))], *wrong])
    told = it.sql("SELECT payload FROM jobs WHERE state = 'dead' AND NOT error LIKE '%(' || payload || ')%'")
    assert not told, f"another error is told of {told}"
    empty(it)
    for bad, count, of in [("class nothing", 60, 100), ("08001", 3, 1600), ("40001", 3, 1600)]:
        among(it, bad, count, of, attempts=1)
    say(f"{len(CODES)} errors, each thrown by one job of 200, kept none of the others")


def codes_of_schedules(it):
    """Each class of errors, thrown by the job of one schedule of 200, and one that couldn't be refused when it was written."""
    it.sql(f"{ACT}; ALTER TABLE jobs_schedules DROP CONSTRAINT jobs_schedules_fit")
    port = free_port()
    it.effect(EFFECT, "--metrics", f"127.0.0.1:{port}")
    it.sql(
        "INSERT INTO jobs_schedules (name, cron, kind, payload) SELECT code || i, '@yearly', CASE i WHEN 1 THEN 'thrown' "
        f"ELSE '' END, code FROM {EACH}, generate_series(1, 200) i; "
        "INSERT INTO jobs_schedules (name, cron, kind) VALUES ('bad', '@yearly', 'a b'); "
        "UPDATE jobs_schedules SET next = now() - interval '1 minute'"
    )
    wait_for(lambda: done(it) == 199 * len(CODES) and metric(port, "jobs_schedules_overdue") == len(CODES) + 1)
    left = it.sql("SELECT DISTINCT kind FROM jobs_schedules WHERE next < now() ORDER BY 1")
    assert left == [["a b"], ["thrown"]], left
    say(f"{len(CODES)} errors, each thrown by one schedule of 200, and a bad one kept none of the others")


def lost_session(it):
    """A job whose effect ends its session, and one that crashes the database, have failed an attempt."""
    it.sql(ACT)
    it.effect(ACTS)
    among(it, "end", 1, 100)
    among(it, "crash", 1, 100, attempts=1)
    say("a job that ended its session and one that crashed the database are dead, and 198 others done")


def settings(it):
    """What an effect sets of its session harms no job after it."""
    it.sql("CREATE ROLE other; GRANT INSERT ON effects TO other")
    it.sql(
        "CREATE FUNCTION settle(job bigint, what text) RETURNS void LANGUAGE plpgsql AS $$ BEGIN "
        "IF what <> '' THEN PERFORM set_config(split_part(what, '=', 1), split_part(what, '=', 2), false); END IF; "
        "INSERT INTO public.effects (job) VALUES (job); END $$"
    )
    it.jobs("setup", "--schema", "others")
    it.effect("SELECT settle(id, payload) FROM taken")
    paths, limits = ["search_path=nowhere", "search_path=others, public"], ["statement_timeout=1"]
    for what in [*paths, "role=other", "default_transaction_read_only=on", *limits]:
        empty(it)
        # More of them than the worker has sessions, one after another.
        for number in range(1, 13):
            it.sql(f"INSERT INTO jobs (payload) VALUES ('{what}')")
            wait_for(lambda: done(it) == number)
        it.enqueue(300, spread=1)
        exactly_once(it, 312)
    say("300 jobs were done after some whose effects had set the path, the role or the limits of all sessions")


def lock(it):
    """A lock that somebody forgot costs the job that waits for it no attempt, until it is minutes late."""
    it.sql("CREATE TABLE accounts (id integer PRIMARY KEY); INSERT INTO accounts VALUES (1), (2)")
    effect = "UPDATE accounts SET id = accounts.id FROM taken WHERE accounts.id = payload::int"
    it.effect(effect, "--lock-timeout", "100", log="lock")
    with held(it, "SELECT FROM accounts FOR UPDATE"):
        it.sql("INSERT INTO jobs (due, payload, attempts) VALUES (now(), 1, 1), (now() - interval '10 minutes', 2, 1)")

        def waits():
            """the one has met the lock again and again, and the other is dead"""
            rows = [["1", "waiting", "0", "1"], ["2", "dead", "1", "1"]]
            return it.logged("lock").count("(55P03)") > 4 and states(it) == rows

        wait_for(waits)
    it.wait_for_number("SELECT count(*) FROM jobs WHERE state = 'done' AND payload = '1' AND attempt = 1", 1)
    say("a job that met a lock again and again was done after it by its first attempt")


def broken_effect(it):
    """An effect with a slip isn't begun; one whose table is gone for a while makes no job dead."""
    it.enqueue(200)
    worker = it.spawn("worker", "--effect", EFFECT.replace("effects", "efects"), "--attempts", "1")
    assert worker.wait() == 1 and "efects" in it.logged(), "an effect that can't be prepared is refused at the start"
    it.effect(EFFECT, "--attempts", "1", log="gone")
    wait_for(lambda: done(it) == 200)
    it.sql("ALTER TABLE effects RENAME TO gone; TRUNCATE jobs")
    it.enqueue(100)
    wait_for(lambda: it.logged("gone").count("the effect can't be had") > 4)
    assert it.sql("SELECT DISTINCT state, attempt FROM jobs") == [["waiting", "0"]], "no job is at fault"
    it.sql("ALTER TABLE gone RENAME TO effects")
    wait_for(lambda: done(it, "attempt = 1") == 100)
    say("a slip in an effect, and a table that was gone for a while, cost no job an attempt")


def schedules(it):
    """A bad schedule is refused when it is written, and so many of one moment are enqueued."""
    for column, value in [
        ("kind", "'a b'"),
        ("payload", "repeat('x', 1048577)"),
        ("zone", "'Nowhere'"),
        *[("cron", f"'{it}'") for it in ("@soon", "* * * *", "60 * * * *", "0 0 30 2 *", "x * * * *")],
    ]:
        row = {"name": "'bad'", "cron": "'* * * * *'", column: value}
        it.refuses(f"INSERT INTO jobs_schedules ({', '.join(row)}) VALUES ({', '.join(row.values())})")
    it.effect()
    other_hour = (time.gmtime().tm_hour + 12) % 24
    it.sql(f"INSERT INTO jobs_schedules (name, cron) SELECT i, '0 {other_hour} * * *' FROM generate_series(1, 6000) i")
    it.sql("UPDATE jobs_schedules SET next = now()")
    begun = time.monotonic()
    wait_for(lambda: done(it) == 6000)
    took = time.monotonic() - begun
    say(f"bad schedules were refused; 6,000 of one moment had their jobs done {took:.1f} s after it")


def times(it):
    """The time of a schedule after another: names of days and months, and what comes twice in autumn."""
    for cron, zone, since, expected in [
        ("*/15 * * * *", "UTC", "2026-01-01 10:07Z", "2026-01-01 10:15Z"),
        ("30 2 * * 1-5", "UTC", "2026-01-02 03:00Z", "2026-01-05 02:30Z"),
        ("0 9 1,15 * 7", "UTC", "2026-01-01 10:00Z", "2026-01-04 09:00Z"),
        ("0 8 29 2 *", "Europe/Berlin", "2026-03-01 00:00Z", "2028-02-29 07:00Z"),
        ("5 0 * * *", "Asia/Tokyo", "2026-06-01 15:05Z", "2026-06-02 15:05Z"),
        ("*/20 * * * *", "Europe/Berlin", "2026-10-24 23:40Z", "2026-10-25 00:00Z"),
        ("*/20 * * * *", "Europe/Berlin", "2026-10-25 00:40Z", "2026-10-25 01:00Z"),
        ("* * * * *", "America/New_York", "2026-11-01 05:30Z", "2026-11-01 05:31Z"),
        ("* * * * *", "America/New_York", "2026-11-01 05:59Z", "2026-11-01 06:00Z"),
        ("*/10 * * * *", "Australia/Lord_Howe", "2026-04-04 14:25Z", "2026-04-04 14:30Z"),
        ("*/10 * * * *", "Australia/Lord_Howe", "2026-04-04 14:55Z", "2026-04-04 15:00Z"),
        ("*/10 * * * *", "Antarctica/Troll", "2026-10-24 23:05Z", "2026-10-24 23:10Z"),
        ("*/10 * * * *", "Antarctica/Troll", "2026-10-25 00:05Z", "2026-10-25 00:10Z"),
        ("*/10 * * * *", "Asia/Beirut", "2026-10-24 21:05Z", "2026-10-24 21:10Z"),
        ("30 2 * * *", "Europe/Berlin", "2026-10-24 12:00Z", "2026-10-25 01:30Z"),
        ("30 2 * * *", "Europe/Berlin", "2026-10-25 01:30Z", "2026-10-26 01:30Z"),
        ("*/30 * * * *", "Europe/Berlin", "2026-03-29 00:30Z", "2026-03-29 01:00Z"),
        ("@daily", "UTC", "2026-01-01 10:00Z", "2026-01-02 00:00Z"),
        ("@Weekly", "UTC", "2026-01-01 10:00Z", "2026-01-04 00:00Z"),
        ("0 9 * * MON-fri", "UTC", "2026-01-02 10:00Z", "2026-01-05 09:00Z"),
        ("0 9 * * sat-SUN", "UTC", "2026-01-03 10:00Z", "2026-01-04 09:00Z"),
        ("0 0 1 MAR,JUL *", "UTC", "2026-03-01 00:00Z", "2026-07-01 00:00Z"),
    ]:
        rows = it.sql(f"SELECT next = '{expected}', next FROM jobs_next('{cron}', '{zone}', '{since}') next")
        assert rows[0][0] == "t", (cron, since, rows)
    say("schedules have names, and both hours of autumn")


if __name__ == "__main__":
    run_cases([codes, lost_session, settings, lock, broken_effect, schedules, codes_of_schedules, times])
