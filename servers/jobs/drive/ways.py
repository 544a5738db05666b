"""The ways to the database and to a worker: passwords, a pooler, and a standby that is promoted."""
import contextlib
import os
import shutil
import subprocess
import time

from cluster import EFFECT, HANG, WAIT, Cluster, empty, end, exactly_once, free_port, run, run_cases, say, wait_for
from holder import Connection, Holder


def password(it):
    """Holders have to say a password before all else."""
    file = it.room / "password"
    file.write_text("open sesame\nand no more\n")
    _, address = it.serve("--password-file", str(file))
    it.enqueue(3)
    asks = Connection(address)
    for words, said in [
        (["JOBS.TAKE", 1], "NOAUTH"),
        (["JOBS.DONE", 1, 1], "NOAUTH"),
        (["AUTH", "open"], "WRONGPASS"),
        (["PING"], "NOAUTH"),
        (["AUTH", "default", "open sesame"], "OK"),
        (["PING"], "PONG"),
    ]:
        assert asks.call(*words).startswith(said), words
    assert len(asks.call("JOBS.TAKE", 3, "WAIT", WAIT)) >= 1
    # What comes with the password in one go is done after it.
    both = Connection(address).calls([("PING",), ("AUTH", "open sesame"), ("PING",)])
    assert both == ["NOAUTH Authentication required.", "OK", "PONG"], both
    assert "sesame" not in it.logged()
    say("a holder that didn't say the password was refused each word")


def secret(it):
    """The database wants a password, which stands in the environment: nobody else reads it."""
    rules = (it.data / "pg_hba.conf").read_text()
    it.sql("CREATE ROLE guest SUPERUSER LOGIN PASSWORD 'hush7'")
    (it.data / "pg_hba.conf").write_text(f"host all guest 127.0.0.1/32 scram-sha-256\n{rules}")
    it.sql("SELECT pg_reload_conf()")
    url = it.url.replace("jobs@", "guest:hush7@")
    environment = {**os.environ, "JOBS_DATABASE": url}
    worker = it.effect(EFFECT, env=environment, url="")
    it.enqueue(10)
    exactly_once(it, 10)
    said = subprocess.run(["ps", "-ww", "-eo", "args"], capture_output=True, text=True, check=True).stdout
    it.stop("immediate")
    wait_for(lambda: "tried again" in it.logged() or "can't renew" in it.logged())
    it.start()
    it.wait_for_owners(1)
    end(worker)
    for bad, why in [
        (url.replace("hush7", "hush71"), "password authentication failed"),
        (url.replace("/postgres", "/nowhere"), "nowhere"),
        (f"{url}?sslmode=hush7", "sslmode"),
        (url.replace("postgres://", "postgre://"), "names no database"),
    ]:
        done = run("status", env={**environment, "JOBS_DATABASE": bad})
        assert done.returncode and why in done.stderr, (bad, done)
        said += done.stdout + done.stderr
    shown = run("status", url=url)
    assert shown.returncode == 2 and "JOBS_DATABASE" in shown.stderr, shown
    seen = [line for line in (said + shown.stderr + it.logged()).splitlines() if "hush7" in line]
    assert not seen, f"the password is seen: {seen}"
    (it.data / "pg_hba.conf").write_text(rules)
    it.sql("SELECT pg_reload_conf()")
    say("the database's password stood in no log, error nor list of processes")


def pooler(it):
    """Debian's pgbouncer: in session mode it serves the workers, in transaction mode it is refused by name."""
    for mode in ("session", "transaction"):
        port, room = free_port(), it.room / mode
        room.mkdir()
        (room / "users").write_text('"jobs" ""\n')
        (room / "ini").write_text(
            f"[databases]\npostgres = host=127.0.0.1 port={it.port}\n[pgbouncer]\nlisten_addr = 127.0.0.1\n"
            f"listen_port = {port}\nunix_socket_dir =\nauth_type = trust\nauth_file = {room}/users\npool_mode = {mode}\n"
        )
        if it.user:
            shutil.chown(room, "postgres")
        with open(room / "log", "wb") as log:
            between = subprocess.Popen([*it.user, shutil.which("pgbouncer"), room / "ini"], stdout=log, stderr=log)
        it.processes.append(between)
        url = f"postgres://jobs@127.0.0.1:{port}/postgres"
        if mode == "session":
            wait_for(lambda: run("status", url=url).returncode == 0)
            worker = it.effect(EFFECT, url=url)
            it.enqueue(2000, spread=2)
            exactly_once(it, 2000)
            end(worker)
        else:
            wait_for(lambda: "Connection refused" not in run("status", url=url).stderr)
            for verb in (["setup"], ["worker", "--effect", EFFECT]):
                done = run(*verb, url=url)
                assert done.returncode == 1 and "pooler in transaction mode" in done.stderr, done
        between.terminate()
        between.wait(HANG)
    say("2,000 jobs were done through a pooler in session mode; in transaction mode it was refused")


def standby(first, room):
    """A second server, which follows the first and has all that it has said is done."""
    second = Cluster.__new__(Cluster)
    second.__dict__.update(first.__dict__)
    second.port, second.data = free_port(), room / "standby"
    second.url = f"postgres://jobs@127.0.0.1:{second.port}/postgres"
    second.options = first.options.replace(f"port={first.port}", f"port={second.port}")
    name = f"host=127.0.0.1 port={first.port} user=jobs application_name=second"
    first.as_user("pg_basebackup", "-D", second.data, "-R", "-X", "stream", "-d", name)
    second.start()
    first.sql("ALTER SYSTEM SET synchronous_standby_names = 'second'")
    first.sql("SELECT pg_reload_conf()")
    wait_for(lambda: first.sql("SELECT sync_state FROM pg_stat_replication") == [["sync"]])
    return second


def failover(it):
    """The primary is stopped hard in the middle, and its standby promoted: each job is done once."""
    second = standby(it, it.room)
    with contextlib.ExitStack() as stack:
        stack.callback(lambda: second.stop("immediate"))
        both = f"postgres://jobs@127.0.0.1:{it.port},127.0.0.1:{second.port}/postgres"
        workers = [it.spawn("worker", "--name", f"w{number}", "--effect", EFFECT, url=both) for number in range(2)]
        it.wait_for_owners(2)
        it.enqueue(10000, spread=12)
        time.sleep(4)
        it.stop("immediate")
        time.sleep(1)
        begun = time.time()
        it.as_user("pg_ctl", "-D", second.data, "-w", "promote")
        exactly_once(second, 10000)
        after = f"SELECT extract(epoch FROM min(started)) FROM jobs WHERE started > to_timestamp({begun})"
        back = second.number(after) - begun
        end(*workers)
        # Leases on the new primary: what holders were told stands there.
        empty(second)
        address = f"127.0.0.1:{free_port()}"
        worker = it.spawn("worker", "--listen", address, url=both)
        second.wait_for_owners(1)
        second.enqueue(5)
        Holder([address]).take(5)
        end(worker)
    it.start()
    say(f"the standby was promoted in the middle of 10,000 jobs: each done once, the first {back:.1f} s after it")


if __name__ == "__main__":
    run_cases([password, secret, pooler])
    run_cases([failover], ["wal_level=replica", "max_wal_senders=4"])
