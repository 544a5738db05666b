"""A PostgreSQL cluster of its own in a temporary folder, and the workers that a test starts.

All of them end with it.
"""
import contextlib
import glob
import os
import pathlib
import re
import shutil
import signal
import socket
import subprocess
import sys
import tempfile
import time
import urllib.request

HERE = pathlib.Path(__file__).resolve().parent.parent
sys.path.append(str(HERE.parent / "shared"))
JOBS = str(HERE / "target/release/jobs")
EFFECT = "INSERT INTO effects (job) SELECT id FROM taken"
# More seconds than any machine needs for what is waited for: only a hang meets it.
HANG = 600
# A lease of so many milliseconds ends in no test, nor does a wait.
LONG, WAIT = str(1000 * HANG), "60000"
# A busy machine may let leases end again and again: the jobs stay alive.
MANY = ["--attempts", "1000"]


def say(text):
    """Tells what was seen, behind the name of the driver."""
    print(f"{pathlib.Path(sys.argv[0]).stem}: {text}", flush=True)


def free_port():
    with socket.create_server(("127.0.0.1", 0)) as it:
        return it.getsockname()[1]


def wait_for(what, every=0.05, told=""):
    """What comes true."""
    end = time.monotonic() + HANG
    while not (answer := what()):
        assert time.monotonic() < end, f"not within {HANG} s: {told or what.__doc__ or what.__name__}"
        time.sleep(every)
    return answer


def end(*workers):
    """Has workers drained, which each has to do well."""
    for worker in workers:
        worker.terminate()
    codes = [worker.wait(HANG) for worker in workers]
    assert codes == [0] * len(workers), codes


def kill(process):
    process.kill()
    process.wait()


def run(*words, url=None, env=None):
    """What the program says, and how it ends."""
    database = ["--database", url] if url else []
    return subprocess.run([JOBS, *words, *database], capture_output=True, text=True, env=env, timeout=HANG)


def metrics(port):
    with urllib.request.urlopen(f"http://127.0.0.1:{port}/metrics", timeout=HANG) as answer:
        assert answer.headers["Content-Type"].startswith("text/plain; version=0.0.4"), answer.headers
        return answer.read().decode()


def metric(port, name):
    return float(re.search(rf"^{name} (\S+)$", metrics(port), re.M)[1])


class Cluster:
    def __init__(self, settings=(), env=None):
        self.env = env
        self.room = pathlib.Path(tempfile.mkdtemp(prefix="jobs-"))
        self.port = free_port()
        self.processes = []
        # The server refuses to run as root: there it runs as the user of Debian's package.
        self.user = ["runuser", "-u", "postgres", "--"] if os.geteuid() == 0 else []
        if self.user:
            shutil.chown(self.room, "postgres", "postgres")
        self.data = self.room / "data"
        self.url = f"postgres://jobs@127.0.0.1:{self.port}/postgres"
        self.as_user("initdb", "-D", self.data, "-U", "jobs", "-A", "trust", "-E", "UTF8", "--locale=C")
        paths = [f"unix_socket_directories={self.room}", "listen_addresses=127.0.0.1", f"port={self.port}"]
        sizes = ["shared_buffers=256MB", "max_connections=50", "max_wal_size=4GB"]
        self.options = " ".join(f"-c {it}" for it in [*paths, *sizes, *settings])

    def as_user(self, name, *words, env=None):
        """Runs a program of PostgreSQL's, which Debian keeps beside its version."""
        found = sorted(glob.glob(f"/usr/lib/postgresql/*/bin/{name}"), key=lambda it: int(it.split("/")[4]))
        command = [*self.user, found[-1] if found else name, *map(str, words)]
        # A server that it starts would keep a pipe of this process open.
        with open(self.room / "said", "w") as said:
            done = subprocess.run(command, cwd="/", stdout=said, stderr=said, env=env)
        logs = (self.room / "said", self.room / "log")
        assert not done.returncode, (name, words, *[it.read_text()[-2000:] for it in logs if it.exists()])

    def start(self):
        words = ["-D", self.data, "-w", "-t", "300", "-l", self.room / "log", "-o", self.options, "start"]
        self.as_user("pg_ctl", *words, env=self.env)

    def stop(self, how="fast"):
        self.as_user("pg_ctl", "-D", self.data, "-m", how, "-w", "stop")

    def psql(self, text):
        command = ["psql", "-X", "-q", "-At", "-F", "\t", "-v", "ON_ERROR_STOP=1", self.url]
        return subprocess.run(command, input=text, capture_output=True, text=True, timeout=HANG)

    def sql(self, text):
        """Rows, as lists of texts."""
        done = self.psql(text)
        assert not done.returncode, f"{text}: {done.stderr}"
        return [line.split("\t") for line in done.stdout.splitlines()]

    def number(self, text):
        return float(self.sql(text)[0][0])

    def wait_for_number(self, text, number):
        """A query comes to a number."""
        wait_for(lambda: self.number(text) == number, every=0.2, told=f"{text} is {number}")

    def refuses(self, text, why=""):
        """The tables refuse a statement."""
        done = self.psql(text)
        assert done.returncode and why in done.stderr, (text, done)

    def jobs(self, *words):
        done = run(*words, url=self.url)
        assert not done.returncode, f"jobs {words}: {done.stderr}"
        return done.stdout

    def enqueue(self, count, delay=0, spread=0, table="jobs"):
        """So many jobs that are due after a delay and up to so many seconds later, by statements of a thousand."""
        due = f"clock_timestamp() + ({delay} + random() * {spread}) * interval '1 second'"
        pieces = [min(1000, count - done) for done in range(0, count, 1000)]
        self.sql("".join(f"INSERT INTO {table} (due) SELECT {due} FROM generate_series(1, {it});" for it in pieces))

    def spawn(self, *words, env=None, log=None, url=None, within=()):
        # Without an URL it stands in the environment.
        database = [] if url == "" else ["--database", url or self.url]
        with open(self.room / (log or "workers"), "ab") as out:
            process = subprocess.Popen([*within, JOBS, *words, *database], stdout=out, stderr=out, env=env)
        self.processes.append(process)
        return process

    def effect(self, effect=EFFECT, *words, **more):
        """A worker that has an effect, and owns partitions."""
        worker = self.spawn("worker", "--effect", effect, *words, **more)
        self.wait_for_owners(1)
        return worker

    def serve(self, *words, **more):
        """A worker that serves holders and owns partitions, and its address. Its leases are long where it isn't said."""
        address = f"127.0.0.1:{free_port()}"
        lease = [] if "--lease" in words else ["--lease", LONG]
        worker = self.spawn("worker", "--listen", address, *lease, *words, **more)
        its = f"JOIN jobs_workers w ON w.worker = p.owner AND p.until > now() WHERE w.address = '{address}'"
        owned = f"SELECT count(*) FROM jobs_partitions p {its}"
        wait_for(lambda: worker.poll() is not None or self.number(owned), told="it owns partitions")
        assert worker.poll() is None, "it has ended"
        return worker, address

    def logged(self, log="workers"):
        return (self.room / log).read_text()

    def wait_for_owners(self, workers, partitions=64, schema="public"):
        def all_owned():
            """each partition has an owner, by fair shares"""
            rows = self.sql(f"SELECT count(*) FROM {schema}.jobs_partitions WHERE until > now() GROUP BY owner")
            owned = [int(it[0]) for it in rows]
            return len(owned) == workers and sum(owned) == partitions and max(owned) - min(owned) <= 1

        wait_for(all_owned)

    def close(self):
        for process in self.processes:
            if process.poll() is None:
                # One that was stopped ends, too.
                kill(process)
        with contextlib.suppress(AssertionError):
            self.stop("immediate")
        shutil.rmtree(self.room, ignore_errors=True)


@contextlib.contextmanager
def cluster(settings=(), env=None):
    # A test that is told to end cleans up as one that fails.
    signal.signal(signal.SIGTERM, lambda *_: sys.exit("ended by a signal"))
    it = Cluster(settings, env)
    try:
        it.start()
        it.jobs("setup")
        it.sql("CREATE TABLE effects (job bigint, at timestamptz DEFAULT clock_timestamp())")
        yield it
    except BaseException:
        with contextlib.suppress(OSError):
            print(f"what the workers said last:\n{it.logged()[-3000:]}", file=sys.stderr)
        raise
    finally:
        it.close()


def run_cases(cases, settings=()):
    """Runs cases in one cluster, each with empty tables."""
    with cluster(settings) as it:
        for case in cases:
            empty(it)
            case(it)
            # The workers that are left have to drain. One that has ended unseen has failed.
            end(*(process for process in it.processes if process.returncode is None))


@contextlib.contextmanager
def held(it, *statements):
    """A session in whose open transaction these statements were run."""
    command = ["psql", "-X", "-q", "-At", it.url]
    with subprocess.Popen(command, stdin=subprocess.PIPE, stdout=subprocess.PIPE, text=True) as process:
        process.stdin.write("BEGIN;\n" + "".join(f"{text};\n" for text in statements) + "\\echo locked\n")
        process.stdin.flush()
        while "locked" not in process.stdout.readline():
            assert process.poll() is None, statements
        yield
        process.stdin.close()
        process.wait(HANG)


def empty(it):
    it.sql("TRUNCATE jobs, effects, jobs_kinds, jobs_schedules")


def exactly_once(it, count):
    it.wait_for_number("SELECT count(*) FROM jobs WHERE state = 'done'", count)
    rows = it.sql(
        "SELECT count(*), count(DISTINCT job), "
        "(SELECT count(*) FROM effects e JOIN jobs j ON j.id = e.job WHERE e.at < j.due) FROM effects"
    )
    assert rows == [[str(count), str(count), "0"]], f"effects, of jobs, early: {rows}"


def lateness(it):
    """The 50th and 99th percentile and the worst, in milliseconds."""
    late = "round(1000 * extract(epoch FROM started - due), 1)"
    centiles = f"percentile_disc(ARRAY[0.5, 0.99, 1]) WITHIN GROUP (ORDER BY {late})"
    return it.sql(f"SELECT array_to_string({centiles}, ' ') FROM jobs WHERE attempt = 1")[0][0]


def done(it, where="true"):
    return it.number(f"SELECT count(*) FROM jobs WHERE state = 'done' AND {where}")
