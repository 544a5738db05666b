#!/usr/bin/env python3
"""Tries the gate itself: that it counts what its parts count, and that a wrong body that isn't refused fails it by name.

usage: .ci/planted.py [gate | draw | fields | edits]     (all, if none is named)

  gate    `.ci/gate.py` over parts that only say what they are told to; takes a second
  draw    which wrong bodies `.ci/gate.py` has tried, over a repository of two crates that hold nothing else; takes seconds
  fields  which fields of a planted file `bench/count --way` counts as atomics and locks; takes no time
  edits   `tools/test-edits` over the small crate in .ci/planted, with edits planted; takes minutes, and wants the kit

Each case is told with what went wrong. The status is 1 where one did.
"""

import os
import pathlib
import re
import shutil
import subprocess
import sys
import tempfile
import tomllib

sys.dont_write_bytecode = True
TOP = pathlib.Path(__file__).resolve().parent.parent
sys.path.append(str(TOP / "bench"))

import way

# A function that isn't proved with the second text.
LEN, WRONG_LEN = "self.handles.len()\n", "let most = self.most; most\n"
BY_NO_GOAL = "REFUSED BY NO GOAL OF THE RIGHT BODY"
REFUSED_TOO = "test-edits: small: a right body is refused too, as idle::Idle::len_right1: nothing is known of its edits"
SAID = {"stdout": subprocess.PIPE, "stderr": subprocess.STDOUT, "encoding": "utf-8", "check": False}
# What a part says in whose place a script stands; what is asked of test-edits is what it says in the cases of the draw.
SCRIPT = "#!/usr/bin/env python3\nimport sys\nprint('{}')\nsys.exit({})\n"
ASKED = "import sys\nprint('asked:', *(it for it in sys.argv[1:] if '/' in it))\nprint('1 passed, 0 failed')\n"

# A file of `DelayQueue`'s, and the types of its fields that count.
FRONT = """
static NEXT: AtomicU32 = AtomicU32::new(1);

pub(crate) struct Shared<T> {
    shards: Box<[Mutex<Shard<T>>]>,
    pub(crate) makes: Mutex<Clerk<OpenWords>>,
    /// No field: Mutex<T>,
    left: [AtomicU64; 2],
    held: MutexGuard<'static, T>,
}

struct Waiting(Condvar);

fn raise(most: &AtomicUsize, it: Shared<u8>) {
    let more = Mutex::new(it);
}

#[cfg(test)]
mod tests {
    static SEEN: AtomicBool = AtomicBool::new(false);
}
"""
COUNTED = ["AtomicU32", "Condvar", "Mutex<Clerk<OpenWords>>", "[AtomicU64; 2]"]


def lay_out_gate(folder, parts):
    """The gate over parts that say these, and end with a status."""
    parts = {**dict.fromkeys(("docs/check", "c/generate", "rt"), ("", 0)), **parts}
    for name, how in parts.items():
        path = folder / ("bin/rt" if name == "rt" else name)
        path.parent.mkdir(parents=True, exist_ok=True)
        path.write_text(SCRIPT.format(*how), encoding="utf-8")
        path.chmod(0o755)
    (folder / ".ci").mkdir()
    shutil.copy(TOP / ".ci" / "gate.py", folder / ".ci")


def run_gate(folder, *words):
    path = f"{folder / 'bin'}{os.pathsep}{os.environ['PATH']}"
    return subprocess.run(["python3", ".ci/gate.py", *words], cwd=folder, env={**os.environ, "PATH": path}, **SAID)


def gates():
    """The cases of the gate, each with what went wrong."""
    known = tomllib.loads((TOP / ".ci" / "planted" / "gates.toml").read_text(encoding="utf-8"))
    for case in known["case"]:
        parts = case.get("parts", {})
        with tempfile.TemporaryDirectory(prefix="planted-") as folder:
            lay_out_gate(pathlib.Path(folder), {**known["well"], **parts})
            ran = run_gate(pathlib.Path(folder))
        said = ran.stdout.splitlines()
        wrong = [f"the last line is {said[-1]}"] * (said[-1] != case["last"])
        wrong += [f"the status is {ran.returncode}"] * (ran.returncode != case["status"])
        wrong += [f"no line is {case['line']}"] * (case["line"] not in said)
        yield ", ".join(f"{name} says `{says}` and ends with {status}" for name, (says, status) in parts.items()) or "all is well", wrong


class Repository:
    """A repository of two crates that have nothing but wrong bodies, and the gate over parts that say nothing."""

    def __init__(self, folder):
        self.folder, self.stored = folder, folder / "bench" / "results" / "gate.tsv"
        lay_out_gate(folder, dict.fromkeys(("rt", "tools/test-edits", "rust/test", "bench/count"), ("1 passed, 0 failed", 0)))
        (folder / "tools" / "test-edits").write_text(ASKED, encoding="utf-8")
        self.edits = {crate: [f"{crate}/wrong_{number}" for number in range(8)] for crate in ("one", "two")}
        for crate, its in self.edits.items():
            path = folder / "crates" / crate / "edits" / "lib.edits"
            path.parent.mkdir(parents=True)
            path.write_text("".join(f"edit: {it.partition('/')[2]}\npromise: {crate}.row\n\n" for it in its), encoding="utf-8")
        self.stored.parent.mkdir(parents=True)
        self.git("init", "-q")
        self.commit()

    def git(self, *words):
        who = ["-c", "user.name=planted", "-c", "user.email=planted", "-c", "commit.gpgsign=false"]
        subprocess.run(["git", *who, *words], cwd=self.folder, check=True, stdout=subprocess.DEVNULL)

    def commit(self):
        self.git("add", "-A")
        self.git("commit", "-q", "--allow-empty", "-m", "planted")

    def change(self, path):
        (self.folder / path).parent.mkdir(exist_ok=True)
        with (self.folder / path).open("a", encoding="utf-8") as file:
            file.write("changed")

    def forms(self):
        """The forms of the gate of which something is stored."""
        return {it.split("\t")[0] for it in self.stored.read_text(encoding="utf-8").splitlines()[1:]}

    def asks(self, *words):
        """The wrong bodies that a run asks for, a row for each time that it does, none for all."""
        said = run_gate(self.folder, *words).stdout.splitlines()
        return [it.split()[1:] for it in said if it.startswith("asked:")]

    def asked(self, *words):
        """The same of a run that asks once."""
        its = self.asks(*words)
        return its[0] if len(its) == 1 else [f"it asked {len(its)} times"]

    def asks_for_all(self):
        """Whether a whole run asks for one of each row, and then for all others."""
        its = self.asks("--all", "--store")
        return [len(it) for it in its] == [2, 14] and sorted(sum(its, [])) == sum(self.edits.values(), [])


def draws(its):
    """Each case of the draw, and whether it is as it has to be."""
    one, two = its.edits.values()
    yield "all, where no whole run is stored", its.asked() == []
    yield "one for each row and then all others, by --all", its.asks_for_all()
    its.commit()
    drawn = its.asked()
    yield "one for each row", [it.partition("/")[0] for it in drawn] == ["one", "two"]
    yield "the same for the same commit", its.asked() == drawn
    yield "none by a run that isn't whole and is to store what it took", its.asks("--store") == []
    yield "of both forms what they took is stored", its.forms() == {".ci/run", ".ci/run --all"}
    others = []
    for _ in range(8):
        its.commit()
        others.append(its.asked())
    yield "not the same for each commit", any(it != drawn for it in others)
    yield "one for each row, at each commit after a stored run", all(len(it) == 2 for it in others)
    its.change("crates/one/src/lib.rt")
    yield "all of a crate that has a new file", its.asked()[:-1] == one
    its.commit()
    yield "all of a crate that changed in a commit", its.asked()[:-1] == one
    its.change("crates/two/edits/lib.edits")
    yield "all of both, where an edit of the other changed", its.asked() == one + two
    yield "all others too, by --all, of a tree that isn't a commit's", its.asks_for_all()
    its.commit()
    yield "all, where the whole run was of no commit", its.asked() == []
    its.asks("--all", "--store")
    yield "one for each row again", len(its.asked()) == 2
    its.change("tools/source.py")
    yield "all, where what tries them changed", its.asked() == []
    its.commit()
    before = its.stored.read_text(encoding="utf-8")
    (its.folder / "rust" / "test").write_text(SCRIPT.format("1 passed, 1 failed", 1), encoding="utf-8")
    its.asks("--all", "--store")
    yield "nothing is stored of a run that failed", its.stored.read_text(encoding="utf-8") == before
    its.stored.write_text(re.sub(r"\b[0-9a-f]{40}\b", "0" * 40, before), encoding="utf-8")
    yield "all, where the clone hasn't the commit of the whole run", its.asked() == []


def fields():
    """The case of the fields, with what went wrong."""
    with tempfile.NamedTemporaryFile("w", suffix=".rs", encoding="utf-8") as file:
        file.write(FRONT)
        file.flush()
        its = sorted(way.shared_fields(way.text_of(pathlib.Path(file.name))))
    yield "statics and fields, of one line or of more", [f"{its} are counted"] * (its != COUNTED)


def lay_out(folder):
    """A tree of the tools and the small crate alone. Its sources have other endings in .ci/planted, since `rt ci` refuses
    a source of no crate. A planted edit's line `told:` says what it has to come to; it is refused if it has none."""
    shutil.copytree(TOP / "tools", folder / "tools")
    shutil.copy(TOP / "HANDLES", folder)
    (folder / "crates.txt").write_text("small:\n", encoding="utf-8")
    small = shutil.copytree(TOP / ".ci" / "planted" / "small", folder / "crates" / "small")
    for ending, its in ((".rattle", ".rt"), (".specs", ".antt")):
        for path in small.rglob(f"*{ending}"):
            path.rename(path.with_suffix(its))
    return small


def told_of(folder):
    """What each edit of a folder has to come to."""
    texts = "".join(it.read_text(encoding="utf-8") for it in folder.glob("*.edits"))
    return dict(re.findall(r"^edit: (\w+)\n(?:told: (.*))?", texts, re.M))


def tried(folder, words, told, line="test-edits: "):
    """What went wrong where test-edits tries these: of each edit what it has to tell, a line that it has, the counts."""
    ran = subprocess.run(["python3", "tools/test-edits", *words], cwd=folder, **SAID)
    lost = {it: how for it, how in told.items() if how}
    last = f"{len(told) - len(lost)} passed, {len(lost)} failed"
    wrong = [f"no line tells {how} of {it}" for it, how in lost.items() if f"test-edits: {how}: small/{it}:" not in ran.stdout]
    named = [it for it, how in told.items() if not how and f": small/{it}:" in ran.stdout]
    wrong += [f"{it} counts as failed" for it in named] + [f"no line is {line}"] * (line not in ran.stdout)
    wrong += [f"the last line doesn't count {last}"] * (not ran.stdout.rstrip().endswith(f": {last}"))
    wrong += [f"the status is {ran.returncode}"] * (ran.returncode != bool(lost))
    return wrong + ([f"it said:\n{ran.stdout}"] if wrong else [])


def draw():
    """The cases of the draw, each with what went wrong."""
    with tempfile.TemporaryDirectory(prefix="planted-") as folder:
        yield from ((what, [] if is_right else ["WRONG"]) for what, is_right in draws(Repository(pathlib.Path(folder))))


def edits():
    """The cases of the edits, each with what went wrong."""
    with tempfile.TemporaryDirectory(prefix="planted-") as room:
        small = lay_out(pathlib.Path(room))
        told, later = told_of(small / "edits"), told_of(small / "later")
        one, half, beside = "put_hands_back_with_room", "len_of_half", "put_beside_a_wrong_len"
        yield "with those planted", tried(room, ["-j", "2"], told)
        yield "one by its name", tried(room, [f"small/{one}"], {one: ""})
        yield "with those planted, as in the gate", tried(room, ["--built", "-j", "2"], told)
        yield "by goals of the right bodies", tried(room, ["--goals", "-j", "2"], {**told, "put_is_full_one_early": BY_NO_GOAL})
        # a body that isn't proved, as the crate stands, an edit of it, and one of another function beside it
        source = small / "src" / "idle.rt"
        source.write_text(source.read_text(encoding="utf-8").replace(LEN, WRONG_LEN), encoding="utf-8")
        shutil.copytree(small / "later", small / "edits", dirs_exist_ok=True)
        its = tried(room, ["--built", f"small/{half}"], {half: later[half]}, REFUSED_TOO)
        yield "of a function that isn't proved as it stands", its
        yield "beside a function that isn't proved", tried(room, ["--built", f"small/{beside}"], {beside: later[beside]})


def main():
    tries, failed = {"gate": gates, "draw": draw, "fields": fields, "edits": edits}, 0
    asked = sys.argv[1:] or [*tries]
    if not set(asked) <= set(tries):
        print(__doc__, end="")
        return 2
    for it in asked:
        for what, wrong in tries[it]():
            failed += bool(wrong)
            print(f"{it}: {what}: {'; '.join(wrong) or 'as it has to be'}", flush=True)
    print(f"planted: {failed} cases went wrong")
    return bool(failed)


sys.exit(main())
