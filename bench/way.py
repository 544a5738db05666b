"""How long the way of an entry is from its insert to whoever receives it, and how much stands beside what is proved: counts of a tree,
which may be that of another commit, as `git worktree add` makes one. Of public items those count that the default features give.
"""

import pathlib
import re
import subprocess
import sys
import tempfile

BENCH = pathlib.Path(__file__).resolve().parent
TOP = BENCH.parent
sys.path.append(str(TOP / "docs" / "figures"))

import face

# Nothing is inlined, not even what says that it has to be.
RUSTC = ["rustc", "--edition=2021", "-g", "-Cno-prepopulate-passes"]
# A function is told with its row of callers, of which none is as long as that.
GRIND = ["valgrind", "--tool=callgrind", "--separate-callers=200", "--toggle-collect=way::down", "--toggle-collect=way::up"]
VISIBLE = r"(?:pub(?:\([\w ]+\))? )?"
TESTS = re.compile(rf"^#\[cfg\((?:all\()?test\b[^\n]*\]\n{VISIBLE}mod \w+ \{{\n.*?^\}}\n", re.M | re.S)
STRUCT = re.compile(rf"^( *){VISIBLE}struct \w+[^;{{(]*(?:\((.*?)\);$|\{{\n(.*?)^\1\}}$)", re.M | re.S)
STATIC = re.compile(rf"^ *{VISIBLE}static \w+: [^=;]*", re.M)


def run(*command):
    done = subprocess.run([*map(str, command)], stdout=subprocess.PIPE, stderr=subprocess.STDOUT, text=True, check=False)
    if done.returncode:
        sys.exit(f"count: {command[0]} ended with status {done.returncode}:\n{done.stdout}")


def grind(source):
    """What callgrind tells of the life of one entry in a warm queue of a crate."""
    with tempfile.TemporaryDirectory() as folder:
        library, program, told = (f"{folder}/{it}" for it in ("libhontkhale.rlib", "way", "told"))
        whole = "-Awarnings", "--cfg=feature=\"std\"", "--crate-name=hontkhale", "--crate-type=rlib"
        run(*RUSTC, *whole, source / "lib.rs", "-o", library)
        run(*RUSTC, f"--extern=hontkhale={library}", BENCH / "examples" / "way.rs", "-o", program)
        run(*GRIND, f"--callgrind-out-file={told}", program)
        return pathlib.Path(told).read_text(encoding="utf-8")


def called(tree):
    """The crate's own functions that are called: in how many files and layers they are, how many, and how deep their calls go. The
    instances of one count once."""
    source = tree / "rust" / "hontkhale" / "src"
    words, homes, rows, file = {}, {}, [], ""
    for of_callee, kind, number, word in re.findall(r"^(c?)(f[nlie])=(\(\d+\)) ?(.*)$", grind(source), re.M):
        # the number alone stands for a word that was told before
        its = words.setdefault((kind == "fn", number), word)
        if kind == "fl" and not of_callee:
            file = pathlib.Path(its)
        elif kind == "fn" and not of_callee:
            rows.append(its.split("'"))
            homes[rows[-1][0]] = file
    ours = {it: home.relative_to(source) for it, home in homes.items() if source in home.parents}
    modules = {it.parts[0].removesuffix(".rs") for it in ours.values()}
    deepest = lambda mark: max(sum(it in ours for it in row[:row.index(mark)]) for row in rows if mark in row)
    return {"files": len({*ours.values()}), "functions": len(ours), "layers": sum((source / it).is_dir() for it in modules),
            "down": deepest("way::down"), "up": deepest("way::up")}


def text_of(path):
    """A file without its tests and comments."""
    return re.sub(r"(?m)^ *//.*\n", "", TESTS.sub("", path.read_text(encoding="utf-8")))


def code(paths):
    return sum(bool(it.strip()) for path in paths if path.name != "tests.rs" for it in text_of(path).splitlines())


def shared_fields(text):
    """The types of the fields and statics that are an atomic or a lock, but for the lock of the shards."""
    bodies = [body for _, *its in STRUCT.findall(text) for body in its]
    lines = [*(line for body in bodies for line in body.splitlines()), *STATIC.findall(text)]
    its = [it.strip(" ,").rpartition(": ")[2] for it in lines]
    return [it for it in its if re.search(r"\b(?:Atomic\w+|Condvar|RwLock|Mutex)\b(?!<Shard\b)", it)]


def by_sources(tree):
    """What the sources alone tell."""
    source = tree / "rust" / "hontkhale" / "src"
    by_hand = [source / it for it in (tree / "rust" / "eraser" / "written_by_hand").read_text(encoding="utf-8").split()]
    front = [it for it in by_hand if {"delay_queue", "delay_queue.rs"} & {*it.relative_to(source).parts}]
    fields = [it for path in front for it in shared_fields(text_of(path))]
    # by the default features, and once each, by however many paths others have it
    public = face.Face("hontkhale", tree).by_default
    # Before they stood in a file for each function, each edit was a file.
    edits = (it.read_text(encoding="utf-8").count("\nedit: ") or 1 for it in tree.glob("crates/*/edits/*.edit*"))
    return {"by-hand": code([*by_hand, *tree.glob("rust/hontkhale-*/src/**/*.rs")]), "front": code(front),
            "atomics": sum("Atomic" in it for it in fields), "locks": sum("Atomic" not in it for it in fields),
            "public": len(public), "edits": sum(edits), "crates": len([*tree.glob("crates/*/src")])}
