"""What stands in the tree: its files and crates, and counts of lines, definitions, tests and edits."""

import collections
import functools
import pathlib
import re
import sys

TOP = pathlib.Path(__file__).resolve().parents[2]
sys.path[:0] = [str(TOP / it) for it in ("tools", "tools/edits")]

import rattle
import source

CRATES = TOP / "crates"
# The tests in plain Rust that name their promises: each file's folder. Those of the first were erased once.
ERASED_ONCE = TOP / "rust" / "hontkhale" / "src" / "tests"
PLAIN = [ERASED_ONCE, *(TOP / "rust" / "hontkhale" / "tests" / it for it in ("slow", "hostile", "generations"))]

# The bench's load, which is no crate of crates.txt: its sources have an ending of their own.
LOAD, LOAD_ENDING = TOP / "bench" / "load", ".rattle"
TEST = re.compile(r"#\[test\]\s*(?:(?:#\[.*\]|//.*)\s*)*(?:pub )?fn (\w+)")
# A row of the table of crates in docs/ARCHITECTURE.md.
ROW = re.compile(r"^\| `(\w+)` \|[^|\n]*\|$", re.M)
# a definition in a module with parameters is indented
DEFINITION = re.compile(r"^( *)(?:pub (?:record|data) |(?:abbrev|unfoldable) pub )([^\s:]+)", re.M)


def text_of(path):
    return path.read_text(encoding="utf-8")


@functools.cache
def files(folder, *endings):
    """The files below a folder that the repository keeps, in order: none of what a build makes."""
    made = {"out", "target", ".git", "__pycache__"}
    found = (it for it in folder.rglob("*") if it.suffix in endings and it.is_file())
    return sorted(it for it in found if not made & set(it.relative_to(TOP).parts))


@functools.cache
def file_of(path):
    return rattle.File(text_of(path))


class Crate:
    """What one crate has."""

    def __init__(self, name, folder=None, ending=".rt"):
        self.name, self.folder = name, folder or CRATES / name
        self.sources = files(self.folder / "src", ending)

    def definitions(self):
        return [(indent, name) for path in files(self.folder / "specs", ".antt") for indent, name in DEFINITION.findall(text_of(path))]

    def edits(self):
        """Its wrong bodies, which `tools/test-edits` tries."""
        return source.edits_of(self.name)

    def words(self):
        """The words before `::` in its code, and the libraries that its contracts and proofs import."""
        paths = [*self.sources, *(it for part in ("specs", "proofs") for it in files(self.folder / part, ".antt"))]
        found = re.findall(r"\b(\w+)::|\bRattle\.(\w+)\.", "".join(map(text_of, paths)))
        return {word for pair in found for word in pair}


@functools.cache
def crates():
    """The crates of crates.txt, and the bench's load."""
    return [*(Crate(it) for it in source.lines_of_crates() if (CRATES / it).is_dir()), Crate("dq_load", LOAD, LOAD_ENDING)]


def erased():
    """The files of the crate hontkhale that are erased from proved ones."""
    folder = TOP / "rust" / "hontkhale" / "src"
    by_hand = {folder / it for it in text_of(TOP / "rust" / "eraser" / "written_by_hand").split()}
    return [it for it in files(folder, ".rs") if it not in by_hand and ERASED_ONCE not in it.parents]


def lines(paths, comment):
    """The lines of files without blank ones and comments."""
    return sum(not it.lstrip().startswith(comment) for path in paths for it in text_of(path).splitlines() if it.strip())


def edits():
    return sum(len(it.edits()) for it in crates())


def tests():
    return sum(text_of(path).count("#[test]") for it in crates() for path in it.sources)


def plain_tests(folders=PLAIN):
    """The names of the tests in plain Rust that name their promises."""
    return [name for folder in folders for it in files(folder, ".rs") for name in TEST.findall(text_of(it))]


def shared_definitions():
    """The names that the specs of more than one crate define, each with its crates."""
    homes = collections.defaultdict(set)
    for crate in crates():
        for _, name in crate.definitions():
            homes[name].add(crate.name)
    return {name: sorted(found) for name, found in sorted(homes.items()) if len(found) > 1}


def listed(text):
    """Each crate of a crates.txt, with what it lists."""
    return {name: libraries for name, (_, libraries) in source.lines_of_crates(text).items()}


def wrong_uses():
    """Pairs of a file and what it says wrongly."""
    ours = listed(text_of(TOP / "crates.txt"))
    load = listed(text_of(LOAD / "crates.line"))
    for crate in crates():
        words = crate.words()
        for part in {**ours, **load}[crate.name]:
            if part not in words:
                yield TOP / "crates.txt", f"{crate.name} lists {part}, which none of its sources names"
    page = text_of(TOP / "docs" / "ARCHITECTURE.md").partition("## The crates")[2].partition("\n## ")[0]
    for crate in sorted(set(ours) ^ set(ROW.findall(page))):
        yield TOP / "docs" / "ARCHITECTURE.md", f"its table and crates.txt don't both have `{crate}`"
    for block in re.findall(r"^```text\n(dq_ticks:.*?)^```", text_of(TOP / "docs" / "PARTS.md"), re.M | re.S):
        for crate, parts in listed(block).items():
            if crate in ours and parts != ours[crate]:
                yield TOP / "docs" / "PARTS.md", f"its crates.txt has `{crate}:{' '.join(['', *parts])}`, and ours `{' '.join(ours[crate])}`"
