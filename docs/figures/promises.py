"""The tests and the edits of each promise: the last column of crates/PROMISES.md, made of what the tests and the edits say of themselves.

A row of the page begins with the promise's name, as `wheel.advance`. An edit has a line `promise: NAME ..`, and a test a
comment `// promise: NAME ..` above its attribute. A row with neither says in its words that the promise is `proved alone`,
or so `by inspection`.
"""

import re

import tree
from tree import TOP, files, text_of

PAGE = TOP / "crates" / "PROMISES.md"
ROW = re.compile(r"^(\| ([a-z]+\.[\w-]+) \|.*\|) [^|\n]*\|$", re.M)
OF_TEST = re.compile(r"// promise: (.*)\n\s*" + tree.TEST.pattern)
ALONE = re.compile(r"proved alone|by inspection", re.I)


def tests():
    """Each test that has to name its promise, or does: its file, its name, and what it names."""
    ours = [path for it in tree.crates() for path in it.sources] + [it for folder in tree.PLAIN for it in files(folder, ".rs")]
    wanted = {(path, name) for path in ours for name in tree.TEST.findall(text_of(path))}
    paths = {*ours, *(it for part in ("src", "tests") for it in files(TOP / "rust" / "hontkhale" / part, ".rs"))}
    named = {(path, name): ids.split() for path in paths for ids, name in OF_TEST.findall(text_of(path))}
    return [(path, name, named.get((path, name), [])) for path, name in sorted(wanted | named.keys())]


def filled(text):
    """The page with its last column made anew, and the faults: each file, and what it says of no promise."""
    edits = [(it.home, it.name, it.promises) for crate in tree.crates() for it in crate.edits()]
    carriers, faults = {found[2]: ([], []) for found in ROW.finditer(text)}, []
    for place, its in enumerate((tests(), edits)):
        for path, name, promises in its:
            if not promises:
                faults.append((path, f"{name} names no promise"))
            for it in promises:
                if it not in carriers:
                    faults.append((path, f"{name} names the promise {it}, which crates/PROMISES.md hasn't"))
                elif name not in carriers[it][place]:
                    carriers[it][place].append(name)

    def row(found):
        told = "; ".join(", ".join(f"`{it}`" for it in sorted(its)) for its in carriers[found[2]] if its)
        if not told and not ALONE.search(found[1]):
            faults.append((PAGE, f"{found[2]} has no test and no edit, and says neither `proved alone` nor `by inspection`"))
        return f"{found[1]} {told} |" if told else f"{found[1]} |"

    return ROW.sub(row, text), faults
