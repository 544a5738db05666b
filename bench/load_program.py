"""Our load program, `dq_load`: its sources in load/, and the tree outside of the repository where it is proved and built.

The sources have the ending .rattle, and load/crates.line is the program's line of a crates.txt, since `rt ci` would
prove whatever stands in crates/ under .rt. The tree lies in the user's cache folder. It has the program under the names
that rt wants, the crates of the repository, and what rt made of them, so that a second run proves what changed.
"""

import hashlib
import os
import pathlib
import re
import shutil
import subprocess

TOP = pathlib.Path(__file__).resolve().parents[1]
SOURCES = TOP / "bench" / "load"
NAME = "dq_load"
# A clone has a folder of its own, so that two of them don't work in one.
CLONE = hashlib.sha256(os.fsencode(TOP)).hexdigest()[:8]
TREE = pathlib.Path(os.environ.get("XDG_CACHE_HOME") or pathlib.Path.home() / ".cache") / f"hontkhale-load-{CLONE}"
PROGRAM = TREE / "crates" / NAME / "out" / NAME


def lay_out():
    """Lays the sources out anew, and leaves what rt made of them."""
    TREE.mkdir(parents=True, exist_ok=True)
    lines = [it.read_text(encoding="utf-8") for it in (TOP / "crates.txt", SOURCES / "crates.line")]
    (TREE / "crates.txt").write_text("".join(lines), encoding="utf-8")
    shutil.copy(TOP / "HANDLES", TREE)
    for home in [SOURCES, *(it.parent for it in (TOP / "crates").glob("*/src"))]:
        to = TREE / "crates" / (NAME if home == SOURCES else home.name)
        for part in ("src", "specs", "proofs"):
            shutil.rmtree(to / part, ignore_errors=True)
            if (home / part).is_dir():
                shutil.copytree(home / part, to / part)
    for path in (TREE / "crates" / NAME / "src").glob("*.rattle"):
        path.rename(path.with_suffix(".rt"))


def build():
    """Proves and builds the program, and runs it without arguments: what went wrong, if anything did."""
    lay_out()
    done = subprocess.run(["rt", "run"], cwd=TREE / "crates" / NAME, capture_output=True, text=True, check=False)
    if done.returncode:
        return f"{done.stderr}\nour load program isn't proved, or its run fails"
    is_stored = done.stdout == (SOURCES / "stdout").read_text(encoding="utf-8")
    return "" if is_stored else "our load program prints something else than bench/load/stdout has"


def faults():
    """Tells which modules aren't there, and which files none names."""
    texts = {it.stem: it.read_text(encoding="utf-8") for it in (SOURCES / "src").glob("*.rattle")}
    named = {it for text in texts.values() for it in re.findall(r"^ *(?:pub(?:\([a-z]+\))? )?mod (\w+);", text, re.M)}
    return [f"{it} is a module that isn't there, or a file that none names" for it in sorted(named ^ (texts.keys() - {"main"}))]
