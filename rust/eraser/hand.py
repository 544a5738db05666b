"""What no rule turns: the places that are done by hand, and how what has a `requires` is closed."""
import dataclasses
import re
from pathlib import Path

from rattle import Refused

TOP = Path(__file__).resolve().parent.parent.parent
# The file whose edits follow, a file that is left out, what is said of the edits below, an edit, and what is none of these.
LINES = re.compile(r"^@ (?P<file>.*)|^! (?P<out>.*)|^#(?: (?P<said>.*))?|^(?P<old>(?:-.*\n)+)(?P<new>(?:\+.*\n)*)|^(?P<bad>.+)", re.M)


@dataclasses.dataclass
class Edit:
    """Some lines of a file and those in their place, and what is said of them."""

    file: str
    said: str
    line: int
    old: str
    new: str
    is_used: bool = False


class Hand:
    """The list `by_hand`: the files that are left out; for a file, its lines and those that stand in their place."""

    def __init__(self, name="rust/eraser/by_hand"):
        self.name, self.edits, self.left_out = name, [], {}
        text, file, said = (TOP / name).read_text(encoding="utf-8"), "", ""
        for found in LINES.finditer(text):
            line = text.count("\n", 0, found.start()) + 1
            file, said = (found["file"] or file).strip(), found["said"] or said
            if found["out"]:
                self.left_out[found["out"].strip()] = line
            elif found["old"]:
                sides = (re.sub(r"(?m)^[-+] ?", "", found[it]) for it in ("old", "new"))
                self.edits.append(Edit(file, said, line, *sides))
            elif found["bad"]:
                raise Refused(f"{name}: line {line}: neither `@`, `-`, `+` nor `#`")

    def applied(self, path):
        """The text of a file with the edits of the list."""
        name, text = str(path.relative_to(TOP / "crates")), path.read_text(encoding="utf-8")
        for edit in (it for it in self.edits if it.file == name):
            times = text.count(edit.old)
            if times != 1:
                raise Refused(f"crates/{name}: the text of {self.name}, line {edit.line}, stands there {times} times")
            text, edit.is_used = text.replace(edit.old, edit.new), True
        return text

    def leaves_out(self, path):
        return self.left_out.pop(str(path.relative_to(TOP / "crates")), None) is not None

    def all_used(self):
        for name, line in [*self.left_out.items(), *((it.file, it.line) for it in self.edits if not it.is_used)]:
            raise Refused(f"{self.name}: line {line}: no such file as {name}")
