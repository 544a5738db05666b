"""What has a `requires` and is reached from safe Rust, and how the list `rust/closed` says that it is closed; and which calls
`DelayQueue` makes of its stores."""
import re

from patterns import TABLES, made
from rattle import File, Refused, text_of

MODULES = dict(TABLES["modules"])
# A name of the list, how it is closed, and the lines below it, which check it.
ENTRY = re.compile(r"^([\w:]+): (inside|user code|checked(?=\n    ))\n((?:    .*\n)*)", re.M)


class Closed:
    """The list: for each name how it is closed, and the lines that check it; and what the crate gives away."""

    def __init__(self, text, parts):
        text = re.sub(r"(?m)^#.*\n", "", text)
        self.ways = {name: (way, checks) for name, way, checks in ENTRY.findall(text)}
        strange = ENTRY.sub("", text).strip()
        if strange or len(self.ways) < len(ENTRY.findall(text)):
            raise Refused(f"rust/closed: `{strange or 'a name that stands twice'}` says nothing")
        self.given, self.found = given(parts), set()
        self.exported = {name for name, (module, _) in self.given.items() if module in MODULES.values()}

    def close(self, tokens):
        """Looks at each function of a file that has a `requires`, and puts the checks in."""
        for owner, name, line, body in list(requirements(tokens)):
            head, full = owner or name, f"{owner}::{name}" if owner else name
            is_inside = self.ways.get(head, "")[:1] == ("inside",)
            way, checks = self.ways.get(head if is_inside else full, ("", ""))
            if is_inside and head in self.exported:
                raise Refused(f"`{head}` is told to be inside by rust/closed, and is given away by src/parts.rs")
            if not way and head in self.exported:
                raise Refused(f"line {line}: `{full}` has a `requires`, is reached, and isn't in rust/closed")
            if way == "checked":
                tokens[body + 1:body + 1] = made(re.sub("\n *", "\n        ", checks.strip()), tokens[body + 1], "\n        ")
            self.found.add(head if is_inside else full)

    def all_found(self):
        for name in self.ways.keys() - self.found:
            raise Refused(f"rust/closed: `{name}` isn't there, or requires nothing")


# A call that a proved shard makes on its store, and what `DelayQueue` does with a shard's. What is read of one changes nothing.
SHARDS, FRONTS, READS = re.compile(r"\.sized\.(\w+)\("), re.compile(r"\.entries\b(?:\s*\.(\w+)\()?"), {"store", "sizing"}


def stores_are_shards(shard, front):
    """Looks that `DelayQueue` makes no call on a store but those that a proved shard makes, so that they are in its history."""
    calls = {*SHARDS.findall(shard)} | READS
    for path, text in front.items():
        text = re.sub(r"//.*", "", text)
        for found in FRONTS.finditer(text):
            if found[1] not in calls:
                line = text.count("\n", 0, found.start()) + 1
                raise Refused(f"{path}: line {line}: `{found[1] or 'entries'}` is no call that a proved shard makes on its store")


GIVES = re.compile(r"^pub mod (\w+) \{|^(\})|pub use crate::(\w+)::([^;]*);", re.M)


def given(parts):
    """What src/parts.rs gives away: each name with the module that has it, and with its path in the crate."""
    found, outer = {}, "parts::"
    for within, end, module, names in GIVES.findall(parts):
        if module:
            found.update((name, (module, f"{outer}{name}")) for name in re.findall(r"\w+", names))
        else:
            outer = "parts::" if end else f"parts::{within}::"
    return found


def requirements(tokens):
    """The functions of a file that require something and that are public or a trait's: their owner, their name, line and body."""
    file = File(text_of(tokens))
    index = {token.place: at for at, token in enumerate(file.tokens)}
    for it in reversed(file.functions):
        if re.search(r"\brequires\b[^{\n]*\{", file.text[it.begin:it.body]) and (it.is_public or not it.is_free):
            *_, owner, name = "", *it.name.split("::")
            # a module that stands in the file is no owner
            yield owner if owner[:1].isupper() else "", name, tokens[index[it.begin]].line, index[it.body]
