"""Paths, in the text of an erased file: a crate becomes a module, and what is imported is what is named; and where the links of docs
lead."""
import itertools
import re
import textwrap

from patterns import TABLES, formatted
from rattle import Refused

MODULES, IMPORTS, PROVIDED = (dict(TABLES[it]) for it in ("modules", "imports", "provided"))
# Those of what is provided that are functions.
CALLS = {"are_fresh", "filled", "room_for", "text_of", "copy_of", "nth", "nth_mut"}
# Traits that are imported for their calls.
TRAITS = {"Read", "Write", "Deref", "DerefMut", "Hash", "TickSource", "Shard", "Until"}

USE = re.compile(r"^((?:pub(?:\(crate\))? )?)use ([^;]*);\n", re.M)
MODULE = re.compile(r"^(?:(?:///|#\[).*\n)*(?:pub(?:\(crate\))? )?mod (\w+);\n", re.M)
# A module that stands in a file.
INNER = re.compile(r"^((?:pub(?:\(crate\))? )?mod \w+ \{\n)(.*?)^\}\n", re.M | re.S)
DOC = re.compile(r"^ *//[/!].*$", re.M)
STRING = re.compile(r'"(?:[^"\\]|\\.)*"')
LINK = re.compile(r"\[`((?:dq_\w+::)?)(\w+)((?:::\w+)?)`\](?![(\[:])")
# A path of the crate as the docs of the sources have it: a part, or a name of one.
OF_THE_CRATE = re.compile(r"(\bhontkhale::|\]\(crate::)(\w+)")


def paths_of(text, prefix=""):
    """The paths of a `use`, or of a part of one behind a prefix."""
    head, _, inner = text.strip().partition("{")
    if inner:
        return [path for it in re.findall(r"[^\s,{}][^,{}]*(?:\{[^{}]*\})?", inner) for path in paths_of(it, prefix + head)]
    if not re.fullmatch(r"(?:\w+::)*(?:\w+|\*)", head):
        raise Refused(f"a use of another form: {text}")
    return [prefix + head]


def last(path):
    return path.rsplit("::", 1)[-1]


def moved(path, module):
    """A path of a source as a path of the crate; empty where nothing is imported."""
    head, _, rest = path.partition("::")
    if head == "crate" or head in MODULES:
        return f"crate::{MODULES.get(head, module)}::{rest}"
    parts = path.split("::")
    for count in range(len(parts), 0, -1):
        place = IMPORTS.get("::".join(parts[:count]))
        if place is not None:
            return place and "::".join([place, *parts[count:]])
    if head in ("self", "super") or head[0].islower() and head != "std" and "::" in path:
        return path
    raise Refused(f"`{path}` is imported, which no rule knows")


def named(text):
    """The words of a file outside of its uses; a text of a format names constants."""
    code = re.sub(r"//.*", "", USE.sub("", text))
    words = {word for texts in STRING.findall(code) for word in formatted(texts)} | set(re.findall(r"\.(try_push(?:_str)?)\b", code))
    found = re.findall(r"(?<![.\w])(?<!\bfn )(\w+)(\(?)", STRING.sub("", code))
    return words | {word for word, called in found if called or word not in CALLS}


def defined(text):
    """The names that a file defines."""
    return set(re.findall(r"\b(?:fn|struct|type|enum|trait|const) (\w+)", DOC.sub("", text)))


def lines_of(found, vis=""):
    """The lines of uses, one for each parent."""
    pairs = sorted({path.rpartition("::")[::2] for path in found})
    for parent, its in itertools.groupby(pairs, key=lambda pair: pair[0]):
        names = [name for _, name in its]
        yield f"{vis}use {parent}::{names[0]};\n" if len(names) == 1 else f"{vis}use {parent}::{{{', '.join(names)}}};\n"


def within(text, rule):
    """What a rule makes of a file, and of each module that stands in it."""
    inner = iter([textwrap.indent(within(re.sub("(?m)^    ", "", it[2]), rule).strip("\n"), "    ") for it in INNER.finditer(text)])
    return INNER.sub(lambda it: f"{it[1]}{next(inner)}\n}}\n", rule(INNER.sub(r"\1}\n", text)))


def with_uses(text, source, gone, names):
    """A module with its uses over those of the crate: what is gone or isn't named any more is left out."""
    words, wanted, module = named(text), [], MODULES[source.crate]

    def kept(found):
        its = list(filter(None, (moved(it, module) for it in paths_of(found[2]) if last(it) not in names)))
        if not found[1]:
            wanted.extend(it for it in its if last(it) in words | TRAITS)
        return "".join(lines_of(its, found[1])) if found[1] else ""

    text = MODULE.sub(lambda it: "" if (source.crate, (*source.module, it[1])) in gone else it[0], text)
    text = USE.sub(kept, text).lstrip("\n")
    wanted += [path for word, path in PROVIDED.items() if word in words - defined(text)]
    # a module is told first, as in its source
    told = re.match(r"(?://!.*\n)*", text)[0]
    return f"{told}\n{''.join(lines_of(wanted))}\n{text[len(told):]}"


def with_links(text, module, given):
    """A module in whose docs each link leads to what the crate gives away, or is plain text."""
    known = {last(path) for _, found in USE.findall(text) for path in paths_of(found)}
    known |= {it for it in defined(text) if given.get(it, [None])[0] == module}

    def part(found):
        """A part, or what stands beside the parts; and else the name itself."""
        return found[1] + "parts::" * any(path.split("::")[1] == found[2] for _, path in given.values()) + found[2]

    def link(found):
        crate, head, tail = found.groups()
        if head == "Self" or head in given and head in known and not crate:
            return found[0]
        return f"[`{head}{tail}`](crate::{given[head][1]}{tail})" if head in given else f"`{head}{tail}`"

    def linked(found):
        if "&rt" in found[0]:
            raise Refused(f"a doc speaks of the runtime: {found[0]}")
        return LINK.sub(link, OF_THE_CRATE.sub(part, found[0]))

    return DOC.sub(linked, text)
