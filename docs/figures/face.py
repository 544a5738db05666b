"""What a crate of plain Rust gives away, an item a line, as `cargo public-api` tells it, but read from the sources as rustfmt
lays them out: each item behind the path by which others have it, with what its source says.

The lists stand in docs/public, so that a change of what others may call is seen where the change is read. What a public line
names of the crate has to be public too: else nobody could write that name. Behind what a program gets by the feature `all-parts`
alone that stands as a comment.
"""

import re
import textwrap

from tree import TOP, text_of

CRATES = ("hontkhale", "hontkhale-tokio")
LISTS = TOP / "docs" / "public"
# Traits that nobody is to name: they keep the types of other crates out.
SEALS = {"Steps", "Rows", "Sleeps"}
TYPES = {"struct", "enum", "trait"}
ATTRIBUTES = r"^((?: *#\[(?:[^\[\]]|\[[^\]]*\])*\]\n)*)"
# What stands before a body or a semicolon; the semicolon of an array's type doesn't end it.
HEAD = r"(?:\[[^\]]*\]|[^;{\[])*"
BODY = r"(?:;|\{(\}|.*?^\}))"
MODULE = re.compile(ATTRIBUTES + r"(pub )?mod (\w+)(?:;| \{\n(.*?)^\}\n)", re.M | re.S)
USE = re.compile(ATTRIBUTES + r"(pub )?(?:pub\([\w ]+\) )?use ([^;{]*)(?:\{([^}]*)\})?;", re.M)
ITEM = re.compile(ATTRIBUTES + rf"(pub )?(?:pub\([\w ]+\) )?((?:const )?(struct|enum|trait|type|fn|const) (\w+){HEAD})" + BODY, re.M | re.S)
IMPL = re.compile(ATTRIBUTES + rf"(impl\b{HEAD})" + BODY, re.M | re.S)
# A table of what is shown of types, and a row of it: the generics and the type.
SHOWS = re.compile(r"^shows! \{\n(.*?)^\}\n", re.M | re.S)
ROW = re.compile(r"^    \[(.*)\] (.*) \{.*\}\n", re.M)
# What stands in the body of an item, and of an `impl`, for others to use.
MEMBERS = {it: re.compile(ATTRIBUTES + "    " + pattern, re.M | re.S) for it, pattern in {
    "struct": r"(pub \w+: [^\n]*),$", "enum": r"(\w(?:[^\n]* \{\n.*?^    \}|[^\n]*)),$",
    "trait": rf"((?:fn|const|type) {HEAD})", "impl": rf"(pub (?:const |async )?(?:fn|const) {HEAD})"}.items()}
SHOWN = re.compile(r"#\[(?:derive|non_exhaustive|doc\(hidden\)).*\]")
ALL_PARTS = "all-parts"


def is_test(attributes):
    return re.search(r"\bcfg\(.*\btest\b", attributes) is not None


def remark(attributes):
    return f" // {ALL_PARTS}" if ALL_PARTS in attributes else ""


class Face:
    """The lines of a crate, and what is wrong with them."""

    def __init__(self, crate, top=TOP):
        self.source, self.list, self.faults = top / "rust" / crate / "src", LISTS / f"{crate}.txt", set()
        # what each module has, by name, whether that is public, and its attributes; the `impl`s; the public items, and by which
        # paths; and which of them and of the modules are there by default
        self.modules, self.impls, self.paths, self.by_default = {}, [], {}, set()
        self.read((), text_of(self.source / "lib.rs"))
        self.lines = sorted(set(self.publish((), crate.replace("-", "_"))))
        for (module, name), its in sorted(self.paths.items(), key=lambda it: min(it[1], key=len)):
            self.lines += self.told(module, name, *sorted(its, key=lambda it: (len(it), it)))

    def read(self, module, text):
        """Reads a module, and those below: a name is a module's path, an item, or the path of a `use`."""
        text = re.sub(r"(?m)^ *//.*\n", "", text)
        text = SHOWS.sub(lambda it: ROW.sub(r"impl<\1> Debug for \2 {}\n", it[1]).replace("impl<>", "impl"), text)
        names = self.modules[module] = {}
        for attributes, is_public, name, body in MODULE.findall(text):
            if not is_test(attributes):
                names[name] = ((*module, name), is_public, attributes)
                self.read(names[name][0], textwrap.dedent(body) or text_of(self.source.joinpath(*module, f"{name}.rs")))
        for attributes, is_public, path, group in USE.findall(MODULE.sub("", text)):
            its = [(path + it).removesuffix("::self") for it in re.findall(r"[\w:]+", group)] if group else [path]
            names.update((it.rpartition("::")[2], (it, is_public, attributes)) for it in its)
        names.update((it[5], (it, it[2], it[1])) for it in ITEM.finditer(MODULE.sub("", text)) if not is_test(it[1]))
        self.impls += [(module, it) for it in IMPL.finditer(MODULE.sub("", text)) if not is_test(it[1])]

    def found(self, module, path):
        """The module, or the item with its module, that a path leads to from a module; none where that is another crate's."""
        first, _, rest = path.partition("::")
        it = {"crate": (), "self": module, "super": module[:-1]}.get(first, self.modules[module].get(first, [None])[0])
        if isinstance(it, str):
            it = self.found(module, it) if it.partition("::")[0] != first else None
        elif isinstance(it, re.Match):
            return module, first
        return self.found(it, rest) if rest and it in self.modules else it

    def publish(self, module, path, around=""):
        """Tells each public item the paths by which others have it, and yields what isn't an item of the crate."""
        for name in (it for it, (_, is_public, _) in self.modules[module].items() if is_public):
            it, attributes = self.found(module, name), around + self.modules[module][name][2]
            if it and ALL_PARTS not in attributes:
                self.by_default.add(it)
            if it in self.modules:
                yield f"pub mod {path}::{name}{remark(attributes)}"
                yield from self.publish(it, f"{path}::{name}", attributes)
            elif it:
                self.paths.setdefault(it, []).append(f"{path}::{name}")
            else:
                yield f"pub use {self.modules[module][name][0]} as {path}::{name}"

    def ends(self, module, head):
        """What an `impl` is of: the trait, none where there is none, and the type; of one for any type the trait twice."""
        head = re.sub(r"^impl(?:<(?:[^<>]|<(?:[^<>]|<[^<>]*>)*>)*>)?", "", head)
        trait, its = (re.match(r"[ &]*(?:'\w+ )?([\w:]*)", it)[1] for it in head.rpartition(" for ")[::2])
        trait = trait and (self.found(module, trait) or trait)
        return trait, self.found(module, its) or trait

    def told(self, module, name, path, *others):
        """The lines of an item."""
        attributes, _, head, kind, _, body = self.modules[module][name][0].groups()
        yield from (f"pub use {path} as {it}" for it in others)
        head = head.partition("(")[0] if kind == "struct" else head
        attributes += "" if (module, name) in self.by_default else ALL_PARTS
        yield self.line(module, "", attributes, "pub " + re.sub(rf"\b{name}\b", path, head, count=1))
        for its in MEMBERS[kind].findall(body or "") if kind in MEMBERS else ():
            yield self.line(module, "    ", *its)
        impls = [(of, *it.groups(), *self.ends(of, it[2])) for of, it in self.impls]
        impls = [it for it in impls if it[5] == (module, name)]
        yield from sorted({self.line(of, "    ", attributes, head) for of, attributes, head, _, trait, its in impls
                           if isinstance(trait, str) and trait or trait in self.paths or trait == its})
        for of, attributes, head, body, trait, _ in impls:
            calls = [] if trait else MEMBERS["impl"].findall(body or "")
            yield from [self.line(of, "    ", attributes, head)] if calls else []
            yield from (self.line(of, "        ", *it) for it in calls)

    def line(self, module, indent, attributes, head):
        """What is public, in one line, behind its attributes that others see, with each type's name as others write it."""
        def written(found):
            it = self.found(module, found[0])
            kind = self.modules[it[0]][it[1]][0][4] if it and it not in self.modules else ""
            if kind in TYPES and it not in self.paths and it[1] not in SEALS:
                self.faults.add(f"{found[0]}, which `{told}` names, isn't public")
            far = str(self.modules[module].get(found[0], [""])[0])
            far = far if far.startswith("hontkhale::") else found[0]
            return min(self.paths[it], key=len) if kind in {*TYPES, "type"} and it in self.paths else far

        told = re.sub(r"(?<=[(<]) |,? (?=[)>])", "", " ".join(head.split()))
        return indent + " ".join([*SHOWN.findall(attributes), re.sub(r"(?<![\w:.'])[A-Za-z][\w:]*", written, told)]) + remark(attributes)
