"""Edits, as their files say them, and the crates that they are of: what each changes, and how many stand in one check."""

import dataclasses
import functools
import graphlib
import pathlib
import re

import rattle

TOP = pathlib.Path(__file__).resolve().parents[2]
# So many edits stand in one check at most: its memory and what is lost when it is killed grow with them.
MOST = 64
# A type that has a name of its own in a module, whose methods the check calls by that module.
TYPE = re.compile(r"^(?:pub(?:\([a-z]+\))? )?(?:struct|enum|trait) (\w+)", re.M)


class Fault(Exception):
    """Why an edit can't be applied."""


@dataclasses.dataclass
class Edit:
    """A wrong body, or a wrong text of another kind: what it changes, and what became of it."""

    crate: str
    name: str
    # the file that it stands in, and the promises that it breaks
    home: pathlib.Path = None
    promises: list = dataclasses.field(default_factory=list)
    pairs: list = dataclasses.field(default_factory=list)
    asks: list = dataclasses.field(default_factory=list)
    # the goal that is tried of a copy of its function
    goal: str = ""
    # the goals that a check of all of them didn't prove, which are still to be tried alone; none before such a check
    goals: list = None
    error: str = ""
    # the name and the text of a copy of its function with the wrong body, which stands beside the right one
    copy: tuple = ()
    bodies: dict = dataclasses.field(default_factory=dict)
    added: set = dataclasses.field(default_factory=set)
    # how many edits stand in its check at most, and how often it was tried
    most: int = MOST
    tries: int = 0
    reaches_further: bool = False
    came_to: str = ""
    why: str = ""

    def is_searched(self):
        """Whether a check of it only has to tell which goals aren't proved, and offers no answers for them."""
        return self.most > 1 and not self.tries

    def is_tried_alone(self, crate):
        """Whether a check tries one goal of its function alone, the one that its file names or one that isn't proved."""
        return bool(self.goal) and self.is_searched() and crate.tries_alone(self)

    def wrong(self):
        """The functions that have the wrong bodies."""
        return ["::".join([*it.split("::")[:-1], self.copy[0]]) for it in self.bodies] if self.copy else list(self.bodies)

    def functions(self):
        """The functions that its check is asked for, none for the whole crate: by the ends of their names, by which a check finds
        them without the module of an impl that stands in another."""
        ends = ["::".join([self.crate, *it.split("::")][-2:]) for it in self.wrong()]
        return self.asks or ([] if self.reaches_further else ends)


def edits_of(crate):
    """The edits of a crate, as its files say them: `pairs` are of a file, a function if one is named, an old text and a new one."""
    found = []
    for home in sorted((TOP / "crates" / crate / "edits").glob("*.edits")):
        said = {}
        for word, rest in re.findall(r"^(\w+): ?(.*)$", home.read_text(encoding="utf-8"), re.M):
            said[word] = rest
            match word:
                case "edit":
                    edit, said["in"] = Edit(crate, rest, home), ""
                    found.append(edit)
                case "promise":
                    edit.promises += rest.split()
                case "fails":
                    edit.goal = rest
                case "error":
                    edit.error = rest
                case "asks":
                    edit.asks += rest.split()
                case "new":
                    edit.pairs.append((said.get("file", ""), said["in"], said.pop("old", ""), rest))
    return found


@functools.lru_cache(maxsize=256)
def file_of(path, text):
    """A file of a crate as a tree."""
    try:
        return rattle.File(text, rattle.module_of(path))
    except (rattle.Refused, IndexError) as refused:
        raise Fault(f"{path} isn't read: {refused}") from None


def applied(pairs, texts):
    """The texts with these pairs applied, one after the other."""
    texts = dict(texts)
    for path, function, old, new in pairs:
        text = texts.get(path, "")
        spans = [(it.above, it.end) for it in file_of(path, text).named(function)] if function else [(0, len(text))]
        times = sum(text.count(old, *span) for span in spans)
        if times != 1:
            raise Fault(f"an old text stands {times} times in {function or path}, and not once")
        at = next(it for it in (text.find(old, *span) for span in spans) if it >= 0)
        unnamed = None if function or path.endswith(".antt") else file_of(path, text).function_at(at)
        if unnamed:
            raise Fault(f"an old text stands in {unnamed.name}, and no line `in:` names it")
        texts[path] = text[:at] + new + text[at + len(old):]
    return texts


def parts_of(path, text):
    """The words of a file: of each function those of its header and of its body, and those of the rest."""
    file, parts, rest, at = file_of(path, text), {}, [], 0
    for it in file.functions:
        parts[it.name] = text[it.begin:it.body].split(), text[it.body:it.end].split()
        rest += text[at:it.begin].split()
        at = it.end
    return parts, rest + text[at:].split()


class Crate:
    """A crate: its sources as they stand, and its edits."""

    def __init__(self, name, wanted=None):
        self.name, self.folder = name, TOP / "crates" / name
        files = [it for part in ("src/**/*.rt", "specs/**/*.antt", "proofs/**/*.antt") for it in sorted(self.folder.glob(part))]
        self.texts = {it.relative_to(self.folder).as_posix(): it.read_text(encoding="utf-8") for it in files}
        self.sources = {path: file_of(path, text) for path, text in self.texts.items() if path.endswith(".rt")}
        types = [(it, file.module) for file in self.sources.values() for it in TYPE.findall(file.text)]
        self.homes = {name: module for name, module in types if [it for it, _ in types].count(name) == 1}
        self.edits = [it for it in edits_of(name) if wanted is None or it.name in wanted]
        names = [it.name for it in self.edits]
        for number, edit in enumerate(self.edits, 1):
            if names.count(edit.name) > 1:
                edit.came_to, edit.why = "bad", "another of the crate has its name"
            else:
                self.look_at(edit)
                edit.copy = self.copy_of(edit, number)

    def changed(self, texts):
        """What differs in these texts: the bodies by function, the new functions, and whether anything else does."""
        bodies, added, more = {}, set(), False
        for path in (it for it in texts if texts[it] != self.texts[it]):
            if path not in self.sources:
                # a definition that contracts share, or a lemma
                more = True
                continue
            (before, rest), (after, its_rest) = parts_of(path, self.texts[path]), parts_of(path, texts[path])
            more = more or rest != its_rest or not before.keys() <= after.keys()
            for name, (head, body) in after.items():
                if name not in before:
                    added.add(name)
                elif before[name][0] != head:
                    more = True
                elif before[name][1] != body:
                    bodies[name] = body
        return bodies, added, more

    def look_at(self, edit):
        """Notes which functions an edit changes, and whether it has to be tried alone."""
        try:
            texts = applied(edit.pairs, self.texts)
            if texts == self.texts:
                raise Fault("it changes nothing")
            edit.bodies, edit.added, more = self.changed(texts)
        except Fault as fault:
            edit.came_to, edit.why = "bad", str(fault)
            return
        edit.reaches_further = bool(more or not edit.bodies)
        edit.most = 1 if edit.reaches_further or edit.error else MOST

    def place_of(self, function):
        """The file that a function stands in, and the function."""
        return next((path, it) for path, file in self.sources.items() for it in file.functions if it.name == function)

    def proof_of(self, function):
        """The folder with what was written of a function's proof, in a copy of the crate."""
        return pathlib.Path("proofs", *self.name_of(function).split("::"))

    def copy_of(self, edit, number):
        """The name and the text of a copy of the one function that an edit changes, with its wrong body, where there can be one."""
        if edit.most == 1 or edit.asks or edit.added or len(edit.bodies) != 1:
            return ()
        (function,) = edit.bodies
        path, (of, plain) = self.place_of(function)[0], ["", *function.split("::")][-2:]
        proof = self.folder / self.proof_of(function)
        # one whose proof stands where its name doesn't tell
        elsewhere = [it for it in (self.folder / "proofs").rglob(plain) if it.is_dir() and it.parent.name == of]
        if elsewhere and not proof.is_dir():
            return ()
        return file_of(path, applied(edit.pairs, self.texts)[path]).copied(function, f"{plain}_wrong{number}")

    def tries_alone(self, edit):
        """Whether one goal of an edit's function can be tried alone: of a copy, which nothing calls, if it names no tactics."""
        if not edit.copy:
            return False
        path, it = self.place_of(next(iter(edit.bodies)))
        return "#[tactic(" not in self.texts[path][it.above:it.begin]

    def right(self, edits, more="", end="right"):
        """Of each of these edits that is a copy, a copy with the right body, as an edit that changes nothing; with a text more
        at the body's begin."""
        found = []
        for number, edit in enumerate((it for it in edits if it.copy), 1):
            (function,) = edit.bodies
            plain = f"{function.rpartition('::')[2]}_{end}{number}"
            path, it = self.place_of(function)
            text = self.texts[path]
            copy = file_of(path, f"{text[:it.body + 1]}{more}{text[it.body + 1:]}").copied(function, plain)
            found.append(Edit(self.name, edit.name, copy=copy, bodies={function: None}, goal=edit.goal))
        return found

    def module_of_proof(self, name):
        """The module of the proof of a function, by the name that a check gives it."""
        return f"Rattle.{self.name}.proofs.{name.replace('::', '.')}"

    def texts_with(self, edits, taken=()):
        """The texts with these edits in them: copies with wrong bodies beside the right ones, the others in their place. What
        is taken has no body, so that nothing is made of it."""
        texts = applied([pair for it in edits if not it.copy for pair in it.pairs], self.texts)
        for edit in (it for it in edits if it.copy):
            (function,) = edit.bodies
            path = self.place_of(function)[0]
            end = next(it.end for it in file_of(path, texts[path]).functions if it.name == function)
            texts[path] = f"{texts[path][:end]}\n\n{edit.copy[1]}{texts[path][end:]}"
        return {path: self.emptied(path, text, taken) if path in self.sources else text for path, text in texts.items()}

    def emptied(self, path, text, taken):
        """The text of a file without the bodies of functions that are taken, if there are any."""
        for it in reversed(file_of(path, text).functions if taken else ()):
            if it.is_free and self.name_of(it.name) in taken:
                text = text[:it.body] + "{ loop {} }" + text[it.end:]
        return text

    def name_of(self, function):
        """The name that a check is likely to give a function: a method stands in the module of its type."""
        of, _, method = function.rpartition("::")
        _, _, of = of.rpartition("::")
        return "::".join(filter(None, (self.homes[of], of, method))) if of in self.homes else function

    def function_at(self, edits, unread):
        """The function in whose text, with these edits in it, a line stands that isn't read."""
        _, path, line = unread
        if path in self.sources:
            text = self.texts_with(edits)[path]
            found = file_of(path, text).function_at(len("".join(text.splitlines(True)[:line - 1])))
            return found and found.name
        return None

    def rounds(self, edits):
        """Packs edits into rounds in which no function is edited twice in its place, each into the first that takes it;
        first those that the most others meet."""
        def meet(one, other):
            return one is not other and bool(one.bodies.keys() & other.bodies.keys()) and not (one.copy and other.copy)

        def fits(its, edit):
            return len(its) < min(it.most for it in [*its, edit]) and not any(meet(edit, it) for it in its)

        first = sorted(edits, key=lambda one: -sum(meet(one, it) for it in edits))
        return sorted(packed(first, fits), key=len, reverse=True)


def packed(found, fits):
    """What was found in groups, each in the first that it fits into."""
    groups = []
    for it in found:
        into = next((its for its in groups if fits(its, it)), None)
        if into is None:
            groups.append(into := [])
        into.append(it)
    return groups


def lines_of_crates(text=None):
    """The lines of a crates.txt, ours if none is given: of each crate the words behind its name, and its libraries."""
    text = (TOP / "crates.txt").read_text(encoding="utf-8") if text is None else text
    return {it[1]: (it[2].split(), it[3].split()) for it in re.finditer(r"^(\w+)([^:#\n]*):(.*)$", text, re.M)}


def graph_of():
    """The crates of crates.txt, lowest first: which of the repository each stands on."""
    lines = lines_of_crates()
    graph = {name: [it for it in libraries if it in lines] for name, (_, libraries) in lines.items()}
    return {name: graph[name] for name in graphlib.TopologicalSorter(graph).static_order()}
