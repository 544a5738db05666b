"""The marks of a page, its links, and the statements that it names or quotes, each of which is looked for in its file.

A mark is a comment that a reader of the page does not see:

    <!-- table NAME --> .. <!-- end --> all between is made by the script
    <!-- from FILE -->                  the fenced block below stands in that file
    [`NAME`](..antt) [`FUNCTION`](..rt) in a row of a table: the contract of a function of the row leads to each definition of it
    <!-- names of others: Stream -->    these names in code font, and files, are none of this repository
"""

import functools
import re

import tree
import source
from tree import TOP, text_of

TABLE = re.compile(r"(<!-- table ([^>]*?) -->\n)(.*?)(<!-- end -->)", re.S)
QUOTE = re.compile(r"<!-- from ([^>]*?) -->\n+```[a-z]*\n((?:(?!```).*\n)*)```")
STATED = re.compile(r"\[`(\w+)`\]\(([^)#\s]+\.(antt|rt))\)")
OTHERS = re.compile(r"<!-- names of others: ([^>]*?) -->")
LINK = re.compile(r"\[[^\]]*\]\(([^)\s]+)\)")


def stated(page):
    """The rows of a page that name statements or what carries them: the definitions of each row, and its functions, with their files."""
    for row in re.findall(r"(?m)^\|.*$", text_of(page)):
        links = {"antt": [], "rt": []}
        for name, path, kind in STATED.findall(row):
            links[kind].append((str((page.parent / path).resolve().relative_to(TOP)), name))
        if any(links.values()):
            yield links["antt"], links["rt"]


def headings(text):
    """The anchors of a page."""
    found = re.findall(r"(?m)^#+ (.*)$", text)
    return {re.sub(r"[^\w\- ]", "", it.strip().lower()).replace(" ", "-") for it in found}


def bad_links(page):
    """The links of a page that lead nowhere."""
    for link in LINK.findall(text_of(page)):
        path, _, anchor = link.partition("#")
        target = (page.parent / path).resolve() if path else page
        is_dead = not target.exists() or anchor and target.suffix == ".md" and anchor not in headings(text_of(target))
        if is_dead and not re.match(r"[a-z]+:", link):
            yield link


BLOCK = re.compile(r"(?ms)^```([^\n]*)\n(.*?)^```$")
# The folders of a package whose files cargo builds.
BUILT = {"src", "tests", "examples"}


def is_built(path):
    """Whether cargo builds a file of the tree, as one in a folder of a package that has such, or docs/figures/using does, by rt."""
    if path.endswith(".rattle"):
        return True
    home = next((it for it in (TOP / path).parents if (it / "Cargo.toml").exists()), None)
    return path.endswith(".rs") and home is not None and (TOP / path).relative_to(home).parts[0] in BUILT


def unbuilt_blocks(page):
    """The lines of the blocks of Rust of a page that nothing builds. What is quoted stands in that file, as the quotes tell."""
    text, library = text_of(page), page.parent / "src" / "lib.rs"
    # where a crate has the page as its documentation, its blocks are Rust where nothing else is said
    is_documentation = library.exists() and 'doc = include_str!("../README.md")' in text_of(library)
    quoted = {found.start(2): found[1] for found in QUOTE.finditer(text)}
    for found in BLOCK.finditer(text):
        kind = re.split(r"\W", found[1], maxsplit=1)[0]
        is_rust = kind in {"rust", "ignore", "no_run", "should_panic", "compile_fail"} or not kind and is_documentation
        if is_rust and not is_built(quoted.get(found.start(2), "")):
            yield text.count("\n", 0, found.start()) + 1


PATH = re.compile(r"`([\w./-]+/[\w.-]+\.(?:rt|antt|md|rs|tsv|py|txt))`")


def others(text):
    """The names that a page says are others'."""
    return {it for listed in OTHERS.findall(text) for it in listed.split()}


def bad_paths(page):
    """The files that a page names and that stand nowhere: beside the page, below the top, docs/, bench/, crates/ or a crate."""
    roots = [page.parent, TOP, TOP / "docs", TOP / "bench", tree.CRATES, *(it for it in tree.CRATES.iterdir() if it.is_dir())]
    text = text_of(page)
    return [it for it in PATH.findall(text) if it not in others(text) and not any((root / it).exists() for root in roots)]


IDENTIFIER = re.compile(r"`([A-Za-z_]\w*(?:(?:::|\.)[A-Za-z_]\w*)*)`")
# The name of a commit, which isn't one of the code.
COMMIT = re.compile(r"(?=[a-f]*\d)[0-9a-f]{7,40}\Z")


@functools.cache
def words_of_the_code():
    """Every word of the sources, their edits and the scripts."""
    endings = (".rt", tree.LOAD_ENDING, ".antt", ".edits", ".rs", ".toml", ".lock", ".py", "")
    plain = [it for crate in ("hontkhale", "hontkhale-tokio") for part in ("src", "tests") for it in tree.files(TOP / "rust" / crate / part, ".rs")]
    paths = [*tree.files(tree.CRATES, *endings), *tree.files(TOP / "bench", *endings), *plain, TOP / "crates.txt"]
    own = {word for it in paths for word in re.findall(r"\w+", text_of(it))}
    return own | {it.stem for it in paths} | {it.suffix[1:] for it in paths} | set(source.lines_of_crates())


def unknown_names(text):
    """The names of the code that a page speaks of, and that no source has; nor does the page say that they are others'."""
    found = {it for it in IDENTIFIER.findall(BLOCK.sub("", text)) if not COMMIT.match(it)} - others(text)
    return sorted(it for it in found if not set(re.split(r"::|\.", it)) <= words_of_the_code())


STRAY = re.compile(r"(?m)(?:\A|^(?!\|).*\n)(\|.*)\n(?!\|[-:| ]+\|$)")


def stray_rows(text):
    """The rows that stand in no table, since a table begins with its heads and a line of dashes."""
    return [found[1] for found in STRAY.finditer(BLOCK.sub("```", text))]


def word_count(text):
    """The words of a page beside its code, its tables and what a reader doesn't see."""
    text = re.sub(r"<!--.*?-->", "", BLOCK.sub("", TABLE.sub("", text)), flags=re.S)
    return len(re.sub(r"(?m)^(?:\||    ).*$", "", text).split())


NAME = re.compile(r"[A-Za-z_][A-Za-z0-9_]*")


def parts(path):
    """What a file of specs/ defines: each name, and its definition up to a blank line."""
    for part in re.split(r"\n\s*\n", text_of(TOP / path)):
        if head := tree.DEFINITION.search(part):
            yield head[2], part[head.start():]


def contract(path, name):
    """The head and the clauses of a function of a file, the first of its name, without its body."""
    for it in tree.file_of(TOP / path).functions:
        if it.name.rpartition("::")[2] == name:
            return text_of(TOP / path)[it.begin:it.body]
    raise LookupError(f"{path} has no function {name}")


def stands_in(path, quote):
    """Whether the lines of a quote stand in a file, one after the other, at any depth."""
    lines = lambda text: "\n".join(it.strip() for it in ["", *text.strip("\n").splitlines(), ""])
    return lines(quote) in lines(text_of(TOP / path))


@functools.cache
def all_definitions():
    """The words that each name of specs/ is defined by, over all crates."""
    known = {}
    for path in (it for it in tree.files(tree.CRATES, ".antt") if "specs" in it.parts):
        for name, part in parts(path):
            known.setdefault(name, set()).update(NAME.findall(re.sub(r"(?m)^\s*--.*$", "", part)))
    return known


def carries(path, function_name, statement):
    """Whether a function's contract cites a statement, itself or by the definitions that it cites."""
    todo, seen = set(NAME.findall(contract(path, function_name))), set()
    while todo:
        seen |= todo
        todo = {it for name in todo for it in all_definitions().get(name, ())} - seen
    return statement in seen


def unstated(page):
    """What is wrong with the rows that say which functions carry which statements."""
    for definitions, functions in stated(page):
        lost = [it for it in definitions if not (TOP / it[0]).is_file() or it[1] not in dict(parts(it[0]))]
        yield from (f"{path} defines no {name}" for path, name in lost)
        try:
            pairs = [(it, to) for it in functions for to in definitions if carries(*it, to[1])]
        except (LookupError, OSError) as error:
            yield str(error)
            continue
        for it in [*functions, *definitions] if functions and definitions else ():
            if not any(it in pair for pair in pairs):
                yield f"in the row of {it[1]} no contract leads from a function to a statement with it"


def faults(page):
    """What is wrong with a page beside its tables."""
    for path, quote in QUOTE.findall(text_of(page)):
        if not (TOP / path).is_file() or not stands_in(path, quote):
            yield f"what is quoted of {path} doesn't stand there"
    yield from unstated(page)
    yield from (f"the link {it} leads nowhere" for it in bad_links(page))
    yield from (f"nothing builds the Rust of line {it}: it wants a `from` mark of a file that cargo builds" for it in unbuilt_blocks(page))
    yield from (f"the file {it} isn't there" for it in bad_paths(page))
