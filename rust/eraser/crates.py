"""The product crates, erased file by file."""
from pathlib import Path

import closing
import errors
import ghosts
import handed
import indexes
import paths
from patterns import GUARDS, TABLES, rewritten
from rattle import Refused, close_of, functions, text_of, tokens_of

TOP = Path(__file__).resolve().parent.parent.parent
OUT = TOP / "rust" / "hontkhale" / "src"

MODULES = dict(TABLES["modules"])
# What is said where a waker is forgotten, which in std is dropped.
WAKES = "// A waker that is dropped wakes.\n"


class Source:
    """A file of a crate on its way."""

    def __init__(self, crate, path, text):
        self.crate, self.path, self.tokens = crate, path, tokens_of(text)
        parts = path.relative_to(TOP / "crates" / crate / "src").with_suffix("").parts
        self.module = () if parts == ("lib",) else parts
        self.out = Path(MODULES[crate], *self.module).with_suffix(".rs")

    def by(self, rule, *arguments):
        """A rule's answer on its tokens."""
        return self.told(rule, self.tokens, *arguments)

    def told(self, rule, *arguments):
        """A rule's answer; what the rule refuses is told with the file."""
        try:
            return rule(*arguments)
        except Refused as refused:
            raise Refused(f"{self.path.relative_to(TOP)}: {refused}") from None


def sources(hand):
    found = [(crate, path) for crate in MODULES for path in sorted((TOP / "crates" / crate / "src").rglob("*.rt"))]
    found = [Source(*it, paths.within(hand.applied(it[1]), errors.with_errors)) for it in found if not hand.leaves_out(it[1])]
    hand.all_used()
    return found


def erased(hand):
    """The erased text of each file, by its path in the crate."""
    closed = closing.Closed(*(it.read_text(encoding="utf-8") for it in (TOP / "rust" / "closed", OUT / "parts.rs")))
    front = [OUT / "delay_queue.rs", *(OUT / "delay_queue").glob("*.rs")]
    shard = hand.applied(TOP / "crates" / "dq_queue" / "src" / "shard.rt")
    closing.stores_are_shards(shard, {it.relative_to(TOP): it.read_text(encoding="utf-8") for it in front})
    found, fields = sources(hand), {}
    for source in found:
        source.tokens = source.by(ghosts.erased, (ghosts.ghost, ghosts.model, ghosts.tactic))
    names = ghosts.law_names([source.tokens for source in found])
    for source in found:
        source.tokens = source.by(ghosts.without_laws, names)
        fields.setdefault(source.crate, set()).update(source.by(handed.without_fields))
        source.by(closed.close)
        # the functions that answer the guard of a lock
        tokens = source.tokens
        GUARDS.update(name for _, _, name, head, body in functions(tokens)
                      if any(token.text == "MutexGuard" for token in tokens[close_of(tokens, head):body]))
    closed.all_found()
    for source in found:
        source.tokens = source.by(ghosts.erased)
        for token in source.tokens:
            token.before = token.before.replace(WAKES, "")
        source.by(rewritten, "early")
        source.tokens = source.by(handed.without_handed, fields[source.crate])
        source.by(rewritten, "std")
        source.by(rewritten, "last")
        source.by(handed.unused)
        if source.crate != "dq_replay":
            source.by(indexes.with_indexes)
    texts = {source: text_of(source.tokens) for source in found}
    # those that have no more than docs and uses
    gone = {(it.crate, it.module) for it, text in texts.items() if not paths.DOC.sub("", paths.USE.sub("", text)).strip()}
    made = {}
    for source, text in texts.items():
        if (source.crate, source.module) not in gone:
            text = source.told(paths.within, text, lambda it: paths.with_uses(it, source, gone, names))
            made[source.out] = source.told(paths.within, text, lambda it: paths.with_links(it, MODULES[source.crate], closed.given))
    return made
