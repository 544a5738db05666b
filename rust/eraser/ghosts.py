"""Rules for what is there for proofs alone: ghosts, clauses, models, tactics; and laws, which are functions that do nothing and are
there for what they promise. They go with the statements that call them."""
from patterns import next_of
from rattle import Refused, clause, close_of, functions, words_at


def ghost(tokens, at):
    """A ghost item ends at its semicolon, a ghost field of a struct at its comma."""
    start = at + (tokens[at].text == "pub")
    if tokens[start].text != "ghost" or tokens[start].kind != "word":
        return None
    if tokens[start + 2].text == ":" and tokens[start + 3].text == "{":
        behind = close_of(tokens, start + 3) + 1
        if tokens[behind].text == ",":
            return behind + 1
    return next_of(tokens, at, (";",)) + 1


def model(tokens, at):
    """`impl Model for ..`, whole."""
    if tokens[at].text != "impl":
        return None
    end = next_of(tokens, at, ("{", ";"))
    is_it = any(words_at(tokens, index, "Model", "for") for index in range(at, end))
    return close_of(tokens, end) + 1 if is_it and tokens[end].text == "{" else None


def tactic(tokens, at):
    start = at + 1 + words_at(tokens, at + 1, "!")
    return close_of(tokens, start) + 1 if words_at(tokens, at, "#") and words_at(tokens, start, "[", "tactic") else None


RULES = (ghost, clause, model, tactic)


def required(tokens, at, behind):
    """What a clause requires, as a comment of one line; nothing for any other clause."""
    if tokens[at].text != "requires":
        return ""
    opening = next(index for index in range(at, behind) if tokens[index].text == "{")
    said = "".join(token.before + token.text for token in tokens[opening + 1:behind - 1])
    return f"\n// requires {' '.join(said.split())}"


def erased(tokens, rules=RULES):
    # what a function requires is told where its body begins
    kept, at, requires = [], 0, ""
    while at < len(tokens):
        rule, behind = next(((it, end) for it in rules if (end := it(tokens, at)) is not None), (None, at + 1))
        if rule is None:
            kept.append(tokens[at])
            if requires and tokens[at].text == "{":
                before = tokens[behind].before
                tokens[behind].before = requires + ("" if before.startswith("\n") else "\n") + before
            requires = "" if tokens[at].text in "{;" else requires
        elif rule is clause:
            requires += required(tokens, at, behind)
        elif rule is not tactic:
            while kept and kept[-1].kind == "doc" and kept[-1].text.startswith("///"):
                kept.pop()
        at = behind
    return kept


STARTS = {"{", "}", ";"}
# What a statement that only calls something doesn't begin with.
OTHER_STATEMENTS = {"let", "return", "if", "match", "while", "for", "use", "pub", "fn"}


def is_law(tokens, name, head, body, laws):
    """A function of no answer that promises something, changes nothing and only calls laws, if anything."""
    behind = close_of(tokens, head) + 1
    if tokens[body].text != "{":
        return name == "law"
    if tokens[behind].text == "->" or not empty_but_calls(tokens, body, laws):
        return False
    if any(token.text == "mut" for token in tokens[head:behind]):
        return False
    return name == "law" or any(token.text == "ensures" for token in tokens[behind:body])


def law_names(files):
    """The names of all laws of some files: those that call other laws are found once those are."""
    parts = [(tokens, functions(tokens)) for tokens in files]
    laws, more = None, set()
    while laws != more:
        laws = more
        more = {name for tokens, found in parts for _, _, name, *its in found if is_law(tokens, name, *its, laws)}
    return laws


def without_laws(tokens, laws):
    """The tokens without functions of those names, and without statements that only call one or look at a field."""
    ends, kept, at = {}, [], 0
    for start, _, name, head, body in functions(tokens):
        if name in laws:
            if not is_law(tokens, name, head, body, laws) and not empty_but_calls(tokens, body, laws):
                raise Refused(f"line {tokens[start].line}: `{name}` is a law elsewhere, and does something here")
            ends[start] = (close_of(tokens, body) if tokens[body].text == "{" else body) + 1
    while at < len(tokens):
        behind = ends.get(at)
        if behind is None and kept and kept[-1].text in STARTS:
            behind = idle_statement(tokens, at, laws)
        if behind is None:
            kept.append(tokens[at])
        at = behind or at + 1
    return kept


def empty_but_calls(tokens, body, laws):
    at, end = body + 1, close_of(tokens, body)
    while at is not None and at < end:
        at = idle_statement(tokens, at, laws)
    return at is not None


def is_call(tokens, at):
    return tokens[at].kind == "word" and (tokens[at + 1].text in ("(", "!") or words_at(tokens, at + 1, "::", "<"))


def idle_statement(tokens, at, laws):
    """The index behind a statement that calls a law and nothing else, or that is `let _ = &self.field;`."""
    if [token.text for token in tokens[at:at + 6]] == ["let", "_", "=", "&", "self", "."]:
        return at + 8 if tokens[at + 7].text == ";" else None
    if tokens[at].kind != "word" or tokens[at].text in OTHER_STATEMENTS:
        return None
    index, called = at, None
    while tokens[index].text != ";":
        token = tokens[index]
        called = token.text if is_call(tokens, index) else called
        if token.text == "(":
            index = close_of(tokens, index)
            if tokens[index + 1].text not in (";", "."):
                return None
        elif token.text == "[":
            index = close_of(tokens, index)
        elif token.kind not in ("word",) and token.text not in (".", "::", "<", ">", ",", "&", "'"):
            return None
        index += 1
    if called not in laws:
        return None
    for place in range(at, index):
        if tokens[place].text in ("?", "{", "=") or is_call(tokens, place) and tokens[place].text != called:
            raise Refused(f"line {tokens[place].line}: `{tokens[place].text}` would go with the law `{called}` that it is handed to")
    return index + 1
