"""Rules for what each call is handed and std needs not: the runtime, the allocator, the name of a source of wakes; and what only
clauses name."""
import re

from patterns import formatted, next_of
from rattle import OPENS, Refused, angle_close_of, close_of, functions, tokens_of

# Bounds that say no more than that a type is a runtime or an allocator.
RUNTIME = {"Wait"}
ALLOCATOR = {"Allocator", "Clone", "Copy", "Drop", "Global"}
# The name of an allocator's type, in all crates.
ALLOC_TYPE = "A"

# A path, by reference or not, and what copies of it or the allocator behind it are taken by.
HANDED = re.compile(r"(?:& |mut )*(\w+(?: \. \w+)*?)((?: \. (?:clone|alloc|allocator) \( \))*)(?: \?)?")
# What ends an element of a list between brackets or angles.
ENDS = {",", ")", "]", "}", ">", ";"}


def elements(tokens, at, end, are_values=False):
    """The elements of a list from an index to its end, each as its tokens; an angle compares values, and encloses types."""
    begin = at
    while at < end:
        token = tokens[at]
        if token.kind == "other" and token.text in OPENS:
            at = close_of(tokens, at)
        elif token.text == "<" and not are_values:
            at = angle_close_of(tokens, at)
        elif token.text in ENDS and not (are_values and token.text == ">"):
            yield tokens[begin:at]
            begin = at + 1
        at += 1
    if begin < end:
        yield tokens[begin:end]


def joined(its):
    """The tokens of elements with commas between them, and none behind the last. Nothing has no comma."""
    new = []
    for it in filter(None, its):
        new += [*tokens_of(",")[:-1], *it] if new else it
    return new


def type_lists(tokens):
    """The lists of types, from the last to the first, as they are then: where each opens and where it ends."""
    for at in reversed(range(len(tokens))):
        if tokens[at].text == "where" and tokens[at].kind == "word":
            yield at, next_of(tokens, at, ("{", ";"))
        elif tokens[at].text == "<":
            try:
                end = angle_close_of(tokens, at)
            except Refused:
                # it compares
                continue
            yield at, end


def texts_of(tokens):
    return [token.text for token in tokens]


def erased_types(tokens):
    """The type parameters of a file that are a runtime's or an allocator's, wherever the file declares them."""
    seen = {}
    for at, end in type_lists(tokens):
        for name, *rest in elements(tokens, at + 1, end):
            if name.kind != "word" or not name.text[0].isupper() or texts_of(rest[:1]) != [":"]:
                continue
            bounds = {token.text for token in rest if token.kind == "word"}
            is_allocator = bounds <= ALLOCATOR and name.text == ALLOC_TYPE
            kind = "runtime" if bounds <= RUNTIME else "allocator" if is_allocator else "kept"
            if name.text == ALLOC_TYPE and kind != "allocator":
                raise Refused(f"line {name.line}: `{ALLOC_TYPE}` isn't an allocator here")
            seen.setdefault(name.text, {})[kind] = name.line
    for name, kinds in seen.items():
        if "runtime" in kinds and len(kinds) > 1:
            raise Refused(f"line {kinds['runtime']}: `{name}` is a runtime here, and something else elsewhere")
    return {name for name, kinds in seen.items() if "kept" not in kinds} | {ALLOC_TYPE}


def kept_type(element, types, is_where):
    """An element of a list of types without the bound `Drop`; nothing of those types, or of what has no bound left."""
    texts = texts_of(element)
    colon = texts.index(":") if ":" in texts else len(texts)
    if element[0].text in types and (colon == 1 or len(element) == 1):
        return []
    if "Drop" in texts[colon:]:
        at = texts.index("Drop")
        first = at - (element[at - 1].text == "+")
        element = element[:first] + element[max(at, first + 2):]
        if len(element) == colon + 1:
            return [] if is_where else element[:colon]
    return element


def without_types(tokens, types):
    """Takes those types out of each list of types, with their bounds, and the bound `Drop`, which all of Rust meets."""
    for at, end in type_lists(tokens):
        its = list(elements(tokens, at + 1, end))
        kept = [kept_type(it, types, tokens[at].text == "where") for it in its]
        if kept == its:
            continue
        if any(kept):
            tokens[at + 1:end] = joined(kept)
        else:
            del tokens[at - (tokens[at - 1].text == "::"):end + (tokens[end].text == ">")]
    return tokens


def without_members(tokens, opening, types):
    """Takes the parameters or fields of such a type, or of a reference to one, out of a bracket: their names."""
    names, kept = set(), []
    close = close_of(tokens, opening)
    for it in elements(tokens, opening + 1, close):
        colon = next((place for place, token in enumerate(it) if token.text == ":"), len(it))
        of = [token.text for token in it[colon + 1:] if token.text != "&" and token.kind != "life"]
        if len(of) == 1 and of[0] in {*types, "Global", "Source", "HostRuntime"}:
            names.add(it[colon - 1].text)
        else:
            kept.append(it)
    if names:
        tokens[opening + 1:close] = joined(kept)
    return names


def without_fields(tokens):
    """Takes such fields out of the structs of a file: their names."""
    names, types = set(), erased_types(tokens)
    for at in reversed(range(len(tokens))):
        if tokens[at].text == "struct" and tokens[at].kind == "word":
            opening = next_of(tokens, at, ("{", ";", "("))
            if tokens[opening].text == "{":
                names |= without_members(tokens, opening, types)
    return names


def is_handed(value, names, fields):
    """Whether a value is one of those names or fields, a reference to it or a copy of it."""
    found = HANDED.fullmatch(" ".join(texts_of(value)))
    path = found[1].split(" . ") if found else [""]
    if found and "allocator" in found[2]:
        return True
    return path[0] == "self" and len(path) > 1 and path[-1] in fields or len(path) == 1 and path[0] in names


def is_handed_field(element, names, fields):
    """Whether `field: value` is such a field of a struct's literal or pattern."""
    texts = texts_of(element)
    return texts[0] in fields and texts[1:2] == [":"] and texts[2] in ("Source", *names)


def without_lets(tokens, start, end, names, fields):
    """Takes `let name = <handed>;` out: the name is handed too."""
    at = start
    while tokens[at] is not end:
        if tokens[at].text == "let" and tokens[at + 2].text == "=":
            behind = next_of(tokens, at + 3, (";", "else", "{"))
            if tokens[behind].text == ";" and is_handed(tokens[at + 3:behind], names, fields):
                names.add(tokens[at + 1].text)
                tokens[behind + 1].before = tokens[at].before
                del tokens[at:behind + 1]
                continue
        at += 1


def without_values(tokens, start, end, names, fields):
    """Takes such values out of each list of a function's body, and the statements that only make one."""
    without_lets(tokens, start, end, names, fields)
    for at in reversed(range(start, tokens.index(end, start))):
        is_literal = tokens[at].text == "{" and tokens[at - 1].kind == "word" and tokens[at - 1].text[0].isupper()
        if tokens[at].kind == "other" and tokens[at].text == "(" or is_literal:
            close = close_of(tokens, at)
            its = list(elements(tokens, at + 1, close, are_values=True))
            kept = [it for it in its if not is_handed(it, names, fields) and not is_handed_field(it, names, fields)]
            if len(kept) < len(its):
                tokens[at + 1:close] = joined(kept)


def without_handed(tokens, fields_of_crate):
    """Takes all that is handed out of a file."""
    types = erased_types(tokens)
    # From the last function to the first, so that what was found before stays where it is.
    for _, at, _, head, body in reversed(functions(tokens)):
        start, end = tokens[body], tokens[close_of(tokens, body)] if tokens[body].text == "{" else None
        names = without_members(tokens, head, types)
        if end is not None:
            without_values(tokens, tokens.index(start, at) + 1, end, names, fields_of_crate)
    return without_types(tokens, types)


def unused(tokens):
    """A parameter that only clauses name is marked as one that the body doesn't use."""
    for _, _, _, head, body in reversed(functions(tokens)):
        if tokens[body].text != "{":
            continue
        inside = tokens[body:close_of(tokens, body)]
        words = {token.text for token in inside}
        for token in inside:
            if token.kind == "string":
                words |= formatted(token.text)
        for at in range(head + 1, close_of(tokens, head)):
            name = tokens[at]
            if name.kind == "word" and tokens[at + 1].text == ":" and tokens[at - 1].text in ("(", ","):
                if name.text not in words and not name.text.startswith("_"):
                    name.text = "_" + name.text
