"""Each index of a row goes through the module `index`, whose bounds check may be turned off since it is proved."""
from patterns import made
from rattle import Refused, close_of, functions

ASSIGNS = {"=", "+=", "-=", "|=", "&=", "^="}
# The methods that are called on what an index gives: whether they change it.
READS = {"cancels", "capacity", "deferred", "is_some", "law", "lock", "next_key", "number", "peek", "shard"}
CHANGES = {
    "cancel", "clear_deferring", "deadline", "extend", "insert_deferring", "look",
    "poll_deferring", "poll_some_deferring", "reap_deferring", "remove", "remove_if_due", "reset", "sweep_some_deferring",
    "take", "take_deferred", "with_value",
}


def references(tokens, head):
    """The parameters of a function that are references."""
    words = [token.text for token in tokens[head:close_of(tokens, head)]]
    return {name for name, *behind in zip(words, words[1:], words[2:]) if behind == [":", "&"]}


def is_index(tokens, at):
    """Whether the bracket at an index is that of an index: behind a name, and of one value that isn't a number."""
    before = tokens[at - 1]
    if before.kind != "word" or before.text in ("in", "return", "mut", "let", "else", "match", "if", "const"):
        return False
    close = close_of(tokens, at)
    inner = tokens[at + 1:close]
    if len(inner) == 1 and inner[0].kind == "number":
        return False
    return all(token.text not in ("..", "..=", ";") for token in inner)


def with_indexes(tokens):
    # From the last to the first, so that what was found before stays where it is.
    for _, _, _, head, body in reversed(functions(tokens)):
        refs = references(tokens, head)
        for at in reversed(range(body, close_of(tokens, body) if tokens[body].text == "{" else body)):
            if tokens[at].text != "[" or tokens[at].kind != "other":
                continue
            if is_index(tokens, at):
                one_index(tokens, at, refs)
            elif tokens[at - 1].text in (")", "]") and tokens[at].before == "":
                raise Refused(f"line {tokens[at].line}: an index of what a call or an index gives")


def base_start(tokens, at):
    """Where the path before an index begins."""
    start = at - 1
    while tokens[start - 1].text == "." and tokens[start - 2].kind == "word":
        start -= 2
    if tokens[start - 1].text in (".", "::"):
        raise Refused(f"line {tokens[at].line}: an index of what no rule knows")
    return start


def one_index(tokens, at, refs):
    start, close = base_start(tokens, at), close_of(tokens, at)
    base, inner = tokens[start:at], tokens[at + 1:close]
    before, after, method, behind = tokens[start - 1].text, *(token.text for token in tokens[close + 1:close + 4])
    from_, changes, star = start, after in ASSIGNS, "*"
    if after == ".":
        if behind == "(" and method not in READS | CHANGES:
            raise Refused(f"line {tokens[at].line}: `{method}` of an index, which no rule knows")
        changes, star = behind in ASSIGNS or behind == "(" and method in CHANGES, ""
    elif before == "&" or before == "mut" and tokens[start - 2].text == "&":
        changes, star = before == "mut", ""
        from_ = start - 1 - changes
    mark = "" if len(base) == 1 and base[0].text in refs else "&mut " if changes else "&"
    head = made(f"{star}{'nth_mut' if changes else 'nth'}({mark}", tokens[from_])
    base[0].before = " " if mark == "&mut " else ""
    tokens[from_:close + 1] = head + base + made(", ", base[0], "") + inner + made(")", base[0], "")
    inner[0].before = " "
