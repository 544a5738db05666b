"""The rules and tables of the file `rules`, and how a rule finds tokens and puts others in their place."""
import re
from pathlib import Path

from rattle import CLOSES, OPENS, Refused, close_of, tokens_of

# The tables of the file by their names: pairs of what stands on both sides of the last arrow.
TEXT = Path(__file__).with_name("rules").read_text(encoding="utf-8")
TABLES = {name: [tuple(map(str.strip, line.rsplit(" =>", 1))) for line in lines.splitlines()]
          for name, lines in re.findall(r"^\[(\w+)\]\n((?:.+\n)*)", TEXT, re.M)}


def next_of(tokens, at, texts):
    """The index of the next token with one of these texts, outside of the brackets that open on the way."""
    while tokens[at].text not in texts:
        if tokens[at].kind == "other" and tokens[at].text in OPENS:
            at = close_of(tokens, at)
        at += 1
    return at


def parts_of(text):
    """The tokens of one side of a rule, with its names as one token each."""
    found = []
    for token in tokens_of(text)[:-1]:
        if found and found[-1].text == "$":
            found[-1].text = "$" + token.text
        else:
            found.append(token)
    return found


def made(text, like, before=None):
    """Tokens of a text, in the place of the token `like`."""
    new = tokens_of(text)[:-1]
    for token in new:
        token.line = like.line
    new[0].before = like.before if before is None else before
    return new


def matched(tokens, at, parts):
    """What the names of a rule stand for if it stands at an index, and the index behind it; none if it doesn't."""
    found = {}
    for part, behind in zip(parts, [*parts[1:], None]):
        end = at + 1
        if part[0] == "$" and part[1].islower():
            end = next_of(tokens, at, {behind} if behind in CLOSES else {behind, ";", "{", *CLOSES})
        elif tokens[at].kind != "word" if part[0] == "$" else tokens[at].text != part:
            return None
        texts = [token.text for token in tokens[at:end]]
        # what it follows in its new place may be a word
        tokens[at].before = tokens[at].before or " " * (part[0] == "$")
        if part[0] == "$" and texts != [it.text for it in found.setdefault(part, tokens[at:end])]:
            return None
        at = end
    return found, at


def formatted(text):
    """The names that the text of a format has."""
    return {part.split("}")[0].split(":")[0] for part in text.split("{")[1:]}


# The functions whose answer is the guard of a lock, which the sources add: a rule says `guards` for all of them.
GUARDS = {"lock", "try_lock"}


def rewritten(tokens, name):
    """Rewrites tokens by the rules of a table."""
    by_first = {}
    for old, new in TABLES[name]:
        old = [part.text for part in parts_of(old)]
        by_first.setdefault(old[0], []).append((old, new))
    at = 0
    while at < len(tokens):
        step = 1
        for old, new in by_first.get(tokens[at].text, ()):
            its = matched(tokens, at, old)
            if its and new.startswith("!"):
                raise Refused(f"line {tokens[at].line}: {new[1:]}")
            if its:
                new, _, without = new.partition(" unless ")
                refused = GUARDS & {token.text for found in its[0].values() for token in found}
                if without == "guards" and refused:
                    raise Refused(f"line {tokens[at].line}: `{min(refused)}` in a value that a rule moves")
                new, before = parts_of(new), tokens[at].before
                tokens[at:its[1]] = [token for part in new for token in its[0].get(part.text, [part])]
                tokens[at].before = before
                # past the rule's own words, and not past what it took over
                step = next((place for place, part in enumerate(new) if part.text in its[0]), len(new)) or 1
                break
        at += step
    return tokens
