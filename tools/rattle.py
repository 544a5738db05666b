"""Rattle as tokens, and a file of it as a small tree: its functions, and the impls, traits and modules that they stand in.

Every script reads Rattle by this: the eraser its tokens, the others the tree. Rust is read as well.
"""

import dataclasses
import re

PATTERN = re.compile(
    r"(?P<space>\s+)"
    r"|(?P<doc>//[/!][^\n]*)"
    r"|(?P<comment>//[^\n]*)"
    r"|(?P<string>b?\"(?:[^\"\\]|\\.)*\")"
    r"|(?P<char>b?'(?:[^'\\\n]|\\(?:u\{[0-9a-fA-F]+\}|x[0-9a-fA-F]{2}|.))')"
    r"|(?P<life>'[A-Za-z_]\w*)"
    r"|(?P<number>\d[\w]*(?:\.\d[\w]*)?)"
    r"|(?P<word>(?:r#)?[A-Za-z_]\w*)"
    r"|(?P<mark>\.\.=|\.\.\.|<<=|>>=|::|->|=>|\.\.|&&|\|\||==|!=|<=|>=|\+=|-=|\*=|/=|%=|\^=|\|=|&=|<<)"
    r"|(?P<other>.)",
    re.DOTALL,
)
OPENS = {"(": ")", "[": "]", "{": "}"}
CLOSES = {")", "]", "}"}
# What stands between a function's header and its body for proofs alone.
CLAUSES = {"requires", "ensures", "invariant", "decreases"}


class Refused(Exception):
    """What no rule knows, with its line."""


@dataclasses.dataclass(slots=True, eq=False)
class Token:
    """A token: its text, the spaces and comments before it, its line, and where it stands in the text."""

    kind: str
    text: str
    before: str = ""
    line: int = 0
    place: int = 0


def tokens_of(text):
    """The tokens of a text, the last one an empty token that has what is left before it."""
    found, before, line = [], "", 1
    for match in PATTERN.finditer(text):
        kind, piece = match.lastgroup, match.group()
        if kind in ("space", "comment"):
            before += piece
        else:
            found.append(Token(kind, piece, before, line, match.start()))
            before = ""
        line += piece.count("\n")
    return [*found, Token("end", "", before, line, len(text))]


def text_of(tokens):
    return "".join(token.before + token.text for token in tokens)


def close_of(tokens, at, step=1):
    """The index of the bracket that closes the one at an index, or with a step of -1 of the one that it closes."""
    depth, index = 0, at
    while 0 <= index < len(tokens):
        if tokens[index].kind == "other":
            depth += (tokens[index].text in OPENS) - (tokens[index].text in CLOSES)
            if depth == 0:
                return index
        index += step
    raise Refused(f"line {tokens[at].line}: a bracket isn't closed")


def angle_close_of(tokens, at):
    """The index of the angle that closes the one at an index."""
    depth, index = 0, at
    while index < len(tokens):
        text = tokens[index].text
        if text in OPENS:
            index = close_of(tokens, index)
        elif text == "<":
            depth += 1
        elif text == ">":
            depth -= 1
            if depth == 0:
                return index
        elif text == ";":
            break
        index += 1
    raise Refused(f"line {tokens[at].line}: an angle isn't closed")


def words_at(tokens, at, *texts):
    """Whether these texts stand at an index, one after the other."""
    return all(tokens[at + step].text == text for step, text in enumerate(texts) if at + step < len(tokens))


def clause(tokens, at):
    """The index behind a clause: its word, a name where it has one, and braces; never as a name of Rust."""
    if tokens[at].text not in CLAUSES or tokens[at].kind != "word":
        return None
    after = at + 1
    # as in `ensures* writes_back {..}`
    after += tokens[after].text == "*"
    after += tokens[after].kind == "word"
    return close_of(tokens, after) + 1 if tokens[after].text == "{" else None


def functions(tokens):
    """Each function: where its item begins and `fn` stands, its name, its parameters' bracket, its body or its end."""
    found = []
    for at, token in enumerate(tokens):
        if token.text != "fn" or token.kind != "word" or tokens[at + 1].kind != "word":
            continue
        index = angle_close_of(tokens, at + 2) + 1 if tokens[at + 2].text == "<" else at + 2
        found.append((item_start(tokens, at), at, tokens[at + 1].text, index, body_of(tokens, close_of(tokens, index) + 1)))
    return found


def body_of(tokens, at):
    """The index of a function's body, or of the semicolon in its place, behind its answer and its clauses."""
    while tokens[at].text not in ("{", ";"):
        at = clause(tokens, at) or (close_of(tokens, at) if tokens[at].text in OPENS else at) + 1
    return at


def item_start(tokens, at):
    """Where the item of a word like `fn` begins: with its docs, its attributes and its visibility."""
    while at > 0:
        before = tokens[at - 1]
        if before.kind == "doc" and before.text.startswith("///"):
            at -= 1
        elif before.text in ("pub", "const", "unsafe") and before.kind == "word":
            at -= 1
        elif before.text == ")" and tokens[at - 4].text == "pub":
            at -= 4
        elif before.kind == "string" and tokens[at - 2].text == "extern":
            at -= 2
        elif before.text == "]" and tokens[close_of(tokens, at - 1, -1) - 1].text == "#":
            at = close_of(tokens, at - 1, -1) - 1
        else:
            break
    return at


def homes(tokens):
    """Each module, trait and impl with functions: where its word stands, and its bracket."""
    for at, token in enumerate(tokens):
        if token.kind != "word" or token.text not in ("mod", "trait", "impl"):
            continue
        # as the word of an item, and not in a type
        if at and tokens[at - 1].kind != "doc" and tokens[at - 1].text not in ("}", ";", "{", "]", "pub", ")", "unsafe"):
            continue
        body = next(it for it in range(at + 1, len(tokens)) if tokens[it].text in ("{", ";"))
        if tokens[body].text == "{":
            yield at, body


@dataclasses.dataclass
class Function:
    """A function: its name behind those of what it stands in, and the places in the text where what is above it begins,
    its header, its body, and where it ends; and whether another may stand beside it, as none may that a trait names, and
    whether it is public."""

    name: str
    above: int
    begin: int
    body: int
    end: int
    is_free: bool
    is_public: bool


class File:
    """A file, given the name of its module: its text, its tokens, and its functions."""

    def __init__(self, text, module=""):
        self.text, self.tokens, self.module = text, tokens_of(text), module
        self.functions = list(self.read())

    def read(self):
        inside = list(self.homes())
        for start, at, name, _, body in functions(self.tokens):
            closes = close_of(self.tokens, body) if self.tokens[body].text == "{" else body
            around = [home for home in inside if home[0] < at < home[1]]
            full = "::".join(filter(None, [self.module, *(it[2] for it in around), name]))
            head = start
            while self.tokens[head].kind == "doc" or self.tokens[head].text == "#":
                head = head + 1 if self.tokens[head].kind == "doc" else close_of(self.tokens, head + 1) + 1
            is_public = self.tokens[head].text == "pub" and self.tokens[head + 1].text != "("
            places = (self.tokens[it].place for it in (start, head, body))
            yield Function(full, *places, self.tokens[closes].place + 1, all(it[3] for it in around), is_public)

    def homes(self):
        """The modules, traits and impls: where each opens and closes, its name, and whether its functions are its own."""
        for at, body in homes(self.tokens):
            word = self.tokens[at].text
            words = self.text[self.tokens[at].place + len(word):self.tokens[body].place]
            name = name_of_impl(words) if word == "impl" else self.tokens[at + 1].text
            is_own = word == "mod" or word == "impl" and " for " not in words
            yield body, close_of(self.tokens, body), name, is_own

    def function_at(self, place):
        """The function in which a place of the text stands, or above which; none outside of all."""
        return next((it for it in self.functions if it.above <= place < it.end), None)

    def named(self, name):
        """The functions of a name, without the file's own module."""
        full = "::".join(filter(None, (self.module, name)))
        return [it for it in self.functions if it.name == full]

    def has_types(self, function):
        """Whether a function has type parameters, be it those of its impl."""
        tokens, begin, body = self.tokens, function.begin, function.body
        heads = [at + 1 for at, it in homes(tokens) if tokens[at].place < begin < tokens[close_of(tokens, it)].place]
        heads.append(next(at + 2 for at, token in enumerate(tokens) if token.place >= begin and token.text == "fn"))
        words = [it for at in heads if tokens[at].text == "<" for it in tokens[at:angle_close_of(tokens, at)]]
        return any(it.kind == "word" for it in words) or any(it.text == "impl" for it in tokens if begin <= it.place < body)

    def copied(self, full_name, name):
        """The name and the text of a function under another name, with what stands above it; none where it can't stand beside it,
        or where it calls itself."""
        function, plain = next(it for it in self.functions if it.name == full_name), full_name.rpartition("::")[2]
        inside = [it for it in range(len(self.tokens)) if function.body <= self.tokens[it].place < function.end]
        if not function.is_free or any(self.calls(at, plain) for at in inside):
            return ()
        line = self.text.rfind("\n", 0, function.above) + 1
        header = re.sub(rf"\bfn {plain}\b", f"fn {name}", self.text[function.begin:function.body], count=1)
        return name, self.text[line:function.begin] + header + self.text[function.body:function.end]

    def calls(self, at, name):
        """Whether a token is the name of this very function, where it is called."""
        if not words_at(self.tokens, at, name, "("):
            return False
        before = self.tokens[at - 1].text
        return before not in (".", "::") or self.tokens[at - 2].text == ("self" if before == "." else "Self")


def module_of(path):
    """The module of a file below src/."""
    return "::".join(it for it in path[len("src/"):-len(".rt")].split("/") if it not in ("lib", "main", "mod"))


def name_of_impl(words):
    """The name that the check gives an `impl`: the type, and the trait with its arguments behind it. The impl of a type
    with some arguments alone has them all in its name, as in `Queue+T+VecWords+A`."""
    words, own = re.sub(r"\bwhere\b.*", "", words, flags=re.S).strip(), ""
    if words.startswith("<"):
        tokens = tokens_of(words)
        end = tokens[angle_close_of(tokens, 0)].place
        own, words = words[1:end], words[end + 1:].strip()
    of, _, type_name = words.rpartition(" for ")
    last = lambda path: re.sub(r"^.*::", "", re.match(r"[^<]*", path)[0]).strip()
    arguments = type_name.partition("<")[2].rpartition(">")[0]
    is_own = lambda it: not it or it.startswith("'") or re.search(rf"(?:^|,)\s*(?:const )?{re.escape(it)}\b", own)
    if not of and not all(is_own(it.strip()) for it in arguments.split(",")):
        return "+".join([last(type_name), *re.findall(r"(?<!')\b\w+", arguments)])
    # of the type's own arguments the check names those that are no parameters, as in `OptionU64`
    plain = re.findall(r"(?<!')\b[a-z]\w*\b(?!::)", type_name.partition("<")[2])
    name = "".join(it[:1].upper() + it[1:] for it in (last(type_name), *plain))
    return name + last(of) + "".join(it for it in re.findall(r"\w+", of.partition("<")[2]) if not is_own(it))
