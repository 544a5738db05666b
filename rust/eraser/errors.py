"""`derive(Error)` with its texts, as `Display` and `std::error::Error` written out. An enum of errors may get more
variants one day, so each is `#[non_exhaustive]` that the table `shut` of `rules` hasn't, as is what the table `open` has.
An error that is said by another's text has that one as its source."""
import re

from patterns import TABLES
from rattle import Refused

ERROR = re.compile(r"^#\[derive\((.*), Error\)\]\n(?:#\[error\((.*)\)\]\n)?pub (enum|struct) (\w+) \{\n((?:.*\n)*?)\}\n", re.M)
VARIANT = re.compile(r"^    #\[error\((.*)\)\]\n    (\w+)(\(.*\)| \{\n(?:.*\n)*?    \})?,\n", re.M)
OPEN = re.compile(rf"^pub (?:enum|struct) (?:{'|'.join(dict(TABLES['open']))})\b", re.M)
SHUT = dict(TABLES["shut"])


def pattern(fields, text):
    """The fields that a text names, and dots for others."""
    used = [field for field in fields if re.search(r"\{" + field + r"[}:]", text)]
    return ", ".join(used if len(used) == len(fields) else [*used, ".."])


def fields_of(body):
    return re.findall(r"(?m)^ +(?:pub )?(\w+):", body)


def arm(name, text, variant, form):
    text = text.replace("{0}", "{it}")
    its = f" {{ {pattern(fields_of(form), text)} }}" if "{" in form else f"({pattern(['it'], text)})".replace("..", "_") if form else ""
    write = f"write!(f, {text})" if "{" in text else f"f.write_str({text})"
    # rustfmt leaves a match as it is whose texts are too wide for it
    return f"            {name}::{variant}{its} => {write},\n"


def written_out(found):
    """An error with what `derive` would write of it."""
    derives, text, kind, name, body = found.groups()
    variants = VARIANT.findall(body)
    if kind == "enum" and len(variants) < len(re.findall(r"(?m)^    \w", body)):
        raise Refused(f"`{name}` has a variant that has no text of an error")
    display, source, mark = f"let {name} {{ {pattern(fields_of(body), str(text))} }} = self;\nwrite!(f, {text})\n", "", ""
    if kind == "enum":
        display = "        match self {\n" + "".join(arm(name, *it) for it in variants) + "        }\n"
        mark = "" if name in SHUT else "#[non_exhaustive]\n"
    if inner := [f"{name}::{variant}(it)" for text, variant, _ in variants if text == '"{0}"']:
        rest = "_ => None,\n" if len(inner) < len(variants) else ""
        source = ("\nfn source(&self) -> Option<&(dyn std::error::Error + 'static)> {\nmatch self {\n"
                  f"{' | '.join(inner)} => Some(it),\n{rest}}}\n}}\n")
    body = re.sub(r" *#\[error\(.*\)\]\n", "", body)
    return (f"#[derive({derives})]\n{mark}pub {kind} {name} {{\n{body}}}\n\nimpl fmt::Display for {name} {{\n"
            f"fn fmt(&self, f: &mut fmt::Formatter<'_>) -> fmt::Result {{\n{display}}}\n}}\n\n"
            f'#[cfg(feature = "std")]\nimpl std::error::Error for {name} {{{source}}}\n')


def with_errors(text):
    """The text of a file with its errors written out."""
    text = OPEN.sub(r"#[non_exhaustive]\n\g<0>", ERROR.sub(written_out, text))
    if strange := re.search(r".*\bError\)\]|.*#\[error\(.*", text):
        raise Refused(f"an error of another form: {strange[0].strip()}")
    return text
