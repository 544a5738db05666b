"""The C file around the bodies that were translated: what they need, the header, and the calls that C makes."""

import pathlib
import re

import translate

LAYOUT = """\
_Static_assert(sizeof(dq_answer) == 24 && offsetof(dq_answer, first) == 8 && offsetof(dq_answer, second) == 16,
               "an answer is a code and two numbers");
"""


def text_of(name):
    return pathlib.Path(__file__).with_name(name).read_text(encoding="utf-8")


def helpers(body):
    """What a text calls of helpers.c, and what that names, in the order in which it stands there."""
    blocks = text_of("helpers.c").strip().split("\n\n")[1:]
    named = {re.search(r"struct (\w+) \{|(\w+)\(", it): it for it in blocks}
    named = {next(filter(None, found.groups())): it for found, it in named.items()}
    wanted = {it for it in named if re.search(rf"\b{it}\b", body)}
    wanted |= {other for it in wanted for other in named if re.search(rf"\b{other}\b", named[it])}
    return [block for it, block in named.items() if it in wanted]


def header_text(header):
    """What a header declares, without its guards and its words to C++."""
    text = header[header.index("#define DQ_CAPACITY_LIMIT"):header.rindex("#endif")]
    return re.sub(r"#ifdef __cplusplus\n.*?#endif\n", "", text, flags=re.S).strip() + "\n"


def prototypes(header):
    """Each function that the header declares: its answer, and its parameters' types and names."""
    found = {}
    text = re.sub(r"/\*.*?\*/", "", header, flags=re.S)
    for answer, name, given in re.findall(r"^(\w+) (dq_\w+)\(([^)]*)\);", text, re.M):
        parts = [] if given == "void" else [re.fullmatch(r"(.*?[ *])(\w+)", it.strip()) for it in given.split(",")]
        found[name] = (answer, [(it[1], it[2]) for it in parts])
    return found


def call(function, answer, parameters, module):
    """The function that C calls: the translated body, over what the header declares."""
    name = function.name[1:]
    kinds = [kind for kind, _ in function.parameters]
    # A struct of more than two words is written where the caller says, which is the first argument.
    is_struct = not answer.endswith("_t")
    wanted = (["ptr"] if is_struct else []) + ["ptr" if "*" in kind else 0 for kind, _ in parameters]
    if len(kinds) != len(wanted) or any((a == "ptr") != (b == "ptr") for a, b in zip(kinds, wanted)):
        raise translate.Unknown(f"the header declares {name} with other arguments")
    given = [f"(char *){it}" if "*" in kind else it for kind, it in parameters]
    head = f"{answer} {name}({', '.join(kind + it for kind, it in parameters) or 'void'}) {{"
    if not is_struct:
        return [head, f"    return {module.function(function.name)}({', '.join(given)});", "}", ""]
    body = f"    {module.function(function.name)}({', '.join(['told', *given])});"
    # One load for each number: a load of several of them would wait for their stores.
    numbers = "load_32(told), load_64(told + 8), load_64(told + 16)"
    return [head, "    _Alignas(8) char told[24];", body, f"    return ({answer}){{{numbers}}};", "}", ""]


def c_file(module_text, header):
    """The whole file."""
    lines, exports, module = translate.bodies(module_text)
    declared = prototypes(header)
    names = {it.name[1:] for it in exports}
    if names != set(declared):
        raise translate.Unknown(f"the header and the library have other calls: {sorted(names ^ set(declared))}")
    calls = [line for it in exports for line in call(it, *declared[it.name[1:]], module)]
    body = "\n".join([*lines, *calls])
    return "\n".join([text_of("head.c"), header_text(header), LAYOUT, *helpers(body), "", body]).rstrip() + "\n"
