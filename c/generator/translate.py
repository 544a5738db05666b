"""Writes one module of LLVM's, printed as text, as C11. It stops at whatever it doesn't know.

The module is for a little-endian target with pointers of 64 bits. Each value becomes a variable of an unsigned type, so
that no sum and no shift is undefined in C; memory is read and written by memcpy, so that no type of it is assumed; each
atomic step is a compiler's builtin of the same order. What LLVM calls poison may be any value here.
"""

import collections
import pathlib
import re
import tomllib

KNOWN = tomllib.loads(pathlib.Path(__file__).with_name("instructions.toml").read_text(encoding="utf-8"))
ORDERS, SIGNS = KNOWN["orders"], KNOWN["signs"]
FORMS = {**KNOWN["forms"], **dict.fromkeys(SIGNS, ["o , v"])}
CASTS = [it for it, forms in FORMS.items() if forms == ["o to t"]]
HEAP = ("rattle_alloc", "rattle_realloc", "rattle_dealloc")
WIDTHS = (8, 16, 32, 64)
NAME = r'(?:"[^"]*"|[-\w.$]+)'
TYPE = r"(?:ptr|void|i\d+|\{ [^{}]* \}|\[\d+ x [^\[\]]+\])"
VALUE = rf"(?:[%@]{NAME}|-?\d+|[a-z]+|\{{ [^{{}}]* \}})"
OPERAND = f"({TYPE}) ({VALUE})"
# What narrows a meaning only, beside names in quotes; and the names of metadata, alignments and groups of attributes.
FLAG = re.compile(r'("[^"]*")|(?<![%%@\w.-])(?:(?:%s|align \d+)(?![\w.-])|(?:%s)\((?:[^()]|\([^()]*\))*\)) ?' % tuple(
    "|".join(KNOWN[it].split()) for it in ("flags", "flag_calls")))
BESIDE = re.compile(r", ![\w.]+ !\d+|, align \d+(?=,|$)| #\d+(?=,|$)|\s+; preds = .*")
MARKS = ("atomic", "weak", "inbounds")
# What the letters of a form stand for.
LETTERS = {"o": OPERAND, "t": f"({TYPE})", "v": f"({VALUE})", "w": rf"([%@]?{NAME})", "*": "(.*)"}


class Unknown(Exception):
    """Something in the module that no line here gives a meaning."""


def without_flags(text):
    return FLAG.sub(lambda it: it[1] or "", text)


def groups(pattern, text):
    """The groups of a pattern in a text that has to have no other form."""
    found = re.fullmatch(pattern, text)
    if not found:
        raise Unknown(text.strip())
    return found.groups()


def kind_of(text):
    """A type: a width, `ptr` or `void`, a pair of types, or an array with its length."""
    if text.startswith("{"):
        return tuple(map(kind_of, text.strip("{ }").split(", ")))
    if text.startswith("["):
        count, _, part = text[1:-1].partition(" x ")
        return "array", int(count), kind_of(part)
    return int(text[1:]) if text.startswith("i") else text


def operands(text):
    """All types and values of a list."""
    found = re.findall(OPERAND, text)
    if ", ".join(map(" ".join, found)) != text:
        raise Unknown(f"the operands {text}")
    return [(kind_of(kind), value) for kind, value in found]


def parts_of(op, text):
    """What stands behind an instruction's name, by the form that fits."""
    for form in FORMS.get(op, ()):
        pattern = " ".join(LETTERS.get(it, re.escape(it)) for it in form.split()).replace(" ,", ",")
        if found := re.fullmatch(pattern, text):
            words, parts, kind = iter(found.groups()), [it for it in form.split()[:1] if it in MARKS], None
            for it in form.split():
                kind = kind_of(next(words)) if it in ("o", "t") else kind
                if it in LETTERS:
                    parts.append(kind if it == "t" else (kind, next(words)) if it in ("o", "v") else next(words))
            return parts
    raise Unknown(f"the instruction {op} {text}")


def size(kind):
    if kind == "ptr":
        return 8
    if isinstance(kind, int) and kind in WIDTHS:
        return kind // 8
    if isinstance(kind, tuple) and kind[0] == "array":
        return kind[1] * size(kind[2])
    raise Unknown(f"the size of {kind}")


def is_pair(kind):
    return isinstance(kind, tuple) and kind[0] != "array"


def box(kind):
    """The width of the C type that holds a number."""
    return next(it for it in WIDTHS if kind <= it)


def c_type(kind):
    if kind in ("ptr", "void", 1):
        return {"ptr": "char *", "void": "void ", 1: "bool "}[kind]
    if isinstance(kind, int) and kind <= 64:
        return f"uint{box(kind)}_t "
    if is_pair(kind):
        return f"struct {'_'.join(['of', *map(str, kind)])} "
    raise Unknown(f"a value of the type {kind}")


def cast_to(kind):
    return f"({c_type(kind).strip()})"


def number(kind, value):
    value &= (1 << kind) - 1
    if kind == 1:
        return "true" if value else "false"
    # A constant is as wide as its type: a shift of a narrower one would lose bits.
    return f"{value}u" if kind <= 32 else f"{value}ull"


def fit(kind, text):
    """A number of C cut to its width."""
    if kind == 1:
        return f"(bool)(({text}) & 1)"
    if kind in WIDTHS:
        return f"{cast_to(kind)}({text})"
    return f"{cast_to(kind)}(({text}) & {number(box(kind), (1 << kind) - 1)})"


def wide(kind, text):
    """A number as an operand: narrow ones would become signed in C."""
    return f"(uint32_t){text}" if kind < 32 else text


def known(kind, what, widths=WIDTHS):
    """A width that C has for something."""
    if kind not in widths:
        raise Unknown(f"{what} of {kind} bits")
    return kind


def plain(name):
    """The name of a function as C takes it."""
    name = re.sub(r"<[^<>]*>", "", name.strip('@"'))
    name = re.sub(r"<.*", "", name)
    return re.sub(r"\W+", "_", name).strip("_")


# The type of the value that each makes, by its parts.
KINDS = {
    **dict.fromkeys([*SIGNS, "freeze", "insertvalue"], lambda it: it[0][0]), **dict.fromkeys(CASTS, lambda it: it[-1]),
    **dict.fromkeys(("phi", "call"), lambda it: it[0]), **dict.fromkeys(("getelementptr", "alloca"), lambda it: "ptr"),
    "icmp": lambda it: 1, "select": lambda it: it[1][0], "load": lambda it: it[it[0] == "atomic"],
    "cmpxchg": lambda it: (it[-3][0], 1), "atomicrmw": lambda it: it[2][0],
    "extractvalue": lambda it: it[0][0][int(it[1])],
}


class Step:
    """An instruction: the name that it gives a value, what it is, and its parts, whose operands are words yet."""

    def __init__(self, line):
        self.line, self.align = BESIDE.sub("", line), re.search(r"(?<=, align )\d+", line)
        self.name, self.op, text = groups(rf"\s*(?:(%{NAME}) = )?(\w+) ?(.*)", without_flags(self.line))
        self.parts = parts_of(self.op, text)


class Function:
    def __init__(self, module, head, lines):
        self.module = module
        head = without_flags(re.sub(r"\b(dso_local|hidden|local_unnamed_addr) ", "", head))
        pattern = rf"define ((?:internal |private )?)({TYPE}) (@{NAME})\((.*)\)"
        inside, answer, self.name, parameters = groups(pattern, head)
        self.is_export, self.answer, self.parameters = not inside, kind_of(answer), operands(parameters)
        self.kinds = {name: kind for kind, name in self.parameters}
        self.names = {name: f"a{i}" for i, (_, name) in enumerate(self.parameters)}
        self.count = collections.Counter(re.findall(r"%" + NAME, "\n".join(lines)))
        self.blocks = self.split("\n".join(lines))
        self.labels = {name: f"b{i}" for i, name in enumerate(self.blocks)}
        self.phis = {name: [it for it in body if it.op == "phi"] for name, body in self.blocks.items()}
        self.declared, self.out = [], []

    @staticmethod
    def split(text):
        """The steps of each block, by its label; a switch is one line."""
        text = re.sub(r"\[\n((?:[^\]]*\n)*?)\s*\]", lambda it: "[" + it[1].replace("\n", " ") + "]", text)
        blocks = {}
        here = None
        for line in text.split("\n"):
            label = re.fullmatch(r"(%s):" % NAME, BESIDE.sub("", line))
            if label or here is None:
                here = blocks.setdefault("%" + label[1] if label else "%0", [])
            if line.strip() and not label:
                here.append(Step(line))
        return blocks

    def of(self, operand):
        """An operand in C."""
        kind, value = operand
        if value.startswith("{"):
            return f"{cast_to(kind)}{{{', '.join(map(self.of, operands(value.strip('{ }'))))}}}"
        if value in ("undef", "poison", "zeroinitializer"):
            return f"{cast_to(kind)}{{0}}" if is_pair(kind) else "NULL" if kind == "ptr" else number(kind, 0)
        if value in ("null", "true", "false"):
            return value.replace("null", "NULL")
        if re.fullmatch(r"-?\d+", value):
            return number(kind, int(value))
        if value in self.names:
            return self.names[value]
        raise Unknown(f"the operand {value} of {self.name}")

    def declare(self, name, kind):
        self.kinds[name], self.names[name] = kind, f"v{len(self.declared)}"
        self.declared.append(f"    {c_type(kind)}{self.names[name]};")

    def say(self, text):
        self.out.append("    " + text)

    def jump(self, there):
        """The values that a block's phis take from here, and the step to it."""
        steps = []
        for step in self.phis[there]:
            values = {block: value for value, block in re.findall(r"\[ (.*?), (%%%s) \]" % NAME, step.line)}
            if self.here not in values:
                raise Unknown(f"a phi without {self.here}: {step.line.strip()}")
            steps.append(f"{self.names[step.name]}_in = {self.of((step.parts[0], values[self.here]))};")
        return " ".join([*steps, f"goto {self.labels[there]};"])

    def declare_all(self):
        for step in (it for body in self.blocks.values() for it in body if it.name):
            kind = KINDS[step.op](step.parts)
            if step.op == "alloca":
                self.alloca(step, kind)
            elif self.count[step.name] > 1:
                self.declare(step.name, kind)
                if step.op == "phi":
                    self.declared.append(f"    {c_type(kind)}{self.names[step.name]}_in;")

    def write(self):
        self.declare_all()
        for place, (self.here, body) in enumerate(self.blocks.items()):
            if place:
                self.out.append(f"{self.labels[self.here]}:;")
            for step in self.phis[self.here]:
                self.say(f"{self.names[step.name]} = {self.names[step.name]}_in;")
            for step in body:
                to = self.names.get(step.name)
                if to or not step.name or step.op in ("call", "load", "cmpxchg", "atomicrmw"):
                    self.write_step(step, to)
        return [f"/* {re.sub('::<#[0-9a-f]+>', '', self.name.strip('@' + chr(34)))} */" if not self.is_export else "",
                f"{self.prototype()} {{", *self.declared, *self.out, "}", ""]

    def prototype(self):
        given = ", ".join(f"{c_type(kind)}a{i}" for i, (kind, _) in enumerate(self.parameters)) or "void"
        return f"static {c_type(self.answer)}{self.module.function(self.name)}({given})"

    def alloca(self, step, kind):
        if step not in next(iter(self.blocks.values())):
            raise Unknown(f"room that is taken on the way: {step.line.strip()}")
        self.names[step.name] = f"(char *)r{len(self.declared)}"
        room = max(1, size(step.parts[0]))
        self.declared.append(f"    _Alignas({step.align[0]}) char r{len(self.declared)}[{room}];")

    def write_step(self, step, to):
        op, parts = step.op, step.parts
        if op in ("phi", "alloca"):
            return
        if op in SIGNS:
            self.say(f"{to} = {self.arithmetic(op, *parts)};")
        elif op in CASTS:
            self.say(f"{to} = {self.cast(op, *parts)};")
        elif op in KNOWN["lines"]:
            self.say(KNOWN["lines"][op].format(*(self.of(it) if isinstance(it, tuple) else it for it in parts), to=to))
        else:
            getattr(self, "do_" + op)(to, *parts)

    def arithmetic(self, op, left, right):
        kind = left[0]
        if op in ("shl", "lshr"):
            right = self.of((known(kind, "a shift"), right[1]))
            right = right if right[0].isdigit() else f"({right} & {kind - 1}u)"
        else:
            right = wide(kind, self.of(right))
        return fit(kind, f"{wide(kind, self.of(left))} {SIGNS[op]} {right}")

    def cast(self, op, operand, other):
        kind, value = operand[0], self.of(operand)
        if op == "inttoptr":
            return f"(char *)(uintptr_t){value}"
        if op in ("ptrtoint", "ptrtoaddr"):
            return fit(other, f"(uintptr_t){value}")
        return value if op == "zext" else fit(other, value)

    def do_icmp(self, to, how, left, right):
        if how not in KNOWN["comparisons"] or left[0] == "ptr" and how[0] == "u":
            raise Unknown(f"the comparison {how} of {left[0]}")
        self.say(f"{to} = {self.of(left)} {KNOWN['comparisons'][how]} {self.of(right)};")

    def do_getelementptr(self, to, *parts):
        kind, base, index = parts[-3:]
        known(index[0], "an index", (64,))
        steps = self.of(index) if size(kind) == 1 else f"{self.of(index)} * {size(kind)}u"
        # A pointer of C stays within what it points into, which only the flag says.
        if parts[0] == "inbounds":
            self.say(f"{to} = {self.of(base)} + {f'({steps})' if ' ' in steps else steps};")
        else:
            self.say(f"{to} = (char *)((uintptr_t){self.of(base)} + {steps});")

    def do_load(self, to, *parts):
        if parts[0] == "atomic":
            _, kind, at, order = parts
            step = f"__atomic_load_n((uint{known(kind, 'an atomic load')}_t *){self.of(at)}, {ORDERS[order]});"
            self.say(f"{to} = {step}" if to else f"(void){step}")
        elif to:
            kind, at = parts
            self.say(f"{to} = load_{known(kind, 'a load', ('ptr', *WIDTHS))}({self.of(at)});")

    def do_store(self, to, *parts):
        if parts[0] == "atomic":
            _, value, at, order = parts
            kind = known(value[0], "an atomic store")
            self.say(f"__atomic_store_n((uint{kind}_t *){self.of(at)}, {self.of(value)}, {ORDERS[order]});")
        else:
            value, at = parts
            self.say(f"store_{known(value[0], 'a store', ('ptr', *WIDTHS))}({self.of(at)}, {self.of(value)});")

    def do_cmpxchg(self, to, *parts):
        weak, (at, wanted, new, won, lost) = "true" if parts[0] == "weak" else "false", parts[-5:]
        kind = known(wanted[0], "an exchange")
        if not to:
            raise Unknown("an exchange whose answer nobody reads")
        # A variable of its own stays in a register, which a field whose address is taken doesn't.
        self.say(f"{{ uint{kind}_t seen = {self.of(wanted)};")
        self.say(f"{to}.f1 = __atomic_compare_exchange_n((uint{kind}_t *){self.of(at)}, &seen, {self.of(new)}, {weak}, "
                 f"{ORDERS[won]}, {ORDERS[lost]});")
        self.say(f"{to}.f0 = seen; }}")

    def do_atomicrmw(self, to, op, at, value, order):
        kind = known(value[0], "an atomic step")
        if op not in KNOWN["steps"]:
            raise Unknown(f"the atomic step {op}")
        step = f"__atomic_{KNOWN['steps'][op]}((uint{kind}_t *){self.of(at)}, {self.of(value)}, {ORDERS[order]});"
        self.say(f"{to} = {step}" if to else f"(void){step}")

    def do_br(self, to, first, *rest):
        if rest:
            self.say(f"if ({self.of(first)}) {{ {self.jump(rest[0])} }}")
        self.say(self.jump(rest[1] if rest else first))

    def do_switch(self, to, value, other, cases):
        self.say(f"switch ({self.of(value)}) {{")
        for kind, case, there in re.findall(rf"{OPERAND}, label (%{NAME})", cases):
            self.say(f"case {self.of((kind_of(kind), case))}: {self.jump(there)}")
        self.say(f"default: {self.jump(other)}")
        self.say("}")

    def do_ret(self, to, value=None):
        self.say(f"return {self.of(value)};" if value else "return;")

    def do_call(self, to, answer, text):
        if text == 'asm sideeffect "", "~{memory}"()':
            self.say("__atomic_signal_fence(__ATOMIC_SEQ_CST);")
            return
        name, given = groups(rf"(@{NAME})\((.*)\)", text)
        given = list(map(self.of, operands(given)))
        call = self.intrinsic(name, answer, given) if name.startswith("@llvm.") else (
            f"{self.module.function(name)}({', '.join(given)})")
        if call:
            self.say(f"{to} = {call};" if to else f"{call};")

    def intrinsic(self, name, answer, given):
        base = re.sub(r"(\.[pi]\d+)+$", "", name[6:])
        if base in ("memcpy", "memmove", "memset") and given[3] == "false":
            return f"{base}({', '.join(given[:3])})"
        answers, form = KNOWN["intrinsics"].get(base, ((), ""))
        if answer not in answers:
            raise Unknown(f"the call {name}")
        is_number = answer in WIDTHS
        less = is_number and len(given) == 2 and fit(answer, f"{given[0]} - {given[1]}")
        return form.format(*given, kind=answer, less=less, most=is_number and number(answer, -1))


class Module:
    def __init__(self, text):
        target = re.search(r'^target datalayout = "([^"]*)"', text, re.M)
        if not target or not target[1].startswith("e-") or "p:" in target[1]:
            raise Unknown("the layout of another target")
        self.names, self.functions = {}, []
        for found in re.finditer(r"^(define [^\n]*)\{\n(.*?)^\}\n", text, re.M | re.S):
            head = re.sub(r"\)[^()]*$", ")", found[1].rsplit("#", 1)[0].strip())
            self.functions.append(Function(self, head, found[2].rstrip("\n").split("\n")))
        self.known = {it.name for it in self.functions}

    def function(self, name):
        """The name of a function in C."""
        base = plain(name)
        if name not in self.known and base not in HEAP:
            raise Unknown(f"the function {name}, which the module doesn't have")
        if name not in self.names:
            fresh = f"in_{base}" if name in self.known else base
            if fresh in self.names.values() and name in self.known:
                raise Unknown(f"two functions that would be named {fresh}")
            self.names[name] = fresh
        return self.names[name]


def pair_line(name):
    parts = [it if it == "ptr" else int(it) for it in name.split("_")[1:]]
    fields = " ".join(f"{c_type(kind)}f{i};" for i, kind in enumerate(parts))
    return f"struct {name} {{ {fields} }};"


def bodies(text):
    """The functions of a module as C: the types they need, their prototypes and bodies, and the exported ones."""
    module = Module(text)
    written = [line for it in module.functions for line in it.write()]
    lines = [*(f"{it.prototype()};" for it in module.functions), "", *written]
    pairs = set(re.findall(r"struct (of(?:_\w+)+)", "\n".join(lines))) - {"of_64_64", "of_64_1"}
    return [*map(pair_line, sorted(pairs)), *lines], [it for it in module.functions if it.is_export], module
