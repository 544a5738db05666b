"""What a check said, and what became of the edits in it. All that is known of the prover's words stands here at the top."""

import re

# What a check says of a function: behind a comma stands what else is known of it, as `may wait`.
LINE = re.compile(r"^fn (\S+): (proved|not proved|no proof|could not tell)(?:, [^:;]*)?(?:[:;] (.*))?$", re.M)
# The lines that tell an item, which end the notes on the one before.
ITEM = re.compile(r"(fn|impl|struct|enum|trait) ")
# The last lines: everything is proved, or a check that wasn't cut off refused something. One of some functions alone has no
# verdict on the crate.
PROVED = re.compile(r"^(logic=proved |only=(\d+) proved=\2$)", re.M)
REFUSED = re.compile(r"^(logic=not-proved|only=\d+ proved=)", re.M)
# The words by which `rt must-fail` judges: an error of names says little of a contract, an unread text nothing.
NAMES = re.compile(r"has no field|is not in scope|has no `|was not admitted")
# Where a name in such an error is long, its words stand on the next line.
WRAPPED = re.compile(r"\n  (?=(?:is not in scope|has no|was not admitted)\b)")
UNREAD = re.compile(r"is not in scope|has no field|is no name|operand is missing|expected the end|cannot continue")
ERROR = re.compile(r"(?:\./)?(src/\S+?|specs/\S+?):(\d+):\d+: error(\[[\w-]+\])?: (.*)")
PLACED = re.compile(r"note: \S+:\d+:\d+:|\S+:\d+:\d+: error")
# How rattle tells that it is asked for a function that the crate hasn't.
NO_FUNCTION = re.compile(r"^rattle: error: `\w+` has no function `([^`]+)`", re.M)
# How a check tells of a goal that it didn't prove, with the goal's name and what it found behind.
UNPROVED = re.compile(r"^note: src/\S+ (?:it is not proved that .*|`search` found no proof )\(`([^`]+)`\)(.*)$")
# How it tells of an answer that it refused, with the goal's name.
REFUSED_ANSWER = re.compile(r"/Answers\.antt:\S+ error: `([^`]+)`:")
# What it found, by what that cost: values at which the goal is false, no more to try, or the end of what it may try.
FOUND = ("allow values", "", "gave up")
LIMIT = re.compile(r"antt ran out of |(outgrew the memory limit|stopped at the step limit) \(")

# Where an answer in a function's file is refused, rattle offers no other answers for the goals that it didn't prove, which
# can take as long as the search for them did. It tells of each of these goals all the same.
OFFERS_NOTHING = "offers_nothing : Type 0\noffers_nothing = not_searched\n"
# The answers of a function of which one goal is tried. That they name the proof is a cycle, so the check makes no proof, in
# which it would try all the other goals. The one is tried in a file beside them.
ALONE = """mod {2}
use {0}.Answers.{2} as tried
use {0}.Proof as proof
use {0}.Goals as goal
pub {1} : goal.{1}
{1} = tried.{1}
"""
# The same answers of a copy of the right body, and the file beside them: it names the goals that are tried of wrong bodies. One
# that the right body hasn't tells nothing: no answer is written for it, so the search for a proof of it may well fail.
ASKED = "mod Asked\nuse {0}.Answers.Asked as asked\nuse {0}.Proof as proof\nuse {0}.Goals as goal\n"
ASKED_BESIDE = "use {0}.Goals as goal\n"
ASKED_GOAL = "pub {0} : goal.{0}\n{0} = {1}\n"
NO_GOAL = re.compile(r"^(?:\./)?proofs/(\S+)_asked\d+/Answers/Asked\.antt:\S+ error: .* has no `([^`]+)`", re.M)
# That file, if nobody wrote an answer: what rattle tries on each goal, which runs the last one with fewer steps first.
SEARCHED = """use Rattle.std.proofs.Common.{{rules}}
use Rattle.std.proofs.lemmas.Grind.{{common_steps, elements}}
use native.Mathlib.Omega.{{arith}}
use {0}.Goals as goal
pub {1} : goal.{1}
{1} {2} = first_of (
    search rules,
    grind (arith, elements) steps 2000000,
    grind (arith, common_steps) steps 4000000,
  )
"""
# What is said of that file and is no reason, since it isn't what one of these tactics came to.
UNSEARCHED = re.compile(r"/Answers/Searched\.antt:(?!\S+ error: `[^`]+`: `(?:search|grind|omega)`: )")
# A goal for which an answer is written.
WRITTEN = re.compile(r"^pub (\S+) : goal\.", re.M)
# The proof of a function that was proved before, in a check that only has to take its contract: it is refused at once.
TAKEN = "pub {0}_spec : Type 0\n{0}_spec = not_searched\n"
# What is said of a function's proof that has such an answer, and is no reason.
OURS = "`not_searched`"

# How a run tells what isn't refused.
WORDS = {"proved": "NOT REFUSED", "bad": "BAD EDIT", "elsewhere": "REFUSED ELSEWHERE", "not judged": "NOT JUDGED",
         "by no goal": "REFUSED BY NO GOAL OF THE RIGHT BODY"}


def alone(text, goal):
    """The text of a function's answers without those for other goals."""
    others = set(WRITTEN.findall(text)) - {goal}
    parts = re.split(r"^(?=[^\s})\]])", text, flags=re.M)
    return "".join(it for it in parts if re.match(r"(?:pub )?(\S*)", it)[1] not in others)


class Answer:
    """What a check of a round said."""

    def __init__(self, crate, status, text, searched=(), taken=(), asks_right=False):
        self.asks_right, text = asks_right, WRAPPED.sub(" ", text)
        self.status, self.text, self.searched, self.taken = status, text, searched, taken
        self.lines = text.rstrip("\n").split("\n")
        self.functions = {it[1].partition("::")[2]: (it[2], it[3] or "") for it in LINE.finditer(text)}
        self.crate, self.stray, self.controls, self.notes = crate, "", [], self.notes_of_functions()
        self.proved = status == 0 and PROVED.search(text) is not None
        self.refused = status == 1 and REFUSED.search(text) is not None

    def notes_of_functions(self):
        """The notes on the source of each function, which stand above the function's line."""
        notes, told = {}, []
        for line in self.lines:
            function = LINE.match(line)
            if function and told:
                notes[function[1].partition("::")[2]] = told
            if line.startswith("note: src/"):
                told.append(line)
            elif ITEM.match(line):
                told = []
        return notes

    def unproved(self, name):
        """The goals of a function that the check didn't prove, each with the note on it; first what cost it least."""
        cost_of = lambda note: next((at for at, it in enumerate(FOUND) if it and it in note), FOUND.index(""))
        found = filter(None, map(UNPROVED.match, self.notes.get(name, [])))
        return sorted(((it[1], it[0]) for it in found), key=lambda it: cost_of(it[1]))

    def errors_of(self, name):
        """The lines that the check has on a function's proof."""
        folder = re.escape(name.replace("::", "/"))
        found = re.findall(rf"^(?:note: )?(?:\./)?(?:proofs/{folder}/\S+: error.*)$", self.text, re.M)
        return [it for it in found if OURS not in it and not UNSEARCHED.search(it)]

    def name_of(self, function):
        """The name that the check gives a function, or none where that isn't plain: a method stands in the module of its
        type, or where its impl is of some of the type's arguments alone, in its own, with those in its name."""
        if function in self.functions:
            return function
        module, _, of = function.rpartition("::")[0].rpartition("::")
        method = re.compile(rf"(?:^|::){re.escape(of)}(?:\+[^:]*)?::{function.rpartition('::')[2]}$")
        found = [it for it in self.functions if of[:1].isupper() and method.search(it)]
        here = [it for it in found if it.startswith(f"{module}::")]
        return found[0] if len(found) == 1 else here[0] if len(here) == 1 else ""

    def reason_of(self, edit):
        """The first reason that the check gives of a function of an edit itself; of one that its file names only where
        it stood alone, since beside others that one may be another's."""
        its = [*edit.wrong(), *(edit.asks if edit.reaches_further else ())]
        its = [it for it in map(self.name_of, its) if self.own_reason(it)]
        return next(iter(self.notes.get(its[0], [])), "") or self.own_reason(its[0]) if its else ""

    def own_reason(self, name):
        """The reason that the check gives of a function itself, which isn't that another one isn't proved, nor that an answer
        names what isn't there, since that says nothing of a contract."""
        how, said = self.functions.get(name, ("", ""))
        if how in ("", "proved", "could not tell"):
            return ""
        own = [it for it in said.split("; ") if "did not prove" in it]
        errors = [it for it in self.errors_of(name) if not NAMES.search(it)]
        if name in self.searched:
            # its own file makes it one that isn't proved: only a goal tells
            return next(iter([*errors, *(note for _, note in self.unproved(name))]), "")
        if own or errors:
            return [*errors, *own][0]
        # with a word behind it, another function's proof is what it lacks
        if (how, said) != ("not proved", ""):
            return ""
        return f"fn {name}: not proved" if not any(self.errors_of(name)) else ""

    def fault_of(self, name):
        """What a right body must not have: such a reason, or an answer that names what isn't there."""
        how, _ = self.functions.get(name, ("", ""))
        stale = self.errors_of(name) if how not in ("", "proved") else ()
        return self.own_reason(name) or next(iter(stale), "")

    def has_goal(self, function, goal):
        """Whether the right body of a function has a goal, which was asked of it."""
        return (function.replace("::", "/"), goal) not in NO_GOAL.findall(self.text)

    def strays(self, edits):
        """The functions that the check refused though none of these edits changes them, and it had proofs of them."""
        mine = {self.name_of(name) for it in edits for name in [*it.wrong(), *it.added]}
        return [it for it in self.functions if it not in mine and it not in self.taken and self.fault_of(it)]

    def unread(self):
        """The first line that says that a text couldn't be compiled or read, with its file and its place; none where all was."""
        for line in self.lines:
            at = ERROR.match(line)
            if at and (at[3] or not self.refused or UNREAD.search(re.sub(r"`[^`]*`", "", at[4]))):
                return line, at[1], int(at[2])
        return None


def judge_alone(edit, answer):
    """What became of an edit that stood alone: as `rt must-fail` judges, but a wrong body has to be refused itself."""
    bad = answer.unread()
    if edit.error:
        files = {path for path, *_ in edit.pairs}
        found = (it for it in map(ERROR.match, answer.lines) if it and it[1] in files and it[3] == f"[{edit.error}]")
        told = next((it[0] for it in found), "")
        edit.came_to, edit.why = ("refused", told) if told else ("bad", f"no error[{edit.error}] in {' or '.join(files)}")
    elif bad:
        edit.came_to, edit.why = "bad", bad[0]
    elif answer.proved:
        what = "what it changes" if edit.functions() else "the crate"
        edit.came_to, edit.why = "proved", f"{what} is proved with it"
    elif answer.refused and not edit.reaches_further and (answer.strays([edit]) or not answer.reason_of(edit)):
        others = ", ".join(sorted(it for it in answer.functions if answer.fault_of(it)))
        stale = next((it for name in edit.wrong() for it in answer.errors_of(answer.name_of(name))), "")
        edit.came_to, edit.why = ("by no goal", stale) if stale else ("elsewhere", f"these aren't proved: {others or 'none is named'}")
    elif answer.refused:
        told = [it for it in answer.lines if PLACED.match(it)]
        edit.came_to, edit.why = "refused", answer.reason_of(edit) or next((it for it in told if not NAMES.search(it)), "")
        if not edit.why:
            edit.came_to, edit.why = "by no goal", f"a proof names what it took away: {next(iter(told), '')}"
    elif answer.status == 3 and LIMIT.search(answer.text):
        edit.came_to, edit.why = "refused", f"by a limit of the prover alone: {LIMIT.search(answer.text)[0]}"
    else:
        edit.came_to = "not judged"
        edit.why = f"its check ended with status {answer.status}: {' | '.join(answer.lines[-3:])}"


def judge(crate, edits, answer):
    """What became of the edits of a round; those that it doesn't tell come again, in fewer company."""
    if edits[0].most == 1:
        judge_alone(edits[0], answer)
        return
    strays, bad = answer.strays(edits), answer.unread()
    # first a right body that is refused, which tells the most
    answer.stray = min(strays, key=lambda it: it not in answer.controls, default="")
    if bad or strays or not answer.refused or "" in answer.controls:
        # an edit isn't read, or reaches further than its body, or the check was cut off: fewer at a time tell which
        guilty = [it for it in edits if bad and crate.function_at(edits, bad) in [*it.wrong(), *it.added]]
        for it in edits:
            it.most = 1 if it in guilty else it.most if guilty else max(1, len(edits) // 2)
            it.copy = it.copy if it.most > 1 else ()
        return
    for edit in edits:
        if edit.is_tried_alone(crate):
            judge_goal(crate, edit, answer)
        elif answer.reason_of(edit):
            judge_whole(crate, edit, answer)
        else:
            edit.tries += 1
            waits = any(answer.functions.get(answer.name_of(it), ("",))[0].startswith("no") for it in edit.wrong())
            edit.most = edit.most if waits and edit.tries < 2 else 1
            # one that stands alone stands in its place
            edit.copy = edit.copy if edit.most > 1 else ()


def judge_goal(crate, edit, answer):
    """What became of a copy of which one goal was tried: if that tells nothing, the next is tried, or first all."""
    own = answer.reason_of(edit) if answer.has_goal(crate.name_of(*edit.bodies), edit.goal) else ""
    if own:
        edit.came_to, edit.why = "refused", own
    elif edit.goals:
        edit.goal = edit.goals.pop(0)
    elif edit.goals is None:
        edit.goal = ""
    else:
        edit.came_to, edit.why = "by no goal", "the right body has none of the goals that aren't proved, or their answers are out of date"


def judge_whole(crate, edit, answer):
    """What became of an edit of which all goals were tried: of a copy, each goal that isn't proved is then tried alone, if it is
    to be one of the right body too: first those that cost the check least, last those whose written answers it refused."""
    name = answer.name_of(edit.wrong()[0])
    refused = "\n".join(it for it in answer.errors_of(name) if not NAMES.search(it))
    goals = [*(goal for goal, _ in answer.unproved(name)), *REFUSED_ANSWER.findall(refused)]
    if goals and answer.asks_right and crate.tries_alone(edit):
        edit.goal, *edit.goals = dict.fromkeys(goals)
    else:
        edit.came_to, edit.why = "refused", answer.reason_of(edit)
