"""The copies in which crates are checked, each with some edits in it, over what was built of the crates below."""

import contextlib
import itertools
import os
import pathlib
import re
import shutil
import signal
import subprocess
import threading

import answers
from source import TOP, packed


class Bench:
    """The copies in which crates are checked."""

    def __init__(self, room, crates, graph, lines, asks_right):
        self.room, self.crates, self.graph, self.lines, self.is_over = room, crates, graph, lines, False
        self.asks_right = asks_right
        self.checks, self.numbers, self.lock = set(), itertools.count(1), threading.Lock()
        self.seconds = {}

    def below(self, name):
        """The crates of the repository that a crate stands on, lowest first, and itself."""
        found = []
        for it in self.graph[name]:
            found += [below for below in self.below(it) if below not in found]
        return [*found, name]

    def stop(self):
        """Ends the checks that still run, and begins no other."""
        with self.lock:
            self.is_over = True
        for it in list(self.checks):
            with contextlib.suppress(ProcessLookupError):
                os.killpg(it.pid, signal.SIGKILL)

    def ran(self, name, folder, words):
        """Runs a check in a crate's folder: its status and what it said. A killed one runs again."""
        how = {"stdin": subprocess.DEVNULL, "stdout": subprocess.PIPE, "stderr": subprocess.STDOUT}
        how.update(cwd=folder, encoding="utf-8", errors="replace", process_group=0)
        for last in (False, True):
            with self.lock:
                if self.is_over:
                    return 2, "it was ended"
                ran = subprocess.Popen([*words, "--jobs", "1"], **how)
                self.checks.add(ran)
            said = ran.stdout.read()
            _, status, used = os.wait4(ran.pid, 0)
            ran.returncode = os.waitstatus_to_exitcode(status)
            self.checks.discard(ran)
            with self.lock:
                self.seconds[name] = self.seconds.get(name, 0) + used.ru_utime + used.ru_stime
            if 0 <= ran.returncode <= 3 or last:
                return ran.returncode, said

    def rattle(self, name, folder, only):
        """The words by which rattle checks some functions of a crate, none for all, as rt itself calls it: over built
        libraries, and what the folder keeps of earlier checks."""
        kind, of_kit = self.lines[name][0], [it for it in self.lines[name][1] if it not in self.graph]
        kit = pathlib.Path(shutil.which("rt")).resolve().parent.parent
        built = lambda it: TOP / "crates" / it / "out" / "rlib"
        root = "src/main.rt" if (folder / "src" / "main.rt").is_file() else "src/lib.rt"
        words = [f"{kit}/bin/rattle", "check", "--crate-name", name, root, "-L", f"dependency={kit}/rlibs"]
        of_kit = {it: f"{kit}/rlibs/{it}" for it in ("std", *of_kit)}
        for it, library in {**of_kit, **{it: built(it) / it for it in self.graph[name]}}.items():
            words += ["--extern", f"{it}={library}.rlib"]
        for it in self.below(name)[:-1]:
            words += ["-L", f"dependency={built(it)}"]
        words += ["--crate-type", "staticlib"] if "staticlib" in kind else []
        words += ["--antt-project", f"{kit}/rattle/logic/antt-project.json", "--logic-built", f"{kit}/logic_built"]
        words += ["--links", f"{name}=", "--incremental", "out/incremental"]
        return [*words, *(word for it in only for word in ("--only", it))]

    def check(self, crate, edits):
        """Checks a copy of a crate with these edits in it, over what earlier checks kept; where it only takes the contracts
        of what they call, with a right body beside the wrong ones."""
        at = self.room / f"round-{next(self.numbers)}"
        takes_contracts = all(it.is_searched() for it in edits) and any(it.copy for it in edits)
        folder = shutil.copytree(crate.folder, at / "crates" / crate.name, ignore=shutil.ignore_patterns("out", "edits"))
        controls = crate.right([it for it in edits if it.pairs])[:1] if takes_contracts else []
        for it in controls:
            # it is proved as a whole
            it.goal = ""
        edits = [*edits, *controls]
        try:
            kept = self.room / "kept" / crate.name
            kept.mkdir(parents=True, exist_ok=True)
            shutil.copytree(kept, folder / "out" / "incremental", copy_function=link)
            for edit in (it for it in edits if it.copy):
                copy_proof(crate, folder, edit)
            asked = ask_for_goals(crate, folder, edits) if self.asks_right else []
            taken = take_contracts(crate, folder, edits) if takes_contracts else []
            for path, text in crate.texts_with([*edits, *asked], taken).items():
                if text != crate.texts[path]:
                    (folder / path).write_text(text, encoding="utf-8")
            searched = self.search(crate, folder, edits)
            only = sorted({name for it in [*edits, *asked] for name in it.functions()})
            status, said = self.ran(crate.name, folder, self.rattle(crate.name, folder, only))
            if answers.NO_FUNCTION.search(said):
                # a name that the check gives otherwise: it is asked for all
                status, said = self.ran(crate.name, folder, self.rattle(crate.name, folder, ()))
            if not any(it.reaches_further for it in edits):
                keep_work(folder / "out" / "incremental", kept, [crate.name_of(name) for it in [*edits, *asked] for name in it.wrong()])
            taken += [crate.name_of(it.wrong()[0]) for it in asked]
            answer = answers.Answer(crate.name, status, said, searched, taken, self.asks_right)
            answer.controls = [answer.name_of(it.wrong()[0]) for it in controls]
            return answer
        finally:
            shutil.rmtree(at, ignore_errors=True)

    def search(self, crate, folder, edits):
        """Has a check only tell what isn't proved of the functions of these edits, where that may do: which they are. If a
        goal is noted of a copy, which nothing calls, the check tries that goal alone."""
        found = []
        for edit, function in ((edit, it) for edit in edits if edit.is_searched() for it in edit.bodies):
            its = crate.name_of(edit.wrong()[0] if edit.copy else function)
            at = folder / "proofs" / its.replace("::", "/")
            if not (at / "Proof.antt").exists():
                found.append(its)
                at.mkdir(parents=True, exist_ok=True)
                if edit.is_tried_alone(crate):
                    path, it = crate.place_of(function)
                    try_alone(at, crate.module_of_proof(its), edit.goal, crate.sources[path].has_types(it))
                else:
                    # an answer that is refused, so that no other is offered
                    with (at / "Answers.antt").open("a", encoding="utf-8") as file:
                        file.write(f"\n{answers.OFFERS_NOTHING}")
        return found


def copy_proof(crate, folder, edit):
    """Gives a copy of a function what was written of the function's proof."""
    (function,) = edit.bodies
    at, to = (folder / crate.proof_of(it) for it in (function, edit.wrong()[0]))
    one, other = (".".join(["", *crate.name_of(it).split("::"), ""]) for it in (function, edit.wrong()[0]))
    for file in at.glob("*.antt"):
        to.mkdir(parents=True, exist_ok=True)
        text = file.read_text(encoding="utf-8")
        for kind in ("proofs", "specs.contracts"):
            text = text.replace(f"Rattle.{crate.name}.{kind}{one}", f"Rattle.{crate.name}.{kind}{other}")
        (to / file.name).write_text(text, encoding="utf-8")


def keep_work(made, kept, edited):
    """Keeps what a check made, but of the functions that were edited in it: later checks want those as they stand."""
    parts = [f".{it.replace('::', '.')}." for it in edited]
    for file in filter(pathlib.Path.is_file, made.rglob("*")):
        if "-proofs." not in file.name or not any(it in file.name for it in parts):
            to = kept / file.relative_to(made)
            to.parent.mkdir(parents=True, exist_ok=True)
            file.replace(to)


def take_contracts(crate, folder, edits):
    """Gives the functions that these edits leave as they stand proofs that are refused at once: which they are. Where one
    has another name for rattle, that says so and goes on."""
    wrong = {crate.name_of(name) for it in edits for name in [*it.wrong(), *it.added]}
    free = [crate.name_of(it.name) for file in crate.sources.values() for it in file.functions if it.is_free]
    found = [it for it in free if it not in wrong]
    for function in found:
        at = folder / "proofs" / function.replace("::", "/")
        at.mkdir(parents=True, exist_ok=True)
        for name in ("Invariants.antt", "Answers.antt"):
            (at / name).unlink(missing_ok=True)
        (at / "Proof.antt").write_text(answers.TAKEN.format(function.rpartition("::")[2]), encoding="utf-8")
    return found


def ask_for_goals(crate, folder, edits):
    """Has a check tell which of the goals that are tried alone the right bodies haven't, in copies of these: the copies."""
    goals, groups = {}, []
    for edit in (it for it in edits if it.is_tried_alone(crate)):
        goals.setdefault(next(iter(edit.bodies)), (edit, set()))[1].add(edit.goal)
    # no goal beside one that it is a part of: rattle makes such a goal whole or in its parts, as the answers name it
    is_apart = lambda group, goal: not any(goal.startswith(f"{it}-") for it in group)
    for edit, its in goals.values():
        groups += [(edit, group) for group in packed(sorted(its), is_apart)]
    copies = crate.right([edit for edit, _ in groups], end="asked")
    for it, (_, group) in zip(copies, groups):
        copy_proof(crate, folder, it)
        name = crate.name_of(it.wrong()[0])
        at = folder / "proofs" / name.replace("::", "/")
        (at / "Answers").mkdir(parents=True, exist_ok=True)
        for file, head, answer in (("Answers", answers.ASKED, "asked.{0}"), ("Answers/Asked", answers.ASKED_BESIDE, "not_searched")):
            text = "".join(answers.ASKED_GOAL.format(goal, answer.format(goal)) for goal in group)
            (at / f"{file}.antt").write_text(head.format(crate.module_of_proof(name)) + text, encoding="utf-8")
    return copies


def try_alone(folder, module, goal, has_types):
    """Has a check try one goal of a function: by the answer that was written for it, or else as the prover would."""
    answers_file = folder / "Answers.antt"
    before = answers_file.read_text(encoding="utf-8") if answers_file.exists() else ""
    beside, text = "Written", answers.alone(before, goal)
    if goal not in answers.WRITTEN.findall(before):
        beside, text = "Searched", answers.SEARCHED.format(module, goal, "g c" if has_types else "c")
    (folder / "Answers").mkdir(exist_ok=True)
    (folder / "Answers" / f"{beside}.antt").write_text(text, encoding="utf-8")
    answers_file.write_text(answers.ALONE.format(module, goal, beside), encoding="utf-8")


def link(one, other):
    """Gives a file that a check made a second name, if a check only ever replaces such a file, or copies it."""
    return os.link(one, other) if one.endswith(".oantt") else shutil.copy2(one, other)


def has_room(checks, room):
    """Whether there is memory for so many checks beside those that run."""
    found = re.search(r"^MemAvailable: +(\d+) kB", pathlib.Path("/proc/meminfo").read_text(), re.M)
    return int(found[1]) >= checks * room
