"""Changes the definitions that must be believed, one row at a time, and says which proofs notice.

    python3 tools documents.mutate_definitions [--only TITLE-PART] [--from TITLE-PART] [--jobs N] [--minutes N] [--built FOLDER]
                                                [--work FOLDER] [--results FILE]
    python3 tools documents.mutate_definitions --list | --table [--results FILE]

A definition can't be proved right; but a wrong row should contradict something else that was said: the code, a lemma, a law, or an
example. The mutations are those of tools/documents/definition_mutations.txt, a block of lines each: a title, and then of each edit the
file, the old text and the new one, on a line each. The first edit is of the definition; others are of code that is wrong in the same way,
so that something else has to notice. Each mutation is made in a copy of the repository's last commit, and the crate and those that depend
on it are checked, the lowest first, up to the first that is not proved. Crates of tests are left out.

- A mutation is *noticed* if a crate is not proved: the result has the lemmas that fail, with their files, the goals of the code that no
  longer meets its contracts, and the laws that depend on either. A proof that no longer fits its statement counts, whether or not
  another proof would fit.
- It is *bad* if a definition no longer has a type, its own or one that cites it. That shows nothing.
- It is noticed by *nothing* if all crates are proved.
- It is *open* if N minutes (--minutes) are over before that, or a check ends without a verdict.

--list shows the mutations, and fails if an `old` is not in its file exactly once. --only, which may be repeated, runs those with this
in their titles; --from begins with the first such. The copy is made in the folder --work and removed at the end. It begins with what
a build left in crates/*/out of the checkout --built (this one), so that only what changed is proved. Nothing in this checkout is changed.

Results are appended to the file --results, a line of JSON each. --table prints them as a table in Markdown, without those whose
mutation has changed since. A mutation takes about a minute; one that nothing notices takes as long as the proof of all crates above it.
The exit status is 0 if each mutation was noticed, 1 if one was not or if the file of mutations has a fault, and 2 if a crate is not proved with
nothing mutated or the file has a block of another form.
"""
from __future__ import annotations

import json
import os
import re
import shutil
import signal
import subprocess
import sys
import tempfile
import time
from argparse import Namespace
from typing import Any, Dict

import check_up
from documents.definitions import SpecFile
from shared import command, start
from shared.home import HOME

MUTATIONS = f"{HOME}/tools/documents/definition_mutations.txt"
FIELDS = "file", "old", "new"
ERROR = re.compile(r"^\./(\S+?):(\d+):\d+: error: (?:`([^`]+)`: )?(.*)$", re.M)
FUNCTION = re.compile(r"^fn (\S+): (?:not proved|no proof)(.*)$", re.M)
GOAL = re.compile(r"did not prove ((?:`[^`]+`(?:, | and )?)+)")
# A law is a public function of one of these modules.
LAW = re.compile(r"^lw_(?:axiomatic|\w+::\w*laws)::")
# The files that a mutation has to leave without an error: definitions, and code with its clauses. (specs/laws/ has proofs.)
DEFINITION = re.compile(r"^(?:specs/(?!laws/)|src/)")
# The number of lemmas or laws that a cell of the table names.
SHOWN = 3


class Unusable(Exception):
    """The mutations or the copy can't be used, and why."""


class Edit:
    """A change of one line of a file: the file, the old text and the new one."""

    def __init__(self, file: str, old: str, new: str) -> None:
        """Makes an edit: `old` is replaced by `new` in a file."""
        self.file, self.old, self.new = file, old, new

    def read_file(self, home: str) -> str:
        """Returns the contents of the file in a checkout."""
        with open(f"{home}/{self.file}", encoding="utf-8") as file:
            return file.read()

    def write_file(self, home: str, text: str) -> None:
        """Writes the file of a checkout."""
        with open(f"{home}/{self.file}", "w", encoding="utf-8") as file:
            file.write(text)


class Mutation:
    """A changed definition: its title and its edits. The first edit is of the definition, further ones are of code that goes with it."""

    def __init__(self, title: str, edits: list[Edit]) -> None:
        """Makes a mutation. `title` says in words what is changed; `edits` has at least one edit, and that of the definition is first."""
        self.title, self.edits = title, edits
        self.first = edits[0]
        self.crate = self.first.file.split("/")[1]

    def find_definition(self) -> str:
        """Returns the name of the definition that has the old text."""
        text = self.first.read_file(HOME)
        number = text[: text.index(self.first.old)].count("\n") + 1
        definition = [it.name for it in SpecFile(self.first.file).defined.values() if it.first <= number <= it.last]
        return definition[0] if definition else "?"

    def format_place(self) -> str:
        """Returns the definition with its crate and file, as a cell of the table has it."""
        return f"{self.crate} `{os.path.splitext(os.path.basename(self.first.file))[0]}.{self.find_definition()}`"

    def list_texts(self) -> list[str]:
        """Returns the title and all texts, by which a result is known to be of this mutation."""
        return [self.title, *(text for it in self.edits for text in (it.file, it.old, it.new))]


def list_mutations() -> list[Mutation]:
    """Returns the mutations, in their order."""
    with open(MUTATIONS, encoding="utf-8") as file:
        return [parse_mutation(block) for block in file.read().split("\n\n") if block.strip()]


def parse_mutation(block: str) -> Mutation:
    """Returns the mutation of a block of lines: a title, and for each edit a file, an old text and a new one. Raises Unusable if the block has
    another form.
    """
    lines = re.findall(r"^(\w+): (.*)$", block, re.M)
    names, texts = [name for name, _ in lines], [text for _, text in lines]
    count = len(lines) // 3
    if not count or names != ["title", *FIELDS * count]:
        raise Unusable(f"not the line title, and then {', '.join(FIELDS)}:\n{block}")
    return Mutation(texts[0], [Edit(*texts[1 + 3 * number : 4 + 3 * number]) for number in range(count)])


def find_faults(listed: list[Mutation]) -> list[str]:
    """Returns the faults of the mutations, a line each."""
    counts = [(it.title, edit.file, edit.read_file(HOME).count(edit.old)) for it in listed for edit in it.edits]
    titles = [it.title for it in listed]
    faults = [f"{title}: `old` is {count} times in {file}" for title, file, count in counts if count != 1]
    return faults + [f"{it}: two mutations have this title" for it in sorted(set(titles)) if titles.count(it) > 1]


# The result of a mutation, as it is written to the file of results.
Result = Dict[str, Any]


class Copy:
    """A copy of the last commit, in which mutations are made. `unmutated` has what was built of each crate with nothing mutated."""

    def __init__(self, work: str, built: str, jobs: str) -> None:
        """Copies the last commit into a folder of `work`. `built` is the repository of which what is built is taken."""
        os.makedirs(work, exist_ok=True)
        self.folder = tempfile.mkdtemp(dir=work)
        self.tree, self.unmutated, self.built, self.jobs = f"{self.folder}/tree", f"{self.folder}/kept", built, jobs
        self.below = check_up.read_dependencies()
        # The crates that are proved with nothing mutated, and those checked since a mutation was made.
        self.sound: set[str] = set()
        self.touched: set[str] = set()
        os.makedirs(self.tree)
        packed = subprocess.run(["git", "-C", HOME, "archive", "HEAD"], stdout=subprocess.PIPE, check=True)
        subprocess.run(["tar", "x", "-C", self.tree], input=packed.stdout, check=True)

    def remove(self) -> None:
        """Removes the copy."""
        shutil.rmtree(self.folder, ignore_errors=True)

    def make_out_path(self, crate: str) -> str:
        """Returns the folder of what is built of a crate."""
        return f"{self.tree}/crates/{crate}/out"

    def run_rt(self, crate: str, arguments: list[str], seconds: float | None) -> tuple[int | None, str]:
        """Runs `rt` in a crate of the copy, with all that it starts ended after `seconds`. Returns its status and what it printed; the status is
        `None` if the time was too short. Raises again what interrupts it.
        """
        arguments = ["nice", "rt", *arguments, "--jobs", self.jobs]
        home = f"{self.tree}/crates/{crate}"
        with subprocess.Popen(arguments, cwd=home, stdout=subprocess.PIPE, stderr=subprocess.STDOUT, text=True, start_new_session=True) as ran:
            try:
                printed, _ = ran.communicate(timeout=seconds)
            except BaseException as why:
                # (The provers that `rt` starts are of its process group.)
                os.killpg(ran.pid, signal.SIGKILL)
                if not isinstance(why, subprocess.TimeoutExpired):
                    raise
                return None, ran.communicate()[0]
        return ran.returncode, printed

    def choose_command(self, crate: str) -> str:
        """Returns the command that proves a crate, and builds it for those above."""
        return check_up.make_command(crate, self.below, False)[1]

    def copy_built(self, crate: str) -> None:
        """Copies what was built of a crate, if that is not done already."""
        if not os.path.exists(f"{self.unmutated}/{crate}"):
            source = f"{self.built}/crates/{crate}/out"
            if os.path.exists(source):
                shutil.copytree(source, f"{self.unmutated}/{crate}", symlinks=True)
            else:
                os.makedirs(f"{self.unmutated}/{crate}")
            self.restore_built(crate)

    def restore_built(self, crate: str) -> None:
        """Puts what was built of a crate with nothing mutated into the copy."""
        shutil.rmtree(self.make_out_path(crate), ignore_errors=True)
        shutil.copytree(f"{self.unmutated}/{crate}", self.make_out_path(crate), symlinks=True)

    def prove_unmutated(self, crate: str) -> None:
        """Proves a crate and those below it with nothing mutated. Raises Unusable if one is not proved."""
        lower = sorted(check_up.list_dependencies(crate, self.below), key=lambda it: len(check_up.list_dependencies(it, self.below)))
        for crate_below in [*lower, crate]:
            if crate_below not in self.sound:
                self.copy_built(crate_below)
                status, printed = self.run_rt(crate_below, [self.choose_command(crate_below)], None)
                if status != 0:
                    raise Unusable(f"{crate_below} is not proved with nothing mutated:\n{check_up.remove_notes(printed)}")
                shutil.rmtree(f"{self.unmutated}/{crate_below}")
                shutil.copytree(self.make_out_path(crate_below), f"{self.unmutated}/{crate_below}", symlinks=True)
                self.sound.add(crate_below)

    def check_crate(self, crate: str, seconds: float) -> tuple[int | None, str]:
        """Checks a crate, and builds it if it is proved. Returns the status, which is 0 if it is proved, and what was printed."""
        self.copy_built(crate)
        self.touched.add(crate)
        status, printed = self.run_rt(crate, ["check", "--allow-holes"], seconds)
        if status == 0 and re.search(r"^holes=0$", printed, re.M):
            return self.run_rt(crate, [self.choose_command(crate)], seconds)
        return (1 if status == 0 else status), printed


def parse_notices(printed: str) -> dict[str, list[Any]]:
    """Returns the report of a check that fails: the lemmas, the goals of functions, and the functions that are not proved."""
    lemmas: list[list] = []
    functions: list[str] = []
    goals: list[list] = []
    for path, line, name, why in ERROR.findall(printed):
        if [path, name] not in [it[:2] for it in lemmas]:
            lemmas.append([path, name, int(line), why[:200]])
    for function, why in FUNCTION.findall(printed):
        functions.append(function)
        goals += [[function, goal] for named in GOAL.findall(why) for goal in re.findall(r"`([^`]+)`", named)]
    return {"lemmas": lemmas, "goals": goals, "functions": functions}


def describe_outcome(status: int | None, notices: dict[str, list[Any]]) -> str:
    """Returns how a check that is not proved ended."""
    if status is None or status > 1 or not any(notices.values()):
        return "open"
    return "bad" if any(DEFINITION.match(path) for path, *_ in notices["lemmas"]) else "noticed"


def try_mutation(mutation: Mutation, copy: Copy, minutes: float) -> Result:
    """Makes a mutation in the copy, checks its crate and those above until one fails or `minutes` are over, and undoes the mutation. Returns the
    result. Raises Unusable if the old text is not exactly once in its file, or if a crate is not proved without the mutation.
    """
    copy.prove_unmutated(mutation.crate)
    begun, proved = time.monotonic(), []
    result: Result = {"key": mutation.list_texts(), "place": mutation.format_place(), "outcome": "nothing", "crate": ""}
    # The edits.
    texts = [it.read_file(copy.tree) for it in mutation.edits]
    for edit in mutation.edits:
        now = edit.read_file(copy.tree)
        if now.count(edit.old) != 1:
            raise Unusable(f"{mutation.title}: `old` is {now.count(edit.old)} times in {edit.file} of the last commit")
        edit.write_file(copy.tree, now.replace(edit.old, edit.new))
    # The crates from the mutated one upwards, to the first that is not proved.
    for crate in check_up.list_dependents([mutation.crate], copy.below):
        if crate.endswith("_tests"):
            continue
        remaining_seconds = minutes * 60 - (time.monotonic() - begun)
        status, printed = copy.check_crate(crate, remaining_seconds) if remaining_seconds > 0 else (None, "")
        if status != 0:
            notices = parse_notices(printed)
            result.update(outcome=describe_outcome(status, notices), crate=crate, **notices, end=printed[-2000:])
            break
        proved.append(crate)
    result.update(proved=proved, seconds=round(time.monotonic() - begun))
    # What was changed and built is put back.
    for edit, text in zip(mutation.edits, texts):
        edit.write_file(copy.tree, text)
    for crate in copy.touched:
        copy.restore_built(crate)
    copy.touched = set()
    # A crate that fails without the mutation too would notice nothing.
    if result["outcome"] == "noticed":
        copy.prove_unmutated(result["crate"])
    return result


def format_names(names: list[str]) -> str:
    """Returns some names in backticks, and how many there are beyond those."""
    rest = f" and {len(names) - SHOWN} more" if len(names) > SHOWN else ""
    return ", ".join(f"`{it}`" for it in names[:SHOWN]) + rest


def format_cells(result: Result) -> tuple[str, str]:
    """Returns two cells of the table on a noticed mutation: the proofs that fail, and the laws and the functions that depend on them."""
    crate, proved = result["crate"], ", ".join(result["proved"])
    if result["outcome"] == "nothing":
        return f"**nothing**: {proved} are proved", ""
    if result["outcome"] != "noticed":
        return f"{result['outcome']} at {crate}" + (f"; {proved} is proved" if proved else ""), ""
    goals = [f"{'::'.join(function.split('::')[-2:])} {goal}" for function, goal in result["goals"]]
    lemmas = [f"{re.sub('^proofs/', '', os.path.splitext(path)[0])}.{name}" for path, name, *_ in result["lemmas"]]
    # (The laws of a module `laws` first; the others are of examples, of herd's form, of programs and of locks.)
    laws = sorted(filter(LAW.match, result["functions"]), key=lambda it: it.split("::")[1] != "laws")
    laws = [it.split("::")[-1] for it in laws]
    code = ["::".join(it.split("::")[-2:]) for it in result["functions"] if not LAW.match(it)]
    return f"{crate}: {format_kinds(('proofs', lemmas), ('goals', goals))}", format_kinds(("laws", laws), ("code", code))


def format_kinds(*kinds: tuple[str, list[str]]) -> str:
    """Returns the names of some kinds, without the kinds that have none."""
    return "; ".join(f"{kind} {format_names(names)}" for kind, names in kinds if names)


def read_results(path: str) -> dict[tuple[str, ...], Result]:
    """Returns the last result of each mutation, by its key."""
    if not os.path.exists(path):
        return {}
    with open(path, encoding="utf-8") as file:
        return {tuple(result["key"]): result for result in map(json.loads, file)}


def print_table(listed: list[Mutation], results: dict[tuple[str, ...], Result]) -> None:
    """Prints the results of the mutations as a table in Markdown. Mutations without a result are left out."""
    print("| Definition | Change | What fails | What depends on it |\n|---|---|---|---|")
    for mutation in listed:
        result = results.get(tuple(mutation.list_texts()))
        if result:
            print(f"| {result['place']} | {mutation.title} | {' | '.join(format_cells(result))} |")


def choose_mutations(listed: list[Mutation], arguments: Namespace) -> list[Mutation]:
    """Returns the mutations that are to be made."""
    after = next((number for number, it in enumerate(listed) if arguments.begin in it.title), len(listed))
    return [it for it in listed[after:] if any(part in it.title for part in arguments.only or [""])]


def run_mutations(listed: list[Mutation], arguments: Namespace) -> int:
    """Makes the mutations one by one, and appends each result to the file. Returns the number of those that were not noticed."""
    copy, missed = Copy(arguments.work, arguments.built, arguments.jobs), 0
    try:
        for mutation in listed:
            result = try_mutation(mutation, copy, arguments.minutes)
            with open(arguments.results, "a", encoding="utf-8") as file:
                file.write(json.dumps(result, ensure_ascii=False) + "\n")
            missed += result["outcome"] != "noticed"
            print(f"{mutation.title}: {result['outcome']}, {result['seconds']} s: {' | '.join(format_cells(result))}", flush=True)
    finally:
        copy.remove()
    return missed


def parse_arguments() -> Namespace:
    """Parses the arguments of the command line, and returns them."""
    reader = command.Reader(__doc__)
    reader.add_argument("--list", action="store_true")
    reader.add_argument("--table", action="store_true")
    reader.add_argument("--only", action="append", metavar="TITLE-PART")
    for name, default in ("--built", HOME), ("--work", "/tmp/mutate_definitions"), ("--results", "/tmp/mutate_definitions.jsonl"):
        reader.add_argument(name, default=default, metavar="FILE" if name == "--results" else "FOLDER")
    reader.add_argument("--from", dest="begin", default="", metavar="TITLE-PART")
    reader.add_argument("--jobs", default="2", metavar="N")
    reader.add_argument("--minutes", type=float, default=20, metavar="N")
    return reader.read()


def main() -> int:
    """Runs the command that the arguments describe. Returns the exit status."""
    words = parse_arguments()
    try:
        listed = list_mutations()
    except Unusable as why:
        print(why, file=sys.stderr)
        return 2
    faults = find_faults(listed)
    for fault in faults:
        print(fault)
    if faults:
        return 1
    if words.table:
        print_table(listed, read_results(words.results))
        return 0
    if words.list:
        for mutation in listed:
            print(f"{mutation.format_place()}: {mutation.title}")
        print(f"{len(listed)} mutations")
        return 0
    # (The copy is removed also if the command is ended.)
    signal.signal(signal.SIGTERM, lambda *_: sys.exit(1))
    try:
        return 1 if run_mutations(choose_mutations(listed, words), words) else 0
    except Unusable as why:
        print(why, file=sys.stderr)
        return 2


if __name__ == "__main__":
    sys.exit(start.run(main))
