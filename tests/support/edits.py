"""Edits that the prover must refuse: which of them fit one check, and what a check says of each.

`tests/edits` says why a check of many is as strong as one of each.
"""

import collections
import dataclasses
import pathlib
import re
import typing
from collections.abc import Iterable, Iterator

# what `tests/edits` prints once `rt ci` has ended
EDITS_LEFT = "== the edits that are left"

REFUSED_AT = "# refused at "
# how `rt fmt` lays out the head of a function, but a `const fn`, which constants may call, of a
# trait, and of an impl, with its type
HEAD = re.compile(r"( *)(?:pub(?:\([^)]*\))? )?(?:unsafe )?fn (\w+)")
TRAIT = re.compile(r"(?:pub(?:\([^)]*\))? )?(?:unsafe )?trait ")
IMPL = re.compile(r"impl(<.*?>)? (?:(?:\w+::)*(\w+(?:<.*>)?) for )?&?(\w+)")
# what the prover says of a function, of one that is proved or of a closure that requires something,
# and what it may say of one that is not proved
FUNCTION = re.compile(r"fn \w+?::(\S+): (.*)")
PROVED = re.compile(r"proved(?: where its callers give what it asks)?(?:, may [a-z]+)*")
OPEN = re.compile(r"`search` did not prove (.*)")
CALLS = re.compile(
    r"(?:in `\S+`, of this cycle of calls: )?"
    r"it (?:calls|passes the block) `.*, which (?:is|are) not proved"
)
# stands for a goal where the prover says something unknown
UNREAD = "?"
NO_GOAL = re.compile(rf"not proved|expected answers in \S+|{CALLS.pattern}")
GOAL = re.compile(r"`([^`]+)`")
# an error, of which those in proofs name their goal, and what it says of a name that is gone
ERROR = re.compile(r"(?:note: )?(?:\./)?(\S+?):\d+:\d+: error: (?:`([^`]+)`: )?(.*)")
ONLY_A_NAME = re.compile(r"has no field|is not in scope|has no `|was not admitted")
# what it says of an answer that cites one with an error
UNCHECKED = re.compile(r"\d+ declarations? that depends? on `.*`, which was rejected, .*")
# these functions come and go with the uses of their type
DROPS = re.compile(r".*\+Destruct::drop")

# open goals, each as 'GOAL of FUNCTION'
Goals = frozenset[str]


class Void(Exception):
    """Why the output of a check says nothing of the edits in it."""


@dataclasses.dataclass(frozen=True)
class Edit:
    """An edit: its file, each old and new text with their file, and the goals that refuse it."""

    file: pathlib.Path
    pairs: tuple[tuple[str, str, str], ...]
    goals: Goals = dataclasses.field(compare=False)

    @property
    def name(self) -> str:
        return f"{self.file.parent.parent.name}/{self.file.stem}"


def read_edit(file: pathlib.Path) -> Edit:
    """Reads an edit: after a line 'file: PATH' come pairs of lines 'old: TEXT' and 'new: TEXT'."""
    path = old = ""
    pairs: list[tuple[str, str, str]] = []
    goals = set()
    for line in file.read_text().splitlines():
        key, _, text = line.partition(":")
        if line.startswith(REFUSED_AT):
            goals.add(line.removeprefix(REFUSED_AT))
        elif key == "file":
            path = text.strip()
        elif key == "old":
            old = text.removeprefix(" ")
        elif key == "new":
            pairs.append((path, old, text.removeprefix(" ")))
    return Edit(file, tuple(pairs), frozenset(goals))


def function_of(goal: str) -> str:
    return goal.rpartition(" of ")[2]


def record(edit: Edit, goals: Goals):
    """Writes into the edit at which goals it is refused."""
    lines = edit.file.read_text().splitlines()
    kept = [line for line in lines if not line.startswith(REFUSED_AT)]
    named = [f"{REFUSED_AT}{goal}" for goal in sorted(goals)]
    edit.file.write_text("\n".join([*kept, *named, ""]))


# ---------------------------------------------------------------- which edits fit one check
def texts_of(folder: pathlib.Path) -> dict[str, str]:
    """The texts of a crate's `src/`, by their paths from the crate's folder."""
    return {str(file.relative_to(folder)): file.read_text() for file in folder.glob("src/**/*.rt")}


class Body(typing.NamedTuple):
    """The body of a function: the lines of its braces, from 0, and how the prover names it."""

    first: int
    last: int
    name: re.Pattern[str]


def bodies_of(path: str, text: str) -> Iterator[Body]:
    """The bodies in a file as `rt fmt` lays it out, of which each has a proof of its own.

    So none of a trait, which types may take over, and none of functions that call themselves or
    have an impl in them.
    """
    parts = pathlib.PurePath(path).with_suffix("").parts[1:]
    module = "".join(f"{part}::" for part in parts if part not in ("lib", "main", "mod"))
    # its closures have `fn::` before its name
    module += "(?:fn::)?"
    lines = text.split("\n")
    owner: str | None = module
    is_in_cycle = False
    for number, line in enumerate(lines):
        if found := IMPL.match(line):
            owner = owner_of(found)
        elif TRAIT.match(line):
            owner = None
        elif line == "}":
            owner = module
        if line.lstrip().startswith("#["):
            is_in_cycle = is_in_cycle or "#[cycle(" in line
            continue
        head = HEAD.match(line)
        if head and owner and not is_in_cycle:
            first = opening_brace(lines, number, head[1])
            last = None if first is None else lines.index(f"{head[1]}}}", first)
            # what is in a function is named after it
            name = re.compile(rf"{owner}{head[2]}(?:::.*)?")
            call = rf"{'' if owner == module else '(?:self[.]|Self::)'}{head[2]}"
            if last and not do_others_read(lines[first + 1 : last], call):
                yield Body(first, last, name)
        is_in_cycle = False


def owner_of(impl: re.Match[str]) -> str:
    """How the names begin that the prover gives to the methods of an impl."""
    parameters = re.findall(r"\w+", impl[1] or "")
    words = [word for word in re.findall(r"\w+", impl[2] or "") if word not in parameters]
    # it names the module of the type, which may be another
    return rf"(?:\w+::)*{impl[3]}{''.join(words)}::"


def do_others_read(body: list[str], call: str) -> bool:
    """Whether the body calls its own function, or has an impl, of which others read what it says."""
    found = re.compile(rf"(?<![\w.:]){call}\(|^ +(?:unsafe )?impl\b")
    return any(found.search(line) for line in body)


def opening_brace(lines: list[str], number: int, indent: str) -> int | None:
    """The line that opens the body of the function whose head begins here; None if it has none."""
    for at in range(number, len(lines)):
        head = HEAD.match(lines[at])
        if at > number and head and head[1] == indent:
            return None
        is_signature = at == number or lines[at].startswith(f"{indent})")
        if lines[at] == f"{indent}{{" or is_signature and lines[at].endswith(" {"):
            return at
        # a body of one line, as of a law, has no line between its braces
        if lines[at] == f"{indent}{{}}" or is_signature and lines[at].endswith((";", "}")):
            return None
    return None


def changed_by(
    edit: Edit, texts: dict[str, str]
) -> tuple[dict[str, str], set[re.Pattern[str]]] | None:
    """The texts with the edit, and the names of the functions whose bodies it changes.

    None if it changes anything else, or names the goals of other functions.
    """
    found = dict(texts)
    functions = set()
    for path, old, new in edit.pairs:
        text = found.get(path, "")
        if text.count(old) != 1:
            return None
        line = text[: text.index(old)].count("\n")
        around = [body for body in bodies_of(path, text) if body.first < line < body.last]
        if not around:
            return None
        # a function may be in another
        functions.add(max(around, key=lambda body: body.first).name)
        found[path] = text.replace(old, new)
    if not all(does_match(functions, function_of(goal)) for goal in edit.goals):
        return None
    return found, functions


class Batch:
    """Edits of the bodies of different functions, and the texts that all of them make."""

    def __init__(self, texts: dict[str, str]):
        self.texts = texts
        # how the prover names the functions that each edit changes
        self.functions: dict[Edit, set[re.Pattern[str]]] = {}

    def take(self, edit: Edit) -> bool:
        """Takes the edit if it fits beside those that are there."""
        changed = changed_by(edit, self.texts)
        if changed is None:
            return False
        for other, names in self.functions.items():
            if changed[1] & names or does_name(edit, names) or does_name(other, changed[1]):
                return False
        self.texts, self.functions[edit] = changed
        return True

    def owner(self, function: str) -> Edit:
        """The edit that changes this function."""
        owners = [edit for edit, names in self.functions.items() if does_match(names, function)]
        if len(owners) != 1:
            raise Void(f"{function} is not proved, which {len(owners)} edits change")
        return owners[0]


def does_match(names: Iterable[re.Pattern[str]], function: str) -> bool:
    return any(name.fullmatch(function) for name in names)


def does_name(edit: Edit, names: Iterable[re.Pattern[str]]) -> bool:
    """Whether the edit names a goal of one of these functions."""
    return any(does_match(names, function_of(goal)) for goal in edit.goals)


def batches_of(edits: Iterable[Edit], texts: dict[str, str]) -> tuple[list[Batch], list[Edit]]:
    """The batches for edits of a crate with these texts, and the edits that are tried alone."""
    batches: list[Batch] = []
    alone = []
    for edit in edits:
        if not edit.goals or changed_by(edit, texts) is None:
            alone.append(edit)
        elif not any(batch.take(edit) for batch in batches):
            batches.append(Batch(texts))
            batches[-1].take(edit)
    for batch in batches:
        alone += batch.functions if len(batch.functions) == 1 else []
    return [batch for batch in batches if len(batch.functions) > 1], alone


# ---------------------------------------------------------------- what the prover says
def functions_in(output: str) -> dict[str, str]:
    """What the output says of each function, but of those that drop a value."""
    found = (FUNCTION.fullmatch(line) for line in output.splitlines())
    return {line[1]: line[2] for line in found if line and not DROPS.fullmatch(line[1])}


def faults_in(status: int, output: str) -> dict[str, set[str]]:
    """The functions that have a fault of their own, and which goals are open in each.

    That a function calls one that is not proved is no fault of its own. Of what this can't read the
    goal is UNREAD.
    """
    lines = output.rstrip("\n").split("\n")
    if status != 1 or lines[-1] != "logic=not-proved":
        raise Void(f"the check ended with status {status} and the line {lines[-1]!r}")
    faults = faults_of_answers(lines)
    not_proved = set()
    for line in lines:
        found = FUNCTION.fullmatch(line)
        if found and not PROVED.fullmatch(found[2]):
            function, reasons = found.groups()
            not_proved.add(function)
            goals = goals_of_reasons(reasons)
            if not goals and function not in faults and not CALLS.search(reasons):
                goals = {UNREAD}
            if goals:
                faults[function] |= goals
    if strays := faults.keys() - not_proved:
        raise Void(f"an error is in the proof of {min(strays)}, but no line says so of it")
    return faults


def faults_of_answers(lines: list[str]) -> dict[str, set[str]]:
    """The functions whose proofs by hand have errors, and which goals are open by these.

    An error that names what is gone says little of the contract, and opens no goal.
    """
    faults: dict[str, set[str]] = collections.defaultdict(set)
    for line in lines:
        error = ERROR.match(line)
        if error is None:
            if line.startswith("error"):
                raise Void(line)
            continue
        folder, *function, _ = pathlib.PurePath(error[1]).parts
        is_unchecked = UNCHECKED.fullmatch(error[3])
        if folder != "proofs" or not error[2] and not is_unchecked:
            raise Void(line)
        goals = faults["::".join(function)]
        if is_of_goal(error):
            goals.add(error[2])
    return faults


def is_of_goal(error: re.Match[str]) -> bool:
    """Whether the error is in a proof, for more than a name that is gone or another error."""
    is_by_another = UNCHECKED.fullmatch(error[3]) or ONLY_A_NAME.search(error[3])
    return bool(error[2]) and not is_by_another


def goals_of_reasons(reasons: str) -> set[str]:
    """The open goals in the prover's line about a function that is not proved."""
    goals = set()
    for reason in reasons.removeprefix("no proof: ").split("; "):
        found = OPEN.fullmatch(reason)
        if found:
            goals.update(GOAL.findall(found[1]))
        elif not NO_GOAL.fullmatch(reason):
            goals.add(UNREAD)
    return goals


def words_of(function: str, goals: set[str]) -> set[str]:
    return {f"{goal} of {function}" for goal in goals}


def refused_in(batch: Batch, seed: str, status: int, output: str) -> set[Edit]:
    """The edits of the batch that a check refused: at goals that they name, and at no others.

    `seed` is what a check of the crate as it is has said.
    """
    faults = faults_in(status, output)
    said = functions_in(output)
    for function, was in functions_in(seed).items():
        if function not in said:
            raise Void(f"the function {function} has no line")
        if PROVED.fullmatch(said[function]) and said[function] != was:
            raise Void(f"the function {function} was {was}, and is {said[function]}")
    found: dict[Edit, set[str]] = {edit: set() for edit in batch.functions}
    for function, goals in faults.items():
        found[batch.owner(function)] |= words_of(function, goals)
    return {edit for edit, goals in found.items() if goals and goals <= edit.goals}
