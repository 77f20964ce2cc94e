"""What earlier runs on this machine refused: kept under a sum of all that a refusal stands on.

A change of any of these makes another sum, and the edit is tried again:

- the kit, HANDLES, what crates.txt says of the crates, and the rules of the trial (`RULES`)
- the edit: its name and every byte
- of the crate and of those below it, the *outline*: all of `src/`, `specs/` and `proofs/` but the
  bodies of functions, what is written of their proofs, and comments. A proof can read the contract
  of another function, never its body. A body stays in the outline if it has no proof of its own
  (see `edits.bodies_of`), or if it alone tells the type of what the function returns. All of them
  do if a file cites a function's proof that is not its own
- body and proof of each function that the edit changes, and, if it was tried alone, of those that
  have the name of one that is not proved. A lemma reads no body. If the check names neither, or the
  edit changes in `src/` what is in no body, so that other bodies may no longer compile, it stands on
  every byte of the crate

It lies in the kit's store, where only root, or whoever owns the kit, writes: beside what `rt ci` has
proved, which is trusted as much.
"""

import collections
import contextlib
import hashlib
import pathlib
import re
import typing
from collections.abc import Iterable, Iterator

from tests.support import edits

HERE = pathlib.Path(__file__).resolve().parent
RULES = (HERE.parent / "edits", HERE / "edits.py", HERE / "kept_edits.py")
# what a proof may read of a crate, and what is written of a function's, in a folder of its name
PARTS = ("src", "specs", "proofs", "c")
OF_A_PROOF = ("Answers.antt", "Invariants.antt", "Proof.antt")

# a text in quotes, or a comment with all of its line if nothing else is on it
WORDS = re.compile(
    r'"(?:\\.|[^"\\])*"|\'(?:\\.|[^\'\\])\'|^[ \t]*//[^\n]*\n|[ \t]*//[^\n]*', re.S | re.M
)
# a module of proofs, after the name of its crate
CITED = re.compile(r"(?:(\w+)(?:\.|::))?\bproofs\b((?:(?:\.|::)[^\s.:,;(){}\[\]]+)*)")
# the files of a crate, by their paths in it
Files = dict[str, str]


def sum_of(*parts: object) -> str:
    return hashlib.sha256(repr(parts).encode()).hexdigest()


def files_of(folder: pathlib.Path) -> Files:
    """The files of a crate, each as a text that loses no byte."""
    found = [file for part in PARTS for file in sorted((folder / part).rglob("*"))]
    return {
        str(file.relative_to(folder)): file.read_bytes().decode("utf-8", "surrogateescape")
        for file in found
        if file.is_file()
    }


def without_comments(text: str) -> str:
    """The text without its comments; as it is if it has what `WORDS` can't read."""
    if re.search(r'/\*|\br#*"', text):
        return text
    return WORDS.sub(lambda found: "" if found[0].lstrip().startswith("//") else found[0], text)


def is_source(path: str) -> bool:
    return path.startswith("src/") and path.endswith(".rt")


def function_of_proof(path: str) -> list[str]:
    """The words of a function's name, if the file is written of its proof."""
    folder, *function, name = pathlib.PurePath(path).parts
    return function if folder == "proofs" and name in OF_A_PROOF else []


def citing(crates: dict[str, Files], kit: Iterable[str]) -> Iterator[str]:
    """The files that cite, or may cite, a function's proof that is not their own."""
    for crate, files in crates.items():
        for path, text in files.items():
            own = function_of_proof(path)
            lines = [line for line in text.split("\n") if "proofs" in line]
            code = [line for line in lines if not line.lstrip().startswith(("--", "//"))]
            for word, place in CITED.findall("\n".join(code)):
                named = crate if word == "crate" else word
                words = re.split(r"\.|::", place)[1:]
                # Rust cites what is in a module by its name
                module = words[:-1] if is_source(path) else words
                lemmas = "/".join(["proofs", *module]) + ".antt"
                is_own = own and named == crate and words[: len(own)] == own
                is_lemma = lemmas in crates.get(named, {}) and not function_of_proof(lemmas)
                if named not in kit and not is_own and not is_lemma:
                    yield f"{crate}/{path}"


class Function(typing.NamedTuple):
    """A function that is not in the outline but for its head: its name, its body, and a sum."""

    name: str
    path: str
    body: str
    own: str


class Outline:
    """The files of a crate: its functions, by their names, and a sum of all but these."""

    def __init__(self, files: Files, is_any_cited: bool):
        self.functions: dict[str, set[Function]] = collections.defaultdict(set)
        bodies = [] if is_any_cited else [*bodies_in(files)]
        written = proofs_of([body for *_, body in bodies], files)
        lines = {path: text.split("\n") for path, text in files.items()}
        for number, (path, name, body) in reversed([*enumerate(bodies)]):
            inside = slice(body.first + 1, body.last)
            text = without_comments("\n".join(lines[path][inside]))
            # its number tells it from others, whose heads are in the outline
            own = sum_of(number, text, written[number])
            self.functions[name].add(Function(name, path, text, own))
            del lines[path][inside]
        apart = {path for of in written for path, _ in of}
        rest = {path: "\n".join(left) for path, left in lines.items() if path not in apart}
        code = {path: without_comments(text) for path, text in rest.items() if is_source(path)}
        proofs = {path for path in rest if path.startswith("proofs/")}
        self.lemmas = {path for path in proofs if not function_of_proof(path)}
        self.sum = sum_of(sorted({**rest, **code}.items()))

    def changed_by(self, edit: edits.Edit) -> set[Function] | None:
        """The functions that the edit changes; None if it changes in `src/` what is in none."""
        every = set().union(*self.functions.values())
        found = set()
        for path, old, _ in edit.pairs:
            around = {it for it in every if it.path == path and old in it.body}
            if len(around) != 1 and path.startswith("src/"):
                return None
            found |= around
        return found

    def not_proved(self, output: str) -> set[Function] | None:
        """Functions of which a check says that one is not proved; None if it tells nothing.

        None of them if that is a lemma, or a function that is all in the outline.
        """
        errors = [error for line in output.split("\n") if (error := edits.ERROR.match(line))]
        if any(error[1] in self.lemmas and edits.is_of_goal(error) for error in errors):
            return set()
        with contextlib.suppress(edits.Void):
            for function in sorted(edits.faults_in(1, output)):
                # a closure is named after its function, and a method after its type
                named = self.functions.keys() & function.split("::")
                if len(named) < 2:
                    return set().union(*(self.functions[name] for name in named))
        return None


def proofs_of(bodies: list[edits.Body], files: Files) -> list[list[tuple[str, str]]]:
    """The files, with their texts, that are written of the proof of each function alone."""
    found: list[list[tuple[str, str]]] = [[] for _ in bodies]
    for path, text in files.items():
        name = "::".join(function_of_proof(path))
        of = [number for number, body in enumerate(bodies) if body.name.fullmatch(name)]
        if len(of) == 1:
            found[of[0]].append((path, text))
    return found


def bodies_in(files: Files) -> Iterator[tuple[str, str, edits.Body]]:
    """The bodies that are in no other and that others can't read, in their order."""
    for path in filter(is_source, files):
        text = files[path]
        lines = text.split("\n")
        after = -1
        for body in sorted(edits.bodies_of(path, text), key=lambda body: (body.first, -body.last)):
            if body.first > after:
                heads = (at for at in range(body.first, -1, -1) if edits.HEAD.match(lines[at]))
                head = next(heads)
                if not re.search(r"->.*\bimpl\b", " ".join(lines[head : body.first + 1])):
                    after = body.last
                    yield path, edits.HEAD.match(lines[head])[2], body


class Kept:
    """What is kept of the edits of crates, which are copies that nobody changes."""

    def __init__(self, rt: typing.Any, crates: list[typing.Any], from_nothing: bool):
        self.rt = rt
        self.store = rt.Kept(crates, from_nothing)
        files = {crate.name: files_of(pathlib.Path(crate.folder)) for crate in crates}
        kit = {"std", *(name for crate in crates for name in crate.of_kit)}
        is_any_cited = any(citing(files, kit))
        self.outlines = {name: Outline(of, is_any_cited) for name, of in files.items()}
        self.all_bytes = {crate.name: rt.own_sum(crate) for crate in crates}
        self.rules = sum_of(rt.kit_sum(), rt.Crate.allowed, [file.read_bytes() for file in RULES])

    def base(self, crate: typing.Any, edit: edits.Edit) -> str:
        """A sum of all that each refusal of the edit stands on."""
        outlines = [
            (it.name, it.said, it.is_program, [dep.name for dep in it.deps], list(it.of_kit))
            + (self.outlines[it.name].sum,)
            for it in [*crate.below(), crate]
        ]
        return sum_of(self.rules, outlines, edit.name, edit.file.read_bytes())

    def known(self, crate: typing.Any, edit: edits.Edit) -> str | None:
        """What was said of the edit when an earlier run refused it, if that still holds."""
        if self.rt.read_edit(str(edit.file), crate.folder)[1]:
            # its old text is gone, or there twice
            return None
        found = (self.store.tried(name) for name in self.names_of(crate, edit))
        return next((said for kind, said in filter(None, found) if kind == self.rt.REFUSED), None)

    def forget(self, crate: typing.Any, edit: edits.Edit):
        """Drops what was kept of an edit that is not refused by now."""
        for name in self.names_of(crate, edit):
            self.store.drop(f"{self.store.at}/edits/{name}")

    def names_of(self, crate: typing.Any, edit: edits.Edit) -> list[str]:
        """All names under which a refusal of the edit may be kept."""
        base, outline = self.base(crate, edit), self.outlines[crate.name]
        names = [sum_of(base, self.all_bytes[crate.name])]
        changed = outline.changed_by(edit)
        if changed is not None:
            more = [set(), *outline.functions.values()]
            names = [name_of(base, changed | other) for other in more] + names
        return names

    def keep(self, crate: typing.Any, edit: edits.Edit, said: str, output: str | None):
        """Keeps what was said of an edit that is refused, and that check, if it was of it alone."""
        base, outline = self.base(crate, edit), self.outlines[crate.name]
        changed = outline.changed_by(edit)
        other = set() if output is None else outline.not_proved(output)
        if changed is None or other is None:
            name = sum_of(base, self.all_bytes[crate.name])
        else:
            name = name_of(base, changed | other)
        self.store.keep_tried(name, self.rt.REFUSED, said)


def name_of(base: str, functions: Iterable[Function]) -> str:
    return sum_of(base, sorted(function.own for function in functions))
