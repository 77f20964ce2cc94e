"""tests/edits: which edits are tried in one check, and that none changes what is said of others."""

import dataclasses
import functools
import importlib.machinery
import importlib.util
import pathlib
import re
import shutil
import subprocess

import pytest

from tests.support import edits, kept_edits, older_kit
from tests.support.program import ROOT

SOURCE = """\
//! Two functions, of which one calls the other.
#![tactic(auto)]

ghost use Rattle.std.specs.Prelude.{◌≡◌, ◌≤◌, ◌+◌};

/// The number, or ten if it is greater.
pub fn at_most_ten(number: u8) -> u8
    ensures most { result ≤ 10 }
    ensures kept { number ≤ 10 → result ≡ number }
{
    if number <= 10 {
        return number;
    }
    10
}

/// One more than a number up to ten.
pub fn one_more(number: u8) -> u8
    ensures { number ≤ 10 → result ≡ number + 1 }
{
    let few = at_most_ten(number);
    few + 1
}
"""
OF_CALLED = ("at_most_ten", "returns-then-number-le10-clause-kept")
WRONG_CALLED = ("return number;", "return number / 2;", *OF_CALLED)
RIGHT_CALLED = ("return number;", "return 0 + number;", *OF_CALLED)
WRONG_CALLER = ("few + 1", "few + 2", "one_more", "returns")
RIGHT_CALLER = ("few + 1", "1 + few", "one_more", "returns")


def edit(name, old, new, function, goal, folder=pathlib.Path("crates/apart"), path="src/lib.rt"):
    goals = frozenset([f"{goal} of {function}"] if goal else [])
    return edits.Edit(folder / "must-fail" / f"{name}.edit", ((path, old, new),), goals)


def batch_of(*tried):
    batches, alone = edits.batches_of(tried, {"src/lib.rt": SOURCE})
    assert (len(batches), alone) == (1, [])
    return batches[0]


def names(found):
    return " ".join(sorted(edit.name.removeprefix("apart/") for edit in found))


# ---------------------------------------------------------------- which edits fit one check
def test_edits_of_different_bodies_are_together():
    batch = batch_of(edit("called", *WRONG_CALLED), edit("caller", *WRONG_CALLER))
    assert batch.texts["src/lib.rt"] == SOURCE.replace("number;", "number / 2;").replace(
        "few + 1", "few + 2"
    )


def test_edits_of_one_body_are_apart():
    tried = [
        edit("called", *WRONG_CALLED),
        edit("other", *RIGHT_CALLED),
        edit("caller", *WRONG_CALLER),
        edit("third", *RIGHT_CALLED),
        edit("next", *RIGHT_CALLER),
    ]
    batches, alone = edits.batches_of(tried, {"src/lib.rt": SOURCE})
    assert [names(batch.functions) for batch in batches] == ["called caller", "next other"]
    # a batch of one is what the kit's gate tries
    assert names(alone) == "third"


def test_edits_that_name_no_goal_are_alone():
    tried = [edit("called", *WRONG_CALLED), edit("caller", *WRONG_CALLER[:3], None)]
    batches, alone = edits.batches_of(tried, {"src/lib.rt": SOURCE})
    assert (batches, names(alone)) == ([], "called caller")


CALLER = edit("caller", *WRONG_CALLER)
CALL = "let few = at_most_ten("
IMPL = "    impl Few for Three {\n        ghost most = { 3 };\n    }\n    10\n}"
TRAIT = "pub trait Few {\n    fn few(&self) -> u8\n    {\n        3\n    }\n}\n\n/// One more"
LAW = "pub fn law()\n    ensures { 1 ≤ 2 }\n{}\n\n/// One more"


@pytest.mark.parametrize(
    "why, tried, old, new",
    [
        ("it changes a clause", edit("a", "t ≤ 10", "t ≤ 11", *OF_CALLED), "", ""),
        ("it changes what is in no function", edit("a", "◌≤◌, ", "", "one_more", "a"), "", ""),
        ("it names the goal of another", edit("a", *WRONG_CALLER[:2], *OF_CALLED), "", ""),
        ("it can't be applied", edit("a", "many + 1", "many + 2", "one_more", "a"), "", ""),
        ("it changes a definition", edit("a", *WRONG_CALLER, path="specs/A.antt"), "", ""),
        (
            "others read it, as a ghost item",
            edit("a", "{ 3 }", "{ 4 }", *OF_CALLED),
            "    10\n}",
            IMPL,
        ),
        (
            "it is in a cycle",
            CALLER,
            "pub fn one_more",
            "#[cycle(more)]\n#[inline]\npub fn one_more",
        ),
        ("it calls itself", CALLER, CALL, "let few = one_more("),
        (
            "it is of a trait",
            edit("few", "        3", "        4", "few", None),
            "/// One more",
            TRAIT,
        ),
    ],
)
def test_alone(why, tried, old, new):
    assert edits.changed_by(tried, {"src/lib.rt": SOURCE.replace(old, new)}) is None, why


@pytest.mark.parametrize(
    "old, new",
    [(CALL, "let few = number.one_more("), ("/// One more", TRAIT), ("/// One more", LAW)],
    ids=["a method of this name", "after a trait", "after the empty body of a law"],
)
def test_not_alone(old, new):
    assert edits.changed_by(CALLER, {"src/lib.rt": SOURCE.replace(old, new)})


HALVES = """\
impl Few {
    pub fn half(number: u8) -> u8 {
        number / 2
    }
}

impl FewMore {
    pub fn half(number: u8) -> u8 {
        let each = |some: u8| -> u8 { some / 5 };
        each(number / 3)
    }
}

impl From<AllocFailed<T>> for Few {
    fn from(number: u8) -> Few {
        Few { number }
    }
}
"""


def test_names_are_matched_whole():
    """Else a harmless edit of one type passes by a goal that another type's edit leaves open."""
    named = [body.name for body in edits.bodies_of("src/lib.rt", HALVES)]
    for function in ("Few::half", "few::FewMore::half", "FewFromAllocFailedT::from"):
        assert sum(name.fullmatch(function) is not None for name in named) == 1
    right = edit("right", "number / 2", "number / 4", "FewMore::half", "returns")
    wrong = edit("wrong", "number / 3", "255", "FewMore::half::each", "returns")
    assert edits.batches_of([right, wrong], {"src/lib.rt": HALVES}) == ([], [right, wrong])


@pytest.mark.parametrize("is_first", [True, False])
def test_no_edit_names_a_function_that_another_changes(is_first):
    """A function of a file may have the name of the folder beside it."""
    paths = ["src/part.rt", "src/part/at_most_ten.rt"]
    right = edit("right", "10\n}", "9 + 1\n}", "part::at_most_ten::one_more", "a", path=paths[0])
    wrong = edit("wrong", "few + 1", "9", "part::at_most_ten::one_more::each", "a", path=paths[1])
    tried = [right, wrong] if is_first else [wrong, right]
    texts = dict.fromkeys(paths, SOURCE)
    assert all(edits.changed_by(each, texts) for each in tried)
    batches, alone = edits.batches_of(tried, texts)
    assert (batches, names(alone)) == ([], "right wrong")


def test_names_of_functions():
    texts = {"src/lines/ends.rt": SOURCE}
    texts |= edits.texts_of(ROOT / "crates" / "vote_tray")
    found = [body.name for path, text in texts.items() for body in edits.bodies_of(path, text)]
    for name in (
        "Tray::try_take",
        "TrayFaultFromAllocError::from",
        "lines::ends::one_more",
        "lines::ends::fn::one_more::filter+FnMut::call_mut",
    ):
        assert len([pattern for pattern in found if pattern.fullmatch(name)]) == 1


def test_edits_of_the_crates():
    """The lines about goals are read, and each edit that has some fits a batch."""
    found = 0
    for folder in sorted(ROOT.glob("crates/*/must-fail")):
        texts = edits.texts_of(folder.parent)
        for file in folder.glob("*.edit"):
            found += 1
            read = edits.read_edit(file)
            lines = file.read_text().splitlines()
            assert len(read.pairs) == sum(line.startswith("old: ") for line in lines) > 0, file
            named = [line for line in lines if line.startswith("#")]
            assert {f"{edits.REFUSED_AT}{goal}" for goal in read.goals} == set(named), file
            assert not read.goals or edits.changed_by(read, texts), file
    assert found > 400


# ---------------------------------------------------------------- what the prover says
SEED = "fn apart::at_most_ten: proved\nfn apart::one_more: proved\nlogic=proved functions=2\n"
CALLED = (
    "fn apart::at_most_ten: no proof: expected answers in ./proofs/at_most_ten/Answers.antt; "
    "`search` did not prove `returns-then-number-le10-clause-kept`"
)
GONE = "./proofs/two_more/Answers.antt:8:23: error: `returns`: it has no field `few`"
BY_CALL = "it calls `apart::at_most_ten`, which is not proved"
OPEN = (
    "fn apart::one_more: no proof: expected answers in ./proofs/one_more/Answers.antt; "
    "`search` did not prove `returns`"
)


PROVED = "fn apart::at_most_ten: proved"
PLACE = "./proofs/one_more/Answers.antt"


def refused(*lines, status=1, last="logic=not-proved", seed=SEED, caller=CALLER):
    batch = batch_of(edit("called", *WRONG_CALLED), caller)
    return names(edits.refused_in(batch, seed, status, "\n".join([*lines, last, ""])))


@pytest.mark.parametrize(
    "wanted, lines",
    [
        ("called caller", [CALLED, f"{OPEN}; {BY_CALL}"]),
        ("called", [CALLED, "fn apart::one_more: proved"]),
        # that it calls what is not proved is no fault of its own
        ("called", [CALLED, f"fn apart::one_more: no proof: {BY_CALL}"]),
        (
            "called",
            [
                CALLED,
                f"fn apart::one_more: no proof: in `apart::more`, of this cycle of calls: {BY_CALL}",
            ],
        ),
        ("caller", [PROVED, OPEN]),
        # by an answer
        (
            "caller",
            [
                PROVED,
                f"{PLACE}:8:23: error: `returns`: as printed, the two types differ",
                f"{PLACE}:9:5: error: 1 declaration that depends on `returns`, which was rejected, was not checked: more",
                "fn apart::one_more: not proved",
            ],
        ),
        # an answer that names what is gone refuses nothing
        (
            "called",
            [
                CALLED,
                f"{PLACE}:8:23: error: `returns`: it has no field `few`",
                "fn apart::one_more: not proved",
            ],
        ),
        # nor does another goal, or what is unclear
        ("", [PROVED, OPEN.replace("`returns`", "`overflow_add`")]),
        ("", [PROVED, f"{OPEN} and `overflow_add`"]),
        ("called", [CALLED, "fn apart::one_more: not proved"]),
        ("called", [CALLED, "fn apart::one_more: could not tell"]),
        (
            "called",
            [
                CALLED,
                "fn apart::one_more: no proof: expected `one_more_spec` in ./proofs/one_more/Proof.antt",
            ],
        ),
        (
            "called",
            [
                CALLED,
                "fn apart::one_more: no proof: antt did not admit its contract; `search` did not prove `returns`",
            ],
        ),
    ],
)
def test_refused(wanted, lines):
    assert refused(*lines) == wanted


def test_what_is_proved_otherwise_is_so_in_the_seed():
    """A function may wait, and a closure is proved where its requires is met."""
    lines = [
        "fn apart::waits: proved, may wait",
        "fn apart::fn::waits::lock: proved where its callers give what it asks",
    ]
    assert refused(*lines, CALLED, OPEN, seed="\n".join([*lines, SEED])) == "called caller"


def test_some_of_its_goals_are_enough():
    """Others may wait for the proof of a function that another edit changes."""
    both = dataclasses.replace(CALLER, goals=CALLER.goals | {"overflow_add of one_more"})
    assert refused(CALLED, f"{OPEN}; {BY_CALL}", caller=both) == "called caller"


@pytest.mark.parametrize(
    "why, lines, end",
    [
        ("all is proved", [CALLED, OPEN], {"status": 0, "last": "logic=proved functions=2"}),
        ("no verdict", [CALLED, OPEN], {"status": 3, "last": "rattle: no verdict"}),
        ("it was killed", [CALLED], {"status": -9, "last": "fn apart::one_more: proved"}),
        ("a function has no line", [CALLED], {}),
        ("a function may wait now", [CALLED, "fn apart::one_more: proved, may wait"], {}),
        ("the front end found an error", ["error[E0308]: mismatched types", CALLED, OPEN], {}),
        (
            "a clause could not be read",
            ["src/lib.rt:9:4: error: `ensures-1`: `+` is not in scope", CALLED, OPEN],
            {},
        ),
        (
            "a lemma is wrong",
            ["./proofs/Counts.antt:9:4: error: `more`: the two types differ", CALLED, OPEN],
            {},
        ),
        (
            "a function is open that no edit names",
            [CALLED, OPEN, OPEN.replace("one_more", "two_more")],
            {},
        ),
        (
            "an answer of a function that no edit changes names what is gone",
            [CALLED, OPEN, GONE, "fn apart::two_more: not proved"],
            {},
        ),
    ],
)
def test_void(why, lines, end):
    with pytest.raises(edits.Void):
        refused(*lines, **end)


# ---------------------------------------------------------------- what is kept of earlier runs
NEEDS_KIT = pytest.mark.skipif(shutil.which("rt") is None, reason="rt is not installed")


@functools.cache
def tool(name="edits"):
    loader = importlib.machinery.SourceFileLoader(f"tests_{name}", str(ROOT / "tests" / name))
    made = importlib.util.module_from_spec(importlib.util.spec_from_loader(loader.name, loader))
    loader.exec_module(made)
    return made


def function(name, most, *lines):
    body = "".join(f"    {line}\n" for line in lines)
    return f"pub fn {name}() -> u8\n    ensures {{ result ≤ {most} }}\n{{\n{body}}}\n\n"


CRATES = {
    "below/src/lib.rt": function("low", 3, "1", "// some"),
    "above/src/lib.rt": function("first", 5, "3", "2")
    + function("second", 9, "6 + low()", "0")
    + function("third", "most", "7", "-1"),
    "above/specs/Most.antt": "most = 7\n",
    "above/must-fail/body.edit": "old:     3\nnew:     4\n# refused at returns of first\n",
    "above/must-fail/call.edit": "old: + low\nnew: + 1 + low\n# refused at returns of second\n",
    "above/must-fail/alone.edit": "old:     7\nnew:     9\n",
    "above/must-fail/clause.edit": "old: ≤ most\nnew: ≤ 4\n",
    "above/must-fail/meaning.edit": "file: specs/Most.antt\nold: = 7\nnew: = 4\n",
}
EDITS = {"alone", "body", "call", "clause", "meaning"}


def check_of(crate, texts, *_):
    """Stands for the prover: each function returns the sum of the numbers in its body."""
    texts = {**kept_edits.files_of(pathlib.Path(crate.folder)), **texts}
    below = pathlib.Path(crate.deps[0].folder, "src/lib.rt").read_text()
    text = texts["src/lib.rt"].replace("low()", re.search(r"≤ (\d+)", below)[1])
    text = text.replace("most", re.search(r"\d+", texts["specs/Most.antt"])[0])
    said = []
    for name, most, body in re.findall(r"fn (\w+).*\n.*≤ (\d+).*\n\{([^}]*)", text):
        is_proved = sum(map(int, re.findall(r"-?\d+", body))) <= int(most)
        why = "proved" if is_proved else "no proof: `search` did not prove `returns`"
        said.append(f"fn above::{name}: {why}\n")
    is_any_open = any("no proof" in line for line in said)
    said.append(f"logic={'not-' * is_any_open}proved\n")
    return subprocess.CompletedProcess([], int(is_any_open), "".join(said))


class Toy:
    """A repository of two crates whose edits are tried by `check_of`, with a store of its own."""

    def __init__(self, folder, monkeypatch):
        self.root = folder / "root"
        self.store = folder / "store"
        self.trial_folders = (folder / str(number) for number in range(9))
        for path, text in CRATES.items():
            file = self.root / "crates" / path
            file.parent.mkdir(parents=True, exist_ok=True)
            file.write_text(f"file: src/lib.rt\n{text}" if "must-fail" in path else text)
        (self.root / "crates.txt").write_text("below:\nabove: below\n")
        (self.root / "HANDLES").write_text("Handles allowed: none.\n")
        prover = tool().Prover()
        prover.checked = check_of
        monkeypatch.setattr(prover.rt, "STORE", str(self.store))
        monkeypatch.setattr(tool(), "ROOT", self.root)
        monkeypatch.setattr(tool(), "Prover", lambda: prover)
        self.prover = prover

    def change(self, path, old, new):
        file = self.root / "crates" / path
        assert file.read_text().count(old) == 1
        file.write_text(file.read_text().replace(old, new))

    def trial(self, from_nothing=False):
        trial_folder = next(self.trial_folders)
        repository = trial_folder / "repository"
        tool().copy_to(repository, [])
        return tool().trials_of([], trial_folder, repository, from_nothing)[0]["above"]

    def run(self, *given):
        """The names of the edits that fail, and of those that are kept."""
        trial = self.trial(*given)
        trial.look_up()
        trial.run()
        lines = {edit.file.stem: line for edit, line in trial.lines.items()}
        assert lines.keys() == EDITS
        failed = {name for name, line in lines.items() if line.startswith("FAILED ")}
        return failed, {name for name, line in lines.items() if ": kept: " in line}


@pytest.fixture
def toy(tmp_path, monkeypatch):
    made = Toy(tmp_path, monkeypatch)
    assert made.run() == (set(), set())
    assert made.run() == (set(), EDITS)
    assert made.run(True) == (set(), set())
    return made


ABOVE, BELOW, EDIT = "above/src/lib.rt", "below/src/lib.rt", "above/must-fail/alone.edit"


@NEEDS_KIT
@pytest.mark.parametrize(
    "change, failed, kept",
    [
        ((ABOVE, "    2\n", "    1\n"), "body", "alone call meaning"),
        ((ABOVE, "≤ 5", "≤ 6"), "body", ""),
        ((BELOW, "≤ 3", "≤ 2"), "call", ""),
        ((BELOW, "    1\n", "    2\n"), "", "alone body call clause meaning"),
        ((BELOW, "    // some\n", ""), "", "alone body call clause meaning"),
        ((ABOVE, "    -1\n", "    0\n"), "", "body call"),
        ((ABOVE, "    -1\n", "    -3\n"), "alone clause meaning", "body call"),
        ((ABOVE, "    7\n", "    5 + 2\n"), "alone", "body call"),
        ((ABOVE, "    2\n", "    2 // + low\n"), "call", "alone body meaning"),
        ((EDIT, "9", "8"), "alone", "body call clause meaning"),
    ],
)
def test_an_edit_that_is_harmless_by_now_fails_beside_what_is_kept(toy, change, failed, kept):
    toy.change(*change)
    assert toy.run() == (set(failed.split()), set(kept.split()))


@NEEDS_KIT
def test_what_passes_from_nothing_is_kept_no_longer(toy):
    toy.prover.checked = lambda crate, *_: check_of(crate, {})
    assert toy.run(True) == toy.run() == (EDITS, set())


@NEEDS_KIT
def test_what_is_kept_of_another_edit_counts_for_nothing(toy, monkeypatch):
    toy.change(EDIT, "9", "8")
    entry = next((toy.store / "edits").iterdir())
    trial = toy.trial()
    asked = []
    monkeypatch.setattr(trial.kept.store, "tried", asked.append)
    (alone,) = [edit for edit in trial.edits if edit.file.stem == "alone"]
    trial.kept.known(trial.crate, alone)
    for name in asked:
        shutil.copy(entry, toy.store / "edits" / name)
    assert toy.run() == ({"alone"}, EDITS - {"alone"})


@NEEDS_KIT
@pytest.mark.parametrize("moment", ["before", "during", "after"])
def test_an_edit_that_is_changed_meanwhile_is_kept_as_it_was_read(tmp_path, monkeypatch, moment):
    toy = Toy(tmp_path, monkeypatch)
    trial = toy.trial()
    store, edit = trial.kept.store, toy.root / "crates" / EDIT
    was = edit.read_text()

    def change(*given):
        edit.write_text(was.replace("9", "8"))
        return given

    if moment == "before":
        change()
    elif moment == "during":
        toy.prover.checked = lambda *given: check_of(*change(*given))
    else:
        keep = store.keep_tried
        monkeypatch.setattr(store, "keep_tried", lambda *given: keep(*change(*given)))
    trial.run()
    assert toy.run() == ({"alone"}, EDITS - {"alone"})
    edit.write_text(was)
    toy.prover.checked = check_of
    assert toy.run() == (set(), EDITS)


class OlderProver:
    """Stands for `rt ci` of a kit that keeps no proofs: it builds one program."""

    stdout = ["rt: below proved\n", "rt: above proved\n"]

    def __init__(self, begun, repository):
        begun.append(repository)
        self.program = repository / "crates" / "above" / "out" / "above"

    def wait(self):
        self.program.parent.mkdir()
        self.program.write_text("program")
        return 0


@NEEDS_KIT
@pytest.mark.whole
def test_with_an_older_kit_all_is_proved_again_if_anything_has_changed(tmp_path, monkeypatch):
    toy = Toy(tmp_path, monkeypatch)
    begun = []
    monkeypatch.setattr(tool().parts, "does_kit_keep", lambda: False)
    monkeypatch.setattr(tool(), "begin_proving", lambda _, at, __: OlderProver(begun, at))
    monkeypatch.setattr(tool().os, "nice", lambda _: None)
    monkeypatch.setattr(older_kit, "STORE", str(toy.store))
    built = toy.root / "crates" / "above" / "out" / "above"

    def proves(is_from_nothing=False):
        number = len(begun)
        built.unlink(missing_ok=True)
        assert tool().prove_and_try([], next(toy.trial_folders), is_from_nothing)[0] == 0
        assert built.read_text() == "program"
        return len(begun) > number

    assert [proves(), proves(), proves(True), proves()] == [True, False, True, False]
    # nothing is built of the crates below over which an edit could be tried
    toy.change(EDIT, "9", "19")
    assert [proves(), proves()] == [True, False]
    toy.change(BELOW, "    // some\n", "")
    assert [proves(), proves()] == [True, False]
    [kept] = (toy.store / "proved").iterdir()
    kept.chmod(0o777)
    assert proves()


@pytest.mark.parametrize(
    "old, new, is_same",
    [
        ("/// One more", "// Two more", True),
        ("return number;", "return 0 + number; // more", True),
        ("let few", 'let few = "// more"; let few', True),
        ("fn one_more", "const fn one_more", False),
        ("u8) -> u8\n    ensures {", "u8) -> impl Fn()\n    ensures {", False),
        ("number + 1 }", "number + 2 }", False),
        ("let few", "impl Few for u8 {\n    }\n    let few", False),
    ],
)
def test_the_outline_has_all_but_bodies_and_comments(old, new, is_same):
    found = {kept_edits.Outline({"src/lib.rt": SOURCE.replace(old, new)}, False).sum}
    assert (found == {kept_edits.Outline({"src/lib.rt": SOURCE}, False).sum}) == is_same


def test_no_two_functions_have_one_sum():
    """Else what refused an edit holds for another function that has its body by now."""
    texts = [function("first", 9, one) + function("second", 9, two) for one, two in ("12", "21")]
    found = [kept_edits.Outline({"src/lib.rt": text}, False).functions for text in texts]
    assert len({it.own for functions in found for of in functions.values() for it in of}) == 4


@pytest.mark.parametrize("does_keep", [True, False])
def test_the_full_check_hands_on_that_nothing_counts(monkeypatch, does_keep):
    begun = []
    monkeypatch.setattr(tool().parts, "does_kit_keep", lambda: does_keep)
    monkeypatch.setattr(tool("all").parts, "Part", lambda words, *_, **__: begun.append(words))
    tool("all").begin_proving(["--from-nothing"], None)
    monkeypatch.setattr(subprocess, "Popen", lambda words, **_: begun.append(words))
    monkeypatch.setattr(tool().signal, "signal", lambda *_: None)
    tool().begin_proving(None, None, True)
    anew = ["--anew"] if does_keep else []
    assert begun == [["tests/edits", "--from-nothing"], ["rt", "ci", *anew]]


def test_no_file_cites_the_proof_of_a_function_of_another():
    """Else the bodies of functions are no longer apart from what others read of them."""
    files = {it.parent.name: kept_edits.files_of(it.parent) for it in ROOT.glob("crates/*/src")}
    kit = {"std", *(ROOT / "crates.txt").read_text().split()} - set(files)
    assert [*kept_edits.citing(files, kit)] == []


@pytest.mark.parametrize(
    "path, text",
    [
        ("proofs/Lemmas.antt", "use Rattle.toy.proofs.add.Goals as goal"),
        ("proofs/other/Answers.antt", "use Rattle.toy.proofs.{add, other}"),
        ("specs/Lib.antt", "use Rattle.toy.{proofs}"),
        ("src/lib.rt", "#[tactic(auto, using(crate::proofs::add::Answers::returns))]"),
    ],
)
def test_a_file_that_cites_the_proof_of_another_function(path, text):
    files = {"proofs/Lemmas.antt": "", "proofs/add/Answers.antt": "use Rattle.toy.proofs.add.Goals"}
    assert [*kept_edits.citing({"toy": files}, [])] == []
    assert [*kept_edits.citing({"toy": {**files, path: text}}, [])] == [f"toy/{path}"]
    body = {"src/lib.rt": function("add", 1, "1")}
    assert not kept_edits.Outline(body, True).functions


# ---------------------------------------------------------------- the prover itself
@NEEDS_KIT
@pytest.mark.proved
def test_a_wrong_and_a_right_body_change_nothing_of_each_other(tmp_path):
    """Of the two edits of each check just the wrong ones are refused, at their own goals."""
    crate = tmp_path / "crates" / "apart"
    (crate / "src").mkdir(parents=True)
    (crate / "src" / "lib.rt").write_text(SOURCE)
    (tmp_path / "crates.txt").write_text("apart:\n")
    tried = [
        edit("1-wrong-called", *WRONG_CALLED),
        edit("1-right-caller", *RIGHT_CALLER),
        edit("2-right-called", *RIGHT_CALLED),
        edit("2-wrong-caller", *WRONG_CALLER),
        edit("3-wrong-called", *WRONG_CALLED),
        edit("3-wrong-caller", *WRONG_CALLER),
    ]
    prover = tool().Prover()
    trial = tool().Trial(prover, prover.crates(tmp_path)[0], tried, tmp_path, None)
    proved = prover.check(trial.crate, {}, trial.seed)
    assert proved.returncode == 0, proved.stdout
    batches, alone = edits.batches_of(tried, {"src/lib.rt": SOURCE})
    assert ([len(batch.functions) for batch in batches], alone) == ([2, 2, 2], [])
    left = [names(trial.try_batch(proved.stdout, batch)) for batch in batches]
    assert left == ["1-right-caller", "2-right-called", ""]
