"""The poll as the secretary writes it, and the sealed poll that it becomes."""

import json
import math
import os
import pathlib
import re
import tomllib
from collections.abc import Iterator, Mapping, Sequence
from typing import Any, NamedTuple

from debvote_tools.cli.console import LINE_ENDS, shown_text, tell_as_it_is
from debvote_tools.cli.faults import Fault, Status, bad_arguments, kept_in, stop_at
from debvote_tools.election import LETTER_TEXT, POLLS, TEXTS, Election
from debvote_tools.files import POLL_LIMIT, read_text, read_whole
from debvote_tools.poll.plain_names import bad_options, bad_title, plain_options, plain_title
from debvote_tools.poll.questions import LABELS, POLL_FILE, TITLE_FILE, Questions, place_of
from debvote_tools.poll.sealed import KEYS, is_set, plain_form
from debvote_tools.text.language import ENGLISH
from debvote_tools.text.motions import ABSTAIN, NO, YES, first_word, words_of

# the file that `new` writes, with its explanations
NEW_POLL = pathlib.Path(__file__).with_name("new_poll.toml")

# in bytes: of all texts together, and of what begins letters to electors
TEXTS_LIMIT = 524_288
LETTER_LIMIT = 4_096

# in characters; of what begins letters no line is broken anew
LONGEST_LINE = 78

TEXT_NAME = re.compile(r"([1-9][0-9]?)\.txt")
# a file that an editor leaves beside another
OF_EDITORS = re.compile(r"\..*|.*~|#.*#")

# a cure, and what follows each cure
BY_EDITOR = "put it right with an editor"
THEN = ", then run debvote-election check"

# how a key of a sealed poll is set that is not the secretary's; all others are
SET_ELSEWHERE = {
    "roll": "roll reads the electors from members.csv",
    "last_envelope": "close ends the vote",
    "deadline": "call --until sets the end of the vote",
    "address": "call --to sets the address for ballots",
    "shown_title": "write `title` in any language",
    "shown_options": "write `options` and `default` in any language",
    "explanations": "write the text of option 1 into texts/1.txt, and so on",
}

# keys that are true or false
FLAGS = ("secret", "motion")

# what each key says that a poll needs, and that the secretary writes
NEEDED = {
    "title": "what the vote is about",
    "options": "what can be chosen",
    "ratios": "how great a majority each option needs",
    "default": "the default option",
    "quorum": "the quorum",
}

# how `debvote explain` begins a line if it has read the poll as TOML
IS_TOML = re.compile(r"(?m)^poll(?:: | ok)")


class DraftPoll(NamedTuple):
    """The poll of a question as it is written: the values of its keys, of whatever type."""

    file: pathlib.Path
    values: Mapping[str, Any]
    # as people read them, the default option last; empty where it is no text
    title: str
    names: Sequence[str]
    # the texts about options, by their numbers
    texts: Mapping[int, str]
    faults: Sequence[Fault]

    def says(self, flag: str) -> bool:
        return self.values.get(flag) is True


def bad_poll(file: object, reason: str, cure: str) -> Fault:
    return Fault(file, reason, cure + THEN, Status.BAD_POLL, None)


# ---- the files
def labels_in(folder: pathlib.Path) -> list[str]:
    """The labels of several questions, by the files of their polls, or that of one, which is
    empty.
    """
    place = folder / POLLS
    if not place.is_dir():
        return [""]
    names = os.listdir(place)
    return [label for label in LABELS if f"{label}.toml" in names]


def files_in(folder: pathlib.Path) -> list[pathlib.Path]:
    """What is in a folder, if it is there, but for what editors leave."""
    try:
        files = folder.iterdir() if folder.exists() else ()
        return sorted(file for file in files if not OF_EDITORS.fullmatch(file.name))
    except OSError as error:
        cure = "put a folder there with a text for each option"
        raise bad_arguments(folder, error.strerror, cure, None) from None


def title_in(folder: pathlib.Path) -> str:
    """The title of several questions. Stops if it cannot be read, or is not one line."""
    file = folder / POLLS / TITLE_FILE
    write = "write into it one line, what the whole vote is about"
    title = read_text(file, POLL_LIMIT, write, write, THEN).strip()
    cure = f"write it in another way{THEN}"
    stop_at([bad_arguments(file, reason, cure, None) for _, _, reason in bad_title(title)])
    return title


def draft_in(election: Election, label: str = "") -> DraftPoll:
    """Reads the poll of a question, and the texts beside it. Stops at a file that is no TOML."""
    name = f"{POLLS}/{label}.toml" if label else POLL_FILE
    file = election.path(name)
    data = read_whole(file, POLL_LIMIT, "write it", THEN)
    try:
        values = tomllib.loads(data.decode("utf-8-sig"))
    except (ValueError, RecursionError) as error:
        reason = f"it can't be read as TOML 1.0: {error}"
        said = election.debvote.run("explain", "--poll", name).text
        # debvote reads a newer TOML than Python does
        if said and not IS_TOML.search(said):
            tell_as_it_is(said)
            reason = "it can't be read as TOML, as said above"
        raise bad_poll(file, reason, BY_EDITOR) from None
    options = values["options"] if isinstance(values.get("options"), list) else []
    title, *names = (
        name.strip() if isinstance(name, str) else ""
        for name in (values.get("title"), *options, values.get("default"))
    )
    faults = [*faults_of_keys(values, file)]
    texts = texts_in(election.path(TEXTS) / label, len(options), faults)
    return DraftPoll(file, values, title, names, texts, faults)


def faults_of_keys(values: Mapping[str, Any], file: object) -> Iterator[Fault]:
    """Keys that are set elsewhere, and values that debvote can't be given to name them."""
    for key, value in values.items():
        if key in SET_ELSEWHERE:
            reason = f"the key `{key}` is not written here: {SET_ELSEWHERE[key]}"
            yield bad_poll(file, reason, "take it out")
        elif key in FLAGS and not isinstance(value, bool):
            cure = f"write {key} = true, or take the line out"
            yield bad_poll(file, f"`{key}` is neither true nor false", cure)
        elif not has_plain_form(value):
            cure = "write a text, a whole number or a list of these, or take it out"
            yield bad_poll(file, f"`{shown_text(key)}` has a value of a wrong kind", cure)


def faults_of_lacking(draft: DraftPoll) -> list[Fault]:
    """What is not written yet."""
    lacking = [f"{NEEDED[key]} ({key})" for key in NEEDED if is_lacking(draft.values.get(key))]
    if not lacking:
        return []
    reason = f"it does not say yet {ENGLISH.joined(lacking)}"
    return [bad_poll(draft.file, reason, "fill it in with an editor")]


def is_lacking(value: object) -> bool:
    return value in (None, []) or (isinstance(value, str) and not value.strip())


def has_plain_form(value: object) -> bool:
    """Whether JSON writes a value so that TOML reads it."""
    if isinstance(value, list):
        return all(map(has_plain_form, value))
    if isinstance(value, int):
        return -(2**63) <= value < 2**63
    return isinstance(value, str) or (isinstance(value, float) and math.isfinite(value))


def texts_in(folder: pathlib.Path, option_count: int, faults: list[Fault]) -> dict[int, str]:
    """The texts by the numbers of their options; what is wrong with them is added to the faults."""
    texts = dict[int, str]()
    files = list[pathlib.Path]()
    with kept_in(faults):
        files = files_in(folder)
    for file in files:
        number = TEXT_NAME.fullmatch(file.name)
        with kept_in(faults):
            if number is None or int(number[1]) > option_count:
                most = f"1.txt to {option_count}.txt" if option_count else "1.txt and so on"
                cure = f"name it by the number of an option that is not the default, {most}, or move it out of there"
                raise bad_arguments(
                    file, "it is not the text of an option of this poll", cure, None
                )
            texts[int(number[1])] = text_in(file, TEXTS_LIMIT)
    size = sum(len(text.encode()) for text in texts.values())
    if size > TEXTS_LIMIT:
        reason = f"the texts have {size} bytes together; at most {TEXTS_LIMIT} are allowed"
        faults.append(bad_arguments(folder, reason, f"shorten them{THEN}", None))
    return texts


def text_in(file: pathlib.Path, limit: int) -> str:
    unread = "put a readable file there, or remove it"
    return read_text(file, limit, unread, "write it, or remove the file", THEN, refused=LINE_ENDS)


def letter_text_in(folder: pathlib.Path) -> str:
    """What begins letters to electors; empty without such a file."""
    file = folder / LETTER_TEXT
    return text_in(file, LETTER_LIMIT).strip("\n") + "\n" if os.path.lexists(file) else ""


# ---- what is wrong with it as a whole
def faults_of_names(draft: DraftPoll, roll: Sequence[str], language: str) -> Iterator[Fault]:
    """Names that electors could not read, or tell from each other; and in a motion those that its
    words could mean otherwise.
    """
    plain_names = plain_options(draft.names, language)
    for number, name, why in (*bad_title(draft.title), *bad_options(draft.names, plain_names)):
        which = f"option {number}" if number else "the title"
        reason = f"{which}, `{shown_text(name)}`: {why}"
        yield bad_poll(draft.file, reason, "write it in another way")
    words = words_of(language, motion=draft.says("motion"))
    begins = [words.get(first_word(name)) for name in draft.names]
    taken = ", ".join(name for name in roll if name in words)
    reasons = {
        "a motion has one option beside the default": words and len(begins) != 2,
        "the option of a motion begins with a word for no or abstention": begins[0]
        in (NO, ABSTAIN),
        "the default option of a motion begins with a word for yes": begins[-1] == YES,
        f"a name on the roll is a word of the motion: {taken}": taken,
    }
    for reason in filter(reasons.get, reasons):
        yield bad_poll(draft.file, reason, "write it in another way, or take out `motion`")


def faults_of_several(election: Election, drafts: Mapping[str, DraftPoll]) -> Iterator[Fault]:
    """What can't be of the polls of several questions together, or is in their folders beside
    them.
    """
    labels = [*drafts]
    yield from strange_files(election, labels)
    secret = [label for label, draft in drafts.items() if draft.says("secret")]
    if 0 < len(secret) < len(labels):
        cure = "make all secret, or none, or hold an election for those that are secret"
        reason = f"only some questions are secret: {', '.join(secret)}"
        yield bad_poll(election.path(POLLS), reason, cure)
    if election.history().has_codes_on_roll:
        reason = "codes are on the roll, and all votes under one code in a row would be a mark"
        cure = "begin anew in another folder, with names on the roll or with one question"
        yield Fault(election.path(POLLS), reason, cure, done=None)


def strange_files(election: Election, labels: Sequence[str]) -> Iterator[Fault]:
    """Files that are missing, and that belong to no question."""
    place = election.path(POLLS)
    if (file := election.path(POLL_FILE)).exists():
        reason = f"it is beside the folder {POLLS}, which has the polls of several questions"
        yield bad_poll(file, reason, "remove one of the two")
    for file in files_in(place):
        if file.name not in (TITLE_FILE, *(f"{label}.toml" for label in labels)):
            cure = (
                "name it A.toml, B.toml and so on (there is no I and no O), or move it out of there"
            )
            yield bad_poll(file, "it is not the poll of a question", cure)
    if len(labels) < 2:
        cure = f"write {POLLS}/A.toml and {POLLS}/B.toml, or begin anew without --questions"
        yield bad_poll(place, "it has fewer than two polls", cure)
    elif missing := sorted({*LABELS[: LABELS.index(labels[-1])]}.difference(labels)):
        reason = f"there is no poll for {', '.join(missing)}, and labels have no gap"
        cure = "write it, or give the others the labels A, B and so on"
        yield bad_poll(place, reason, cure)
    for file in files_in(election.path(TEXTS)):
        if file.name not in labels:
            reason = f"no question has this label: texts are in {TEXTS}/A/1.txt and so on"
            yield bad_arguments(file, reason, "move it out of there", None)


# ---- the sealed form
def sealed_form(draft: DraftPoll, roll: Sequence[str], language: str, **announced: object) -> bytes:
    """The poll as it would be sealed, for debvote to say what is wrong: missing and unknown keys,
    and values of a wrong type, stay. What is announced is end and address.
    """
    title = plain_title(draft.title, language)
    plain_names = plain_options(draft.names, language)
    values = plain_values(draft, title, plain_names)
    texts = tuple(draft.texts.get(number, "") for number in range(1, len(draft.names)))
    further = {
        "roll": list(roll),
        "secret": draft.says("secret"),
        "shown_title": draft.title if draft.title != title else None,
        "shown_options": tuple(draft.names) if draft.names != plain_names else (),
        "explanations": texts if any(texts) else (),
        **announced,
    }
    values |= {key: value for key, value in further.items() if is_set(value)}
    others = {json.dumps(key): values[key] for key in values if key not in KEYS}
    return plain_form({key: values[key] for key in KEYS if key in values} | others)


def plain_values(draft: DraftPoll, title: str, names: Sequence[str]) -> dict[str, Any]:
    """The values of the keys that are the secretary's, with plain names."""
    plain = {"title": title, "default": names[-1]}
    values = {
        key: plain.get(key, value) if isinstance(value, str) else value
        for key, value in draft.values.items()
        if key not in (*SET_ELSEWHERE, *FLAGS) and has_plain_form(value)
    }
    if isinstance(values.get("options"), list):
        values["options"] = [
            name if isinstance(value, str) else value
            for name, value in zip(names, values["options"])
        ]
    return values


# ---- what letters quote
def texts_of(questions: Questions) -> dict[str, str]:
    """The files of the texts of the options, by these texts."""
    return {
        text: f"{TEXTS}/{place_of(label, f'{number}.txt')}"
        for label, poll in questions.items()
        for number, text in enumerate(poll.explanations, start=1)
    }
