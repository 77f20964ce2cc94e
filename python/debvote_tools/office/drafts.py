"""The questions and the members as the secretary fills them in on the page, before the call.

The page writes the files that an editor would write, with the comments that are in them. What they
mean, and what is wrong with them, `roll` and `check` alone say.
"""

import contextlib
import json
import pathlib
import re
import tomllib
from collections.abc import Mapping
from typing import Any

from debvote_tools.call.draft import BY_EDITOR, labels_in
from debvote_tools.cli.faults import Fault
from debvote_tools.election import LETTER_TEXT, MEMBERS_FILE, POLLS, TELLERS, Election
from debvote_tools.files import sha256_of, write_whole
from debvote_tools.office.views import Values
from debvote_tools.office.visit import Form, first, number_in, number_of
from debvote_tools.poll.questions import POLL_FILE, TITLE_FILE
from debvote_tools.text.motions import WORDS

TITLE = f"{POLLS}/{TITLE_FILE}"

# the fields of files that are written as they were filled in
FIELDS = {TITLE: "title", TELLERS: "tellers", MEMBERS_FILE: "members", LETTER_TEXT: "letter"}

# who may know how somebody has voted: the secretary, or nobody
SECRET = "1"
BY_TELLERS = "2"


def draft_of(election: Election) -> Values:
    """The files as fields, with the digest of each as it is now."""
    texts = texts_of(election)
    return {
        "polls": {
            label: poll_in(election.path(name), texts[name])
            for label, name in polls_of(election).items()
        },
        **{field: texts.get(name, "") for name, field in FIELDS.items()},
        "digests": {name: digest_of(election.path(name)) for name in texts},
        "is_called": election.history().call is not None,
    }


def polls_of(election: Election) -> dict[str, str]:
    """The files of the polls, by their labels."""
    labels = labels_in(election.folder)
    return {label: f"{POLLS}/{label}.toml" if label else POLL_FILE for label in labels}


def texts_of(election: Election) -> dict[str, str]:
    """The files that a form has, with what is in them now."""
    polls = polls_of(election)
    names = (*polls.values(), TELLERS if "" in polls else TITLE, MEMBERS_FILE, LETTER_TEXT)
    return {name: text_of(election.path(name)) for name in names}


def text_of(file: pathlib.Path) -> str:
    """The text of a file; nothing if it is not there."""
    try:
        return file.read_text("utf-8-sig")
    except FileNotFoundError:
        return ""
    except (OSError, ValueError) as error:
        raise Fault(file, error, BY_EDITOR) from None


def digest_of(file: pathlib.Path) -> str:
    try:
        return sha256_of(file.read_bytes())
    except OSError:
        return ""


def poll_in(file: pathlib.Path, text: str) -> Mapping[str, Any]:
    try:
        poll = tomllib.loads(text)
    except ValueError as error:
        raise Fault(file, error, BY_EDITOR) from None
    if not all(isinstance(poll.get(key), list) for key in ("options", "ratios")):
        raise Fault(file, "its options are not as `new` or the page wrote them", BY_EDITOR)
    return poll


# ---- what is written
def save(election: Election, form: Form) -> list[str]:
    """Writes what the form changes: the polls until the call, the members and the words above
    letters until the close. Returns the files that are others than those from which it was drawn;
    if there are some, nothing was written.
    """
    history = election.history()
    texts = texts_of(election)
    new = dict[str, str]()
    if history.call is None:
        new |= before_call(election, texts, form)
    if not history.is_closed:
        new |= {name: plain(form, FIELDS[name]) for name in (MEMBERS_FILE, LETTER_TEXT)}
    drawn = dict(zip(form.get("file", ()), form.get("digest", ())))
    if others := [name for name in new if digest_of(election.path(name)) != drawn.get(name)]:
        return others
    for name, text in new.items():
        file = election.path(name)
        if name == TELLERS and not text:
            file.unlink(missing_ok=True)
        elif text != texts[name]:
            write_whole(file, text.encode(), 0o600)
    return []


def plain(form: Form, field: str) -> str:
    """A text with line feeds alone, of which the last line ends, too."""
    text = first(form, field).replace("\r\n", "\n").rstrip("\n")
    return f"{text}\n" if text else ""


def before_call(election: Election, texts: Mapping[str, str], form: Form) -> dict[str, str]:
    """The polls, and the title of several, or the tellers of one."""
    code = election.language.code
    new = {
        name: with_values(election.path(name), texts[name], values_in(form, label, code))
        for label, name in polls_of(election).items()
    }
    if TITLE in texts:
        return new | {TITLE: plain(form, "title")}
    # without a teller the file says that some are lacking
    tellers = plain(form, "tellers") or "\n"
    return new | {TELLERS: tellers if first(form, "secret") == BY_TELLERS else ""}


def values_in(form: Form, label: str, code: str) -> Values:
    """The values of a poll in the form; a motion has yes and no as its options."""
    pairs = zip(form.get(f"option{label}", ()), form.get(f"ratio{label}", ()))
    rows = [(name.strip(), number_of(ratio) or 1) for name, ratio in pairs if name.strip()]
    default = first(form, f"default{label}").strip()
    is_motion = first(form, f"kind{label}") == "motion"
    if is_motion:
        yes, no, _ = WORDS[code]
        rows = [(yes.title(), number_in(form, f"majority{label}") or 1)]
        default = no.title()
    return {
        "title": first(form, f"title{label}").strip(),
        "quorum": number_in(form, f"quorum{label}"),
        "motion": is_motion,
        "secret": first(form, "secret") in (SECRET, BY_TELLERS),
        "options": [name for name, _ in rows],
        "ratios": [ratio for _, ratio in rows],
        "default": default,
    }


def with_values(file: pathlib.Path, text: str, values: Values) -> str:
    """The text of a poll with these values, each in a line of its own, and all else as it is."""
    known = poll_in(file, text)
    if values["motion"] and known.get("motion") is True:
        # the options of a motion may have other words
        values |= {key: known[key] for key in ("options", "default")}
    # what is so without it stays out
    values = {key: value for key, value in values.items() if value is not False or key in known}
    for key, value in values.items():
        line = f"{key} = {json.dumps(value, ensure_ascii=False)}"
        text, found = re.subn(rf"(?m)^(?:# )?{key} = .*$", lambda _: line, text, count=1)
        if not found:
            text = f"{text.rstrip()}\n{line}\n"
    with contextlib.suppress(ValueError):
        if tomllib.loads(text) == {**known, **values}:
            return text
    reason = "it is not as `new` or the page wrote it, so the page can't change it"
    raise Fault(file, reason, BY_EDITOR)
