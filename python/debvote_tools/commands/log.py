"""The command `log`, which lists the acts."""

import itertools
import json
import re
from collections.abc import Iterator, Sequence

from debvote_tools.book.book import DoneAct
from debvote_tools.cli.arguments import Options, flag
from debvote_tools.cli.console import act_time, count_of, say, shown_text, tell
from debvote_tools.election import Election

# the random line of a close, which stays in the book: with it few ballots can be guessed from the
# checksum
SEAL = re.compile(r', "seal": "\w*"')

# what the table says of an act, by the keys of its detail
SHOWN = "desk kind box files lines letters electors codes envelope act until to at early because".split()


class Arguments(Options):
    check: bool = flag("Check the chain of digests against everything in the book")
    json: bool = flag("Print each act with all its detail as JSON, for programs")


def log(election: Election, arguments: Arguments) -> None:
    """List the acts of the election; with --check compute their digests again."""
    if arguments.check:
        acts = election.whole_book().acts()
        tell(
            f"The chain is whole: {count_of(len(acts), 'act')}, the last digest is {acts[-1].digest}"
        )
        return
    acts = election.history().acts
    if arguments.json:
        tell(*map(as_json, acts))
    else:
        tell(*table(acts), say("The last digest is {digest}", acts[-1].digest))


def as_json(act: DoneAct) -> str:
    """An act on one line."""
    fields = {
        "act": act.number,
        "time": act.time.strftime("%Y-%m-%dT%H:%M:%SZ"),
        "name": act.name,
        "machine": act.machine,
        "digest": act.digest,
        "detail": json.loads(SEAL.sub("", act.detail_as_json)),
    }
    return json.dumps(fields, ensure_ascii=False)


def table(acts: Sequence[DoneAct]) -> Iterator[str]:
    """An act on a line. Letters that were sent one after the other, each by an act, share one."""
    before = acts[0]
    for _, row in itertools.groupby(acts, key=row_of):
        first, *others = row
        last = others[-1] if others else first
        number = f"{first.number}-{last.number}" if others else f"{first.number}"
        yield f"{number:>9}  {act_time(first.time)}  {facts_of(first)}"
        if first.went_back(before):
            yield f"{'':11}the clock went back: the previous act has a later time"
        before = last


def row_of(act: DoneAct) -> object:
    return act.detail["kind"] if act.name == "letter sent" else act.number


def facts_of(act: DoneAct) -> str:
    """The name of an act, and what it is about."""
    facts = ((key, act.detail.get(key)) for key in SHOWN)
    said = [fact_in_words(key, value) for key, value in facts if value not in (None, False, [])]
    return ", ".join([say(act.name), *said])


def fact_in_words(key: str, value: object) -> str:
    if value is True or isinstance(value, dict):
        return say(key)
    return f"{say(key)} {shown_text(' '.join(map(str, value)) if isinstance(value, list) else str(value))}"
