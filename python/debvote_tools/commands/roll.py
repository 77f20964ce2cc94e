"""The command `roll`, which reads the list of members into the book."""

import re
from collections.abc import Iterable, Iterator, Mapping, Sequence

from debvote_tools.book import outgoing, queries
from debvote_tools.book.book import Book
from debvote_tools.book.change import Change
from debvote_tools.call.box import SCRIPT, box_files
from debvote_tools.call.members import Member, Roll, elector_in_words, label_of
from debvote_tools.cli.arguments import Acting, flag, option
from debvote_tools.cli.console import is_terminal, is_yes, listed, say, say_number, shown_text, tell
from debvote_tools.cli.faults import Fault, bad_arguments
from debvote_tools.commands.check import MAX_NAMED, is_kept, read_roll
from debvote_tools.commands.codes import CODES, SLIPS, write_slips
from debvote_tools.election import BOX_SCRIPT, CALL, MEMBERS_FILE, PRIVATE, Election, History
from debvote_tools.files import PUBLIC, write_made
from debvote_tools.grouping import several
from debvote_tools.inbox.lines import Names
from debvote_tools.outbox.steps import tell_next
from debvote_tools.poll.plain_names import ELECTOR_LIMIT, alike, similar_names
from debvote_tools.poll.sealed import new_own_mark
from debvote_tools.text.addresses import address_in, address_key
from debvote_tools.text.language import SPOKEN, Language, marked

# `Eve & Dan`, `Eve und Dan`, `Eve/Dan`
SEVERAL_PEOPLE = re.compile(r"\w ?[&+/] ?\w|\w (?:and|und|et) \w", re.IGNORECASE)

# what may be wrong with the list: words, the names that they are about, and a sentence after these
Note = tuple[str, list[str], str]


class Arguments(Acting):
    yes: bool = flag("After the call: take the new addresses and keys without a question")
    new_link: str | None = option(
        "NAME",
        "After a call with a web box: make a new link for this elector, for whom it takes no more",
    )


def roll(election: Election, arguments: Arguments) -> None:
    """Read the list of members, and give each elector a name on the roll."""
    book = election.book_for(arguments)
    history = election.history()
    if history.has_codes_on_roll:
        words = "codes are on the roll, and nobody knows whose they are"
        raise Fault(None, words, "for another roll, begin anew in another folder")
    roll = read_roll(election, history)
    changes = dict.fromkeys(linked_anew(history, roll, arguments.new_link), "a new link")
    if history.call is None:
        keep_electors(book, roll, history.last.number)
        tell(*roll_in_words(roll, election.language))
    else:
        is_secret = election.questions.is_secret and not history.tellers
        went = outgoing.call_addresses(book, history.call.number) if is_secret else {}
        changes |= {
            member: changes_in_words(member, went) for member in roll.electors if member.changes
        }
        agreed = {
            member: words
            for member, words in changes.items()
            if arguments.yes or is_agreed(member, words)
        }
        change_addresses(election, history, agreed, arguments.new_link)
    tell_next(election)


def linked_anew(history: History, roll: Roll, name: str | None) -> list[Member]:
    """The elector of this name, who gets another link. Stops where nobody has one that could be
    replaced.
    """
    has_links = history.announced("box") and not history.closes
    named = [member for member in roll.electors if has_links and member.name == name]
    if name is not None and not named:
        raise bad_arguments(
            "--new-link",
            f"{shown_text(name)} has no link that could be replaced",
            "name an elector of the roll, or leave it out",
        )
    return named


# ---- the acts
def keep_electors(book: Book, roll: Roll, seen: int) -> None:
    """The act after which the electors are those of the list, if they are not already."""
    if is_kept(book, roll):
        return
    before = {elector.name: elector for elector in queries.all_electors(book)}
    after = {name: elector._replace(position=None) for name, elector in before.items()}
    for position, (_, name, who, addresses, key, *_) in enumerate(roll.electors, start=1):
        known = before.get(name) or queries.new_elector(name)
        if alike(known.who) != alike(who):
            # a code that somebody else got shows this person nothing
            known = known._replace(code="", alias="")
        after[name] = known._replace(position=position, who=who, addresses=addresses, key=key)
    changed = [now for name, now in after.items() if before.get(name) != now]
    Change("roll", {"electors": len(roll.electors)}, electors=changed).do(book, seen)


def change_addresses(
    election: Election, history: History, changed: Mapping[Member, str], new_link: str | None
) -> None:
    """The act after the call. A new address makes a new own mark, and a new link to the box: who
    reads the old one knows both. An elector may get a new link alone.
    """
    if not changed:
        # a run that was killed may not have made them
        if history.since_call("addresses"):
            make_anew(election, history)
        tell(say("Nothing was changed."))
        return
    # what judges letters takes a while to be imported
    from debvote_tools.inbox import letter_words
    from debvote_tools.inbox.judging import letters_now
    from debvote_tools.inbox.vote import Vote

    vote = Vote(election)
    book = election.book
    electors = [*electors_of(changed, new_link)]
    letters_before = letters_now(vote)
    files = dict[str, bytes]()
    if history.announced("box") and not history.closes:
        marks = {elector.name: elector.mark for elector in (*queries.electors(book), *electors)}
        files = box_files(book, election.sealed().public.mark, marks)
    change = Change("addresses", {"electors": len(changed)}, electors=electors, sealed=files)
    change.do(book, history.last.number)
    make_anew(election, history)
    tell(*changed_words(election, changed))
    tell(*letter_words.judged_anew(letters_before, letters_now(vote)))


def electors_of(changed: Iterable[Member], new_link: str | None) -> Iterator[queries.Elector]:
    """The electors as they are now, with new own marks if they have a new address or link."""
    for member in changed:
        if known := member.known:
            if "address" in member.changes or member.name == new_link:
                known = known._replace(mark=new_own_mark())
            yield known._replace(addresses=member.addresses, key=member.key)


def make_anew(election: Election, history: History) -> None:
    """Makes what depends on own marks, and so on addresses: the slips, and the script of the
    box.
    """
    if election.questions.is_secret and not history.tellers:
        write_slips(election, election.sealed())
    if history.announced("box") and not history.closes:
        files = {SCRIPT: queries.sealed(election.book, BOX_SCRIPT)}
        write_made(election.path(CALL), files, PUBLIC)


def is_agreed(member: Member, words: str) -> bool:
    question = f"{label_of(member)}: {words}. {say('Is that right?')}"
    if not is_terminal():
        raise Fault(None, question, "run it at a terminal, or with --yes")
    return bool(is_yes(question))


def changes_in_words(member: Member, went: Mapping[str, Sequence[str]]) -> str:
    """What changes of an elector. `went` are the addresses to which the call with their code
    went.
    """
    none = say("(none)")
    words = [
        say("{what} {before} becomes {now}", say(what), before or none, now or none)
        for what, (before, now) in member.changes.items()
    ]
    before, _ = member.changes.get("address", ("", ""))
    going = {*before.split(", ")}.difference(member.addresses)
    if gone := [address for address in went.get(member.name, ()) if address in going]:
        words.append(
            f"the secret code went to {', '.join(gone)}, and whoever reads it there will see this vote "
            "(as long as nothing has come, call --take-back makes new codes)"
        )
    return "; ".join(words)


# ---- what is told
def changed_words(election: Election, changed: Mapping[Member, str]) -> Iterator[str]:
    for member, words in changed.items():
        yield f"{member.name}: {words}"
    if election.questions.is_secret and not election.history().tellers:
        yield f"Made {SLIPS} and {CODES} in {election.path(PRIVATE)} anew: a new address has a new mark."
    yield say_number(
        "{number} elector changed; the result page says how many.",
        "{number} electors changed; the result page says how many.",
        len(changed),
    )


def roll_in_words(roll: Roll, language: Language) -> Iterator[str]:
    electors = roll.electors
    yield say_number(
        "{number} elector, each with the name on the roll:",
        "{number} electors, each with the name on the roll:",
        len(electors),
    )
    yield from map(elector_in_words, electors)
    if proposed := sum(bool(member.proposal) for member in electors):
        yield say_number(
            "{number} name was proposed. To change a name, write it into a column `name` of {file}, and run this again.",
            "{number} names were proposed. To change a name, write it into a column `name` of {file}, and run this again.",
            proposed,
            MEMBERS_FILE,
        )
    for words, names, after in notes_on(electors, language):
        if names:
            yield f"{words}: {listed(names, MAX_NAMED)}{after and f'. {say(after)}'}"
    for gone in roll.gone:
        yield f"No longer on the list: {label_of(gone)}"


def notes_on(electors: Sequence[Member], language: Language) -> Iterator[Note]:
    """What may be wrong with the list."""
    by_address = (
        (key, member.name)
        for member in electors
        for key in dict.fromkeys(map(address_key, member.addresses))
    )
    is_one = marked("Is that one person?")
    for address, names in several(by_address).items():
        yield say("Note: several electors have the address {address}", address), names, is_one
    for names in several((alike(member.who), member.name) for member in electors).values():
        yield say("Note: these real names look alike"), names, is_one
    yield from notes_on_names(electors, language)
    without = [member.name for member in electors if not member.addresses]
    words = say("Without an address (letters in their names wait, letters to them are printed)")
    yield words, without, ""
    unsent = [
        member.name for member in electors if member.addresses and not address_in(member.addresses)
    ]
    words = say("Without an address that every mail server takes (letters to them are printed)")
    yield words, unsent, ""


def notes_on_names(electors: Sequence[Member], language: Language) -> Iterator[Note]:
    cut = [label_of(member) for member in electors if not member.name.startswith(member.proposal)]
    words = say("Note: a name has at most {most} characters, so these were cut", ELECTOR_LIMIT)
    yield words, cut, ""
    pairs = map(SPOKEN.get().joined, similar_names(member.name for member in electors))
    yield say("Note: these names are easily mistaken for each other"), list(pairs), ""
    real_names = {member.name: member.who for member in electors}
    taken = Names(frozenset(real_names), language.code, real_names, 0, {}).real_names_of_others
    theirs = [label_of(member) for member in electors if member.name in taken]
    words = say("Note: these names on the roll are the real name of somebody else")
    yield words, theirs, marked("Give them other names.")
    couples = [label_of(member) for member in electors if SEVERAL_PEOPLE.search(member.who)]
    words = say("Note: these look like several people, who have one ballot together")
    yield words, couples, marked("Give each a line of their own.")
