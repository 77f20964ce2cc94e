"""What the pages of letters show, by the words that `held` and `add` have."""

from collections.abc import Iterable

from debvote_tools.commands import held
from debvote_tools.election import Election
from debvote_tools.inbox import letter_words
from debvote_tools.inbox.rules import LetterCase, Ruling
from debvote_tools.inbox.vote import Vote
from debvote_tools.office.views import Values, paged
from debvote_tools.office.visit import Refused


def letters_of(election: Election, page: int) -> Values:
    """The letters that are pending: those that go in once somebody agrees, and those that wait."""
    vote = Vote(election)
    pending = [letter for letter in held.all_letters(vote) if letter.is_pending]
    waiting = [letter for letter in pending if letter.ruling is not Ruling.GOES_IN]
    return {
        "vote": vote,
        "words": letter_words,
        "going_in": [one for one in pending if one.ruling is Ruling.GOES_IN],
        **paged(waiting, page),
    }


def letter_of(election: Election, number: int) -> Values:
    """All of one letter, with the words of its ballots while it has to be decided."""
    vote = Vote(election)
    letters = {letter.number: letter for letter in held.all_letters(vote)}
    if number not in letters:
        raise Refused()
    letter = letters[number]
    return {
        "vote": vote,
        "words": letter_words,
        "letter": letter,
        "whole": list(letter_words.whole(letter, held.ours(vote, letter)))[1:],
        "reasons_to_ask": reasons_to_ask(letter),
        "next": next_of(letters.values(), number),
    }


def reasons_to_ask(letter: LetterCase) -> list[str]:
    """For what `--force` may be needed. The command alone decides: it stops at what is not named,
    and nothing is named that is not there when its page is drawn.
    """
    names = {line.ballot.elector for line in letter.proposals}
    is_tied = names and (letter.is_of_couple or all(map(letter.is_tied, names)))
    since = [held.VOTED_SINCE] if letter.voted_since else []
    return since if is_tied else [held.NOT_TIED, *since]


def next_of(letters: Iterable[LetterCase], number: int) -> int:
    """The letter that waits next; 0 if none does."""
    waiting = [one.number for one in letters if one.is_pending and one.number != number]
    return min([other for other in waiting if other > number] or waiting, default=0)
