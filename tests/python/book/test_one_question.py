"""Of one question the book shows the parts of lines that answer it, and nothing of it is changed."""

import pathlib

import pytest

from debvote_tools.book import queries
from debvote_tools.book.book import BOOK_FILE, Book, connected, create, open_book

LINES = [
    (b"ada A 1,2 C 2,1,3", None),
    (b"ben A 2,1", None),
    (b"ada C 1,1,1", None),
    (b"ben C 1,2", "bad rank count: .."),
]

SEEN = {
    "": [line for line, _ in LINES],
    "A": [b"ada 1,2", b"ben 2,1"],
    "B": [],
    "C": [b"ada 2,1,3", b"ada 1,1,1", b"ben 1,2"],
}


@pytest.fixture
def book(tmp_path: pathlib.Path) -> Book:
    create(tmp_path / BOOK_FILE, {"language": "en"}, tmp_path / BOOK_FILE)
    book = open_book(tmp_path / BOOK_FILE)
    with book.act("roll", {"electors": 2}) as act:
        ada, ben = (act.insert("elector", name=name) for name in ("ada", "ben"))
    with book.act("add") as act:
        new = [queries.NewEnvelope(line, why_refused=why) for line, why in LINES]
        queries.add_envelopes(act, new, [ada, ben, ada, ben], is_late=False)
    return book


@pytest.mark.parametrize("label", SEEN)
@pytest.mark.parametrize("is_within", [False, True])
def test_of_each_line_the_part_that_answers_it_is_seen(book: Book, label: str, is_within: bool):
    if is_within:
        with book.snapshot(), book.question(label):
            seen = queries.lines_to_count(book)
    else:
        with book.question(label), book.snapshot():
            seen = queries.lines_to_count(book)
    assert seen == SEEN[label]
    # behind it the book is as it was
    assert queries.lines_to_count(book) == SEEN[""]
    book.demand_whole()


def test_what_became_of_a_part_is_of_its_question(book: Book):
    with book.question("C"):
        assert [(one.number, one.became) for one in queries.envelopes(book)] == [
            (1, "replaced"),
            (3, "counts"),
            (4, "refused"),
        ]
        assert queries.what_counts(book) == {"ada": "1,1,1"}
        assert queries.numbers(book) == (3, 2, 1, 1)
        [refused] = queries.envelopes(book, "envelope IN refused")
        assert (refused.number, refused.line, refused.why_refused) == (
            4,
            b"ben 1,2",
            "bad rank count: ..",
        )
    with book.question("A"):
        assert (
            queries.what_counts(book)
            == queries.what_counts(book, at=book.last_number())
            == {"ada": "1,2", "ben": "2,1"}
        )


def test_a_fault_within_leaves_no_view(book: Book):
    with pytest.raises(ZeroDivisionError), book.question("A"):
        1 / 0
    assert queries.lines_to_count(book) == SEEN[""]


def test_a_book_that_is_only_read_shows_one_question(book: Book):
    readable = Book(book.path, connected(book.path, "ro"), is_read_only=True)
    with readable.question("A"):
        assert queries.lines_to_count(readable) == SEEN["A"]
