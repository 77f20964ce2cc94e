"""The letters that go out, as the book has them.

Each row is a state of a letter; the last one holds.
"""

import datetime
import json
from collections.abc import Iterable
from typing import NamedTuple

from debvote_tools.book.book import Book, NewAct, from_text
from debvote_tools.grouping import grouped
from debvote_tools.text.language import marked

# a letter is written before a server gets it. A server takes it, or refuses it, perhaps only for
# now; what a run that was cut off has sent is still only written
WRITTEN = "written"
TAKEN = marked("taken")
REFUSED = "refused"

# the subject of a receipt: an envelope or a letter, its number, and whether it says that the
# envelope was struck
About = tuple[str, int, bool]


class OutgoingLetter(NamedTuple):
    """A letter to an elector. One to be printed has no address and no Message-ID."""

    elector: int
    kind: str
    # the act that it belongs to: that of the call, of the close, of the publication, or the one
    # that wrote it
    for_act: int
    address: str
    message_id: str
    time: datetime.datetime
    about: tuple[About, ...]
    state: str = WRITTEN
    # what the server said when it refused the letter
    reply: str = ""
    # the act that wrote it last, and whether that was for a server
    act: int = 0
    by_server: bool = False

    @property
    def is_refused_for_good(self) -> bool:
        """Whether the server said that it never takes it, and not that it does not take it now."""
        return self.state == REFUSED and not self.reply.startswith("4")


# what the column `detail` has of a letter
DETAIL = "message_id address for_act time about by_server reply".split()

# the letters of a kind and to an elector, each as it was written last, with its last state; the
# rows of a letter have its Message-ID, and one to be printed is alone
LETTERS = """
WITH named AS (
  SELECT *, min(sent) OVER (PARTITION BY id) AS first FROM (
    SELECT *, coalesce(nullif(detail ->> 'message_id', ''), sent) AS id FROM sent
    WHERE kind = coalesce(?, kind) AND elector = coalesce(?, elector)
  )
), written AS (SELECT *, max(sent) FROM named WHERE state = 'written' GROUP BY id
), last AS (SELECT id, state, detail ->> 'reply' AS reply, max(sent) FROM named GROUP BY id)
SELECT elector, kind, detail ->> 'for_act', detail ->> 'address', detail ->> 'message_id', detail ->> 'time', detail ->> 'about',
  last.state, coalesce(reply, ''), act, detail ->> 'by_server' FROM written JOIN last USING (id) ORDER BY first
"""


def outgoing_letters(
    book: Book, kind: str | None = None, elector: int | None = None
) -> list[OutgoingLetter]:
    """The letters of a kind and to an elector, where these are given, in the order of writing."""
    return [
        OutgoingLetter._make(
            [*row[:5], from_text(row[5]), tuple(map(tuple, json.loads(row[6]))), *row[7:]]
        )
        for row in book.rows(LETTERS, kind, elector)
    ]


def note(act: NewAct, letters: Iterable[OutgoingLetter]) -> None:
    rows = ((letter.elector, letter.kind, letter.state, detail_of(letter)) for letter in letters)
    act.insert_all("sent", "elector, kind, state, detail", rows)


def detail_of(letter: OutgoingLetter) -> str:
    detail = {key: getattr(letter, key) for key in DETAIL} | {"time": letter.time.isoformat()}
    return json.dumps(detail, ensure_ascii=False)


# since which act letters to each elector have their own mark of now, and the page of now, as all
# have since ?1; and of each address of each elector what a server answered last to a letter, with
# its act, and whether the call went there since then, without the letters of one act. A letter that
# is only written went out on paper, or by a mail program unless it was for a server
MARKED = """
WITH marked AS MATERIALIZED (
  SELECT elector, max(min(act), ?1) AS since FROM elector_state AS state WHERE mark = (
    SELECT mark FROM elector_state AS last WHERE last.elector = state.elector ORDER BY act DESC LIMIT 1
  ) GROUP BY elector
)"""
# the letters with which mail servers sent letters of ours back, each with the act that kept its
# first copy: by a Message-ID of ours in it with the address, by an own mark of now without one; but
# for those from an address of their elector, and those after which a ballot of this elector came by
# letter, and is not struck. The order of the tables is that of the join
UNREACHED = f"""
{MARKED}, ours AS (
  SELECT elector, kind, act, state, since, detail ->> 'address' AS address, detail ->> 'for_act' AS for_act,
    detail ->> 'reply' AS reply, detail ->> 'by_server' AS by_server, max(sent) AS last,
    total(state = 'taken' AND act >= since) AS taken
  FROM sent JOIN marked USING (elector) WHERE act > ?2 GROUP BY elector, address, kind, for_act, detail ->> 'message_id'
), answered AS MATERIALIZED (
  SELECT elector, address, act, state, reply, total(kind = 'call' AND for_act <> ?3 AND (
    taken OR state = 'written' AND act >= since AND (address = '' OR NOT by_server)
  )) AS has_call, max(CASE WHEN state <> 'written' THEN last END) FROM ours GROUP BY elector, address
), back AS MATERIALIZED (
  SELECT min(act) AS act, min(coalesce(known ->> 'arrived', time)) AS came, known ->> 'sender' AS sender, value
  FROM letter JOIN act USING (act), json_each(known, '$.returned') GROUP BY identity, value
), found AS (
  SELECT back.act, came, sender, elector, detail ->> 'address' AS address FROM sent CROSS JOIN back
  ON value = substr(detail ->> 'message_id', 2, 32) WHERE sent.act > ?2 AND EXISTS (SELECT 1 FROM back)
  UNION SELECT act, came, sender, elector, NULL FROM back JOIN elector_now ON value = mark
), returned AS MATERIALIZED (
  SELECT elector, coalesce(address, address_in(mail)) AS address, max(found.act) AS act FROM found JOIN elector_now USING (elector)
  WHERE NOT EXISTS (
    SELECT 1 FROM entered WHERE elector = found.elector AND letter IS NOT NULL AND struck IS NULL
    AND (substr(time, 1, 19), entered.act) > (substr(came, 1, 19), found.act)
  )
  AND NOT EXISTS (SELECT 1 FROM json_each(mail) WHERE lower(trim(value)) = sender) GROUP BY 1, 2
), failed AS (
  SELECT elector, address, act, 'refused' AS why, coalesce(reply, '') AS said FROM answered WHERE state = 'refused'
  UNION ALL SELECT elector, address, act, 'came back', '' FROM returned
), now AS MATERIALIZED (SELECT elector, position, address_in(mail) AS address FROM elector_now WHERE position IS NOT NULL)
SELECT elector, coalesce(why, 'no letter'), coalesce(said, ''), coalesce(max(2 * failed.act + (why = 'refused')), 0) / 2
FROM now LEFT JOIN answered USING (elector, address) LEFT JOIN failed USING (elector, address)
WHERE why IS NOT NULL OR NOT coalesce(has_call, 0) GROUP BY elector ORDER BY position
"""


def unreached(book: Book, page: int, call: int, without: int) -> list[tuple[int, str, str, int]]:
    """The electors whom the call has not reached, why, what a server said, and since which act, 0
    if none has gone out.
    """
    return book.rows(UNREACHED, page, call, without)


def was_refused(book: Book) -> bool:
    return bool(book.value("SELECT EXISTS (SELECT 1 FROM sent WHERE state = 'refused')"))


def call_addresses(book: Book, call: int) -> dict[str, list[str]]:
    """The addresses to which letters of the call went, by the names of electors, but for those that
    a server refused and never took.
    """
    query = (
        "SELECT name, detail ->> 'address' AS address FROM sent JOIN elector USING (elector) "
        "WHERE kind = 'call' AND sent.act > ? AND address <> '' GROUP BY 1, 2 HAVING max(state "
        "= 'taken') OR NOT max(state = 'refused')"
    )
    return grouped(book.rows(query, call))


def right_since(book: Book, page: int) -> dict[int, int]:
    """The act since which letters have the own mark and the page of now, by elector."""
    return dict(book.rows(f"{MARKED} SELECT * FROM marked", page))


# a state of an elector, and the next one, which has other addresses, since the call and the last
# receipt
OLD_ADDRESSES = """
WITH receipt AS (SELECT elector, max(detail ->> 'for_act') AS act FROM sent WHERE kind = 'receipts' GROUP BY elector)
SELECT elector, address_in(before.mail) AS address FROM elector_state AS before JOIN elector_state AS after USING (elector)
LEFT JOIN receipt USING (elector)
WHERE after.act > max(?, coalesce(receipt.act, 0)) AND after.mail <> before.mail AND address <> '' AND before.act =
  (SELECT max(act) FROM elector_state AS earlier WHERE earlier.elector = after.elector AND earlier.act < after.act)
ORDER BY after.act
"""


def old_addresses(book: Book, call: int) -> dict[int, list[str]]:
    """The addresses of electors before a change after the call, if no receipt was written since."""
    return grouped(book.rows(OLD_ADDRESSES, call))


# to which electors a letter of a kind for an act is through, and by which act at last: a server
# took it, or never will, or it is on paper
THROUGH = """
SELECT elector, max(act) FROM sent WHERE kind = ?1 AND act > ?2 AND (
  state = 'taken' OR state = 'refused' AND detail ->> 'reply' NOT LIKE '4%' OR detail ->> 'address' = ''
) AND detail ->> 'for_act' = ?2 GROUP BY elector
"""


def through(book: Book, kind: str, for_act: int) -> dict[int, int]:
    return dict(book.rows(THROUGH, kind, for_act))


# since which act each elector whose entry changed after ?1 has the own mark of now
NEW_MARKS = """
SELECT elector, (
  SELECT min(act) FROM elector_state AS first WHERE first.elector = last.elector AND first.mark = last.mark
) FROM (SELECT elector, mark, max(act) FROM elector_state WHERE act > ? GROUP BY elector) AS last
"""


def new_marks(book: Book, call: int) -> dict[int, int]:
    return dict(book.rows(NEW_MARKS, call))


# what receipts have told, which a server took, or which went to an address that their elector still
# has: all have who did not change since the call, ?1
TOLD = """
SELECT elector, value ->> 0 AS what, value ->> 1 AS number, value ->> 2 FROM sent, json_each(detail, '$.about')
WHERE kind = 'receipts' AND (
  state = 'taken' OR elector NOT IN (SELECT elector FROM elector_state WHERE act > ?1) OR detail ->> 'address' IN (
    SELECT value FROM elector_now, json_each(mail) WHERE elector_now.elector = sent.elector UNION SELECT ''
  )
)
"""
# the electors on the list with envelopes after an act, ?2, of which no receipt tells as they are
# now. What came before the last receipt of an elector is told, unless they changed since the call
UNTOLD = f"""
WITH receipt AS (
  SELECT elector, max(detail ->> 'for_act') AS act FROM sent WHERE kind = 'receipts' AND state = 'written'
  AND elector NOT IN (SELECT elector FROM elector_state WHERE act > ?1) GROUP BY elector
), fresh AS MATERIALIZED (
  SELECT elector, envelope, struck FROM entered LEFT JOIN receipt USING (elector)
  WHERE max(entered.act, coalesce(struck, 0)) > max(?2, coalesce(receipt.act, 0))
)
SELECT DISTINCT elector FROM fresh JOIN elector_now USING (elector) WHERE position IS NOT NULL
AND (elector, 'envelope', envelope, struck IS NOT NULL) NOT IN ({TOLD} AND elector IN (SELECT elector FROM fresh))
"""


def untold(book: Book, call: int, after: int) -> set[int]:
    return {elector for elector, in book.rows(UNTOLD, call, after)}


def told_letters(book: Book, call: int) -> set[tuple[int, int]]:
    """The electors, with the letters of which receipts tell them."""
    query = f"SELECT elector, number FROM ({TOLD}) WHERE what = 'letter'"
    return set(book.rows(query, call))


# the letters of a kind since an act, ?2, but for those on paper, that no server took, and none
# refused for good
UNSENT = """
SELECT elector, detail ->> 'about' FROM (
  SELECT elector, act, state, detail, max(sent) FROM sent WHERE kind = ?1 AND elector IN (
    SELECT elector FROM sent WHERE kind = ?1 GROUP BY elector
    HAVING total(state = 'written') > total(state = 'taken') AND max(act) > ?2
  ) GROUP BY detail ->> 'message_id'
) WHERE act > ?2 AND detail ->> 'address' <> '' AND (state = 'written' OR state = 'refused' AND detail ->> 'reply' LIKE '4%')
"""


def unsent(book: Book, kind: str, after: int) -> list[tuple[int, list[About]]]:
    """The electors of these, and what each is about."""
    return [(elector, json.loads(about)) for elector, about in book.rows(UNSENT, kind, after)]
