"""The grammar by which each line of a letter is known.

    text      = greetings ballot farewells [signature] [quotation]
    signature = a line "-- " and all below it
    quotation = a head and lines that begin with ">", or a head of Outlook and all below it

with empty lines between. A head says who wrote when, as `On Mon, Nov 23, 2026 at 10:00 AM Vote
wrote:`. What is none of this its sender wrote, and somebody looks at it: a line with ">" below no
head, and a line below those with ">", too.
"""

import re
import unicodedata
from collections.abc import Collection, Sequence, Set
from typing import NamedTuple

# the line above a signature (RFC 3676, 4.3)
END = "-- "

# the head of a quotation: at its start a date with a time, perhaps behind a word, a day of the week
# and a month; and then, on the same line or on the next one, at most four words or an address, and
# before or behind them a word for "wrote". It has no word of its sender's choice: what stands in it
# nobody is shown
DATE = r"\d{1,4}[./-]\d{1,2}[./-]\d{2,4}|\b20\d\d\b"
CLOCK = r"\d{1,2} ?[:h] ?\d\d"
DAYS_AND_MONTHS = (
    "mon tue wed thu fri sat sun jan feb mar apr may jun jul aug sep oct nov dec mo di mi do so mär mai okt dez "
    "lun mer jeu ven sam dim fév avr juin juil août déc mié jue vie sáb dom ene abr ago dic "
    "gen mag giu lug set ott gio ma wo za zo mrt mei seg ter qua qui sex mån tis ons tor fre lör sön maj"
)
DAY = rf"(?:(?:{'|'.join(DAYS_AND_MONTHS.split())})[^\W\d_]{{0,8}}|\d{{1,2}}(?:st|nd|rd|th)?|de|dem|den|giorno)[.,]* *"
BEGIN = re.compile(
    rf"(?:(?:on|am|den|le|el|il|op|em|på|dne) (?:{DAY}){{0,6}})?(?:{DATE}),? *"
    rf"(?:(?:at|um|à|a las|alle(?: ore)?|om|kl\.?|às) *)?{CLOCK}(?::\d\d)?",
    re.IGNORECASE,
)
ZONE = (
    r"(?:\s|[ap]\.?m\.?\b|uhr\b|\(?(?:[a-z]{2,5})?[+-]\d{1,2}:?\d{0,2}\)?|(?-i:[A-Z]{2,5})\b)*,? *"
)
ADDRESS = r"[(<\[]{0,2}\s?[^\s<>@(),;?!]+@[^\s<>@(),;?!]+[)>\]]{0,2}"
WRITER = rf"(?:(?:[\w.'\u2019-]+ ?){{1,4}},? ?|(?:[^\s,;?!@<>]+ ?){{0,5}},? ?{ADDRESS},? ?)"
WRITES = "wrote|writes|écrit|escribió|geschrieben|scritto|escreveu"
GERMANIC = "schrieb|schreef|skrev"
WROTE = re.compile(
    rf"{ZONE}(?:{WRITER}?(?:(?:a|ha) )?(?:{WRITES}|{GERMANIC})|(?:{GERMANIC}) (?!.*,){WRITER})[ \u00a0\u202f]?:",
    re.IGNORECASE,
)
# in it
MOST_COMMAS = 1
# what other heads have
LIKE_HEAD = re.compile(rf"@|{CLOCK}|\b(?:{WRITES}|{GERMANIC})\b", re.IGNORECASE)
# in characters: a longer line is no head
LONGEST_LINE = 300

# the head of a letter as Outlook quotes it: its fields from the sender or, as GMX writes it, from
# the time to the subject, with a date and a time, in at most so many lines; or a line, below which
# they may stand
FROM, SUBJECT = (
    re.compile(rf"[\s*]*(?:{names})[\s*]*:", re.IGNORECASE)
    for names in ("from|von|de|sent|gesendet|envoyé|enviado", "subject|betreff|objet|asunto")
)
MOST_FIELDS = 8
FIELD = re.compile(r"[\s*]*[\w .-]{1,15}[\s*]*:|.*@")
ORIGINAL = re.compile(
    r"-{5,} *(?:original message|original[ -]?nachricht|ursprüngliche "
    r"(?:nachricht|mail)|weitergeleitete nachricht|forwarded message"
    r"|message d.origine|mensaje original) *-{5,}",
    re.IGNORECASE,
)

# whole lines above and below a ballot that say nothing, but for capitals, hyphens and the sign at
# their end; behind each may stand the elector's name
GREETINGS = (
    "hello|hi|hey|hello all|hi all|dear all|hello everyone|hello everybody|hi everyone|dear "
    "secretary|good morning|good afternoon|good evening|good day|dear sir or madam|"
    "hallo|hallo liebe wahlleitung|hallo zusammen|hallo alle|guten tag|guten morgen|guten "
    "abend|moin|moin moin|servus|grüezi|grüß gott|liebe alle|liebe wahlleitung|"
    "sehr geehrte wahlleitung|sehr geehrte damen und herren|bonjour|bonsoir|salut|bonjour à "
    "tous|bonjour à toutes|bonjour à toutes et à tous|"
    "madame, monsieur|mesdames, messieurs|hola|hola a todos|hola a todas|buenos días|buenas "
    "tardes|buenas noches|estimados señores|estimadas señoras"
)
FAREWELLS = (
    "best|take care|thanks a lot|thanks in advance|thank you very much|thank you in "
    "advance|best regards|best wishes|all the best|kind regards|warm regards|with kind "
    "regards|regards|greetings|many thanks|thanks|thank you|"
    "thanks and best wishes|many thanks and best wishes|yours|yours sincerely|yours faithfully|sincerely|cheers|bye|"
    "danke|danke schön|vielen dank|besten dank|herzlichen dank|gruß|grüße|viele grüße|liebe "
    "grüße|lieben gruß|beste grüße|besten gruß|schöne grüße|"
    "schönen gruß|herzliche grüße|herzlichen gruß|freundliche grüße|mit freundlichen grüßen|mit "
    "freundlichem gruß|mit besten grüßen|mit herzlichen grüßen|"
    "mit lieben grüßen|vielen dank und viele grüße|danke und viele grüße|danke und liebe "
    "grüße|mfg|lg|vg|bg|tschüss|bis bald|danke im voraus|vielen dank im voraus|"
    "cordialement|bien cordialement|bien à vous|amicalement|merci|merci beaucoup|merci "
    "d'avance|un grand merci|bises|cdlt|salutations|sincères salutations|meilleures "
    "salutations|à bientôt|"
    "gracias|mil gracias|gracias de antemano|muchas gracias|saludos|un saludo|saludos "
    "cordiales|un cordial saludo|atentamente|un abrazo|"
    "sent from my iphone|sent from my ipad|sent from my galaxy|sent from my phone|sent from my "
    "mobile|sent from my mobile phone|sent from my mobile device|"
    "sent from my android phone|sent from my samsung galaxy smartphone|sent from my android "
    "device with k 9 mail. please excuse my brevity|"
    "sent from outlook for ios|sent from outlook for android|get outlook for ios|get outlook "
    "for android|get outlook for ios<https://aka.ms/o0ukef>|get outlook for "
    "android<https://aka.ms/aab9ysg>|sent with proton mail secure email|sent from mail for "
    "windows|sent from yahoo mail on android|"
    "von meinem iphone gesendet|von meinem ipad gesendet|von meinem handy gesendet|von meinem "
    "galaxy gesendet|von meinem/meiner galaxy gesendet|"
    "von meinem samsung galaxy smartphone gesendet|von meinem smartphone gesendet|von meinem "
    "mobiltelefon gesendet|gesendet von mail für windows|gesendet von outlook für ios|"
    "gesendet von outlook für android|outlook für ios beziehen|outlook für android "
    "beziehen|holen sie sich outlook für ios<https://aka.ms/o0ukef>|holen sie sich outlook für "
    "android<https://aka.ms/aab9ysg>|gesendet mit proton mail e mail verschlüsselung|gesendet "
    "mit der gmx mail app|gesendet mit der web.de mail app|"
    "gesendet mit der telekom mail app|gesendet von meinem android mobiltelefon mit gmx "
    "mail|diese nachricht wurde von meinem android gerät mit k 9 mail gesendet|"
    "diese nachricht wurde von meinem android mobiltelefon mit gmx mail gesendet|diese "
    "nachricht wurde von meinem android mobiltelefon mit web.de mail gesendet|"
    "envoyé de mon iphone|envoyé de mon ipad|envoyé depuis mon téléphone|envoyé de mon appareil "
    "android|envoyé depuis mon appareil galaxy|"
    "enviado desde mi iphone|enviado desde mi ipad|enviado desde mi móvil|enviado desde mi "
    "dispositivo android|enviado desde mi galaxy"
)
# in characters: a longer line is none of these
LONGEST_USUAL = 120
# in words: a name behind one
MOST_OF_NAME = 4
# what is compared as alike
ALIKE = str.maketrans("-\u2019", " '")


class Parts(NamedTuple):
    """The indices of the lines of a letter, by what they are. What its sender wrote is in the first
    three.
    """

    own: list[int]
    signature: list[int]
    below: list[int]
    quoted: list[int]


def parted(lines: Sequence[str]) -> Parts:
    parts = Parts([], [], [], [])
    # of these the next line is one, if no quotation begins
    current = parts.own
    head: Sequence[int] = ()
    for index, line in enumerate(lines):
        if not head and is_first_marked(lines, index):
            head = head_of_marked(lines, index)
            while head and current and current[-1] >= head[0]:
                current.pop()
        if not head and (fields := end_of_outlook(lines, index)):
            while current and not lines[current[-1]].strip(" _"):
                current.pop()
            parts.quoted.extend(range(fields, len(lines)))
            break
        if index in head:
            continue
        if head:
            (parts.quoted if is_marked(line) else parts.below).append(index)
        elif line == END and current is parts.own:
            current = parts.signature
        else:
            current.append(index)
    return parts


def is_marked(line: str) -> bool:
    return line.startswith(">")


def may_begin_quotation(line: str) -> bool:
    """Whether a line is quoted, or may be a head that is not in these lists."""
    return is_marked(line) or LIKE_HEAD.search(line) is not None or bool(ORIGINAL.search(line))


def is_first_marked(lines: Sequence[str], index: int) -> bool:
    return is_marked(lines[index]) and not (index and is_marked(lines[index - 1]))


def head_of_marked(lines: Sequence[str], marked: int) -> Sequence[int]:
    """The head of the quotation whose first marked line this is: one line or two above it, but for
    empty ones; or in it, as programs of Apple write it, and others that of Outlook. Empty if it has
    none.
    """
    above = marked - 1
    while above > 0 and not lines[above].strip():
        above -= 1
    for places in ((above,), (above - 1, above), (marked,), (marked, marked + 1)):
        if 0 <= places[0] and places[-1] < len(lines):
            line, *others = (lines[place].strip("> \t\u00a0\u202f") for place in places)
            head = " ".join((line, *others))
            begin = BEGIN.match(line) if len(head) <= LONGEST_LINE else None
            rest = head[begin.end() :] if begin else ""
            if rest.count(",") <= MOST_COMMAS and WROTE.fullmatch(rest):
                return places
    first = [line.strip("> ") for line in lines[marked : marked + MOST_FIELDS + 1]]
    return range(marked, marked + end_of_outlook(first, 0))


def end_of_outlook(lines: Sequence[str], begin: int) -> int:
    """Where a head of Outlook ends that begins here; 0 if none does."""
    is_line = ORIGINAL.fullmatch(lines[begin].strip()) is not None
    first = begin + is_line
    if first < len(lines) and FROM.match(lines[first]):
        fields = lines[first : first + MOST_FIELDS]
        last = next((at for at, line in enumerate(fields) if SUBJECT.match(line)), 0)
        head = " ".join(fields[:last])
        are_fields = all(map(FIELD.match, fields[:last]))
        if are_fields and re.search(DATE, head) and re.search(CLOCK, head):
            return first + last + 1
    return first if is_line else 0


# ---- lines that say nothing
def bare(text: str) -> str:
    """A line without capitals, hyphens and the sign at its end; nothing of one that is too long to
    be usual.
    """
    if len(text) > LONGEST_USUAL:
        return ""
    words = unicodedata.normalize("NFC", text).translate(ALIKE).casefold().split()
    line = " ".join(words).removeprefix("¡")
    return line[:-1].rstrip() if line[-1:] in (",", ".", "!") else line


USUAL_ABOVE, USUAL_BELOW = (
    frozenset(map(bare, lines.split("|"))) for lines in (GREETINGS, FAREWELLS)
)


def behind_usual(line: str, usual: Set[str]) -> str | None:
    """What stands behind a usual line, as a name or nothing; None if it is none."""
    words = bare(line).split()
    for count in range(len(words), max(0, len(words) - MOST_OF_NAME - 1), -1):
        if bare(" ".join(words[:count])) in usual:
            return " ".join(words[count:])
    return None


def is_greeting(line: str, names: Collection[str]) -> bool:
    """Whether a line greets, perhaps with one of these names of the elector."""
    return behind_usual(line, USUAL_ABOVE) in ("", *names)


def is_farewell(line: str, names: Collection[str]) -> bool:
    """Whether a line takes leave, is one of these names, or is what a telephone adds."""
    return behind_usual(line, USUAL_BELOW) in ("", *names) or bare(line) in names
