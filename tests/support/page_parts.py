"""Reads a page, and each part of it beside what tests/reference.py counts.

The page is read as a browser reads it: a text that was not escaped is no text here. What a part
must say is written down anew, by the count of the reference, in English, and said in the language
of the page; nothing of debvote_tools is used but its translations.
"""

import collections
import decimal
import functools
import html
import html.parser
import re
import tomllib

from tests import reference
from tests.support.translations import Spoken

EMPTY_TAGS = {"meta", "br", "hr", "input", "rect", "path"}
# of scripts a page has its own alone
UNWANTED_TAGS = {
    "link",
    "iframe",
    "img",
    "object",
    "embed",
    "form",
    "base",
    "audio",
    "video",
    "image",
    "use",
}
UNWANTED_ATTRIBUTES = {"src", "style", "xlink:href"}


# what is said of an option, of a motion, and in the letter and on the page of all questions of what
# decides it, by its kind
SENTENCES = {
    "missed the quorum": "It needs {needed} to reach the quorum.",
    "missed its majority": "It needs more for it than against it: {needed}.",
    "missed a ratio": "It needs {ratio} times as many for it as against it: {needed}.",
    "missed more than a ratio": "It needs more than {ratio} times as many for it as against it: {needed}.",
    "a motion missed the quorum": "At least {needed} had to say yes.",
    "a motion missed its majority": "More had to say yes than no.",
    "a motion missed a ratio": "{ratio} times as many had to say yes as no: {needed}.",
    "a motion missed more than a ratio": "More than {ratio} times as many had to say yes as no: {needed}.",
    "its own defeat removed": "It beats {other} by {over} to {under}, but this defeat was set aside in round {round} as the weakest.",
    "equal with the winner": "It and {option} are equal, {over} to {under}.",
    "dropped, and preferred to the winner": "More electors prefer it to {other}, {over} to {under}.",
    "loses directly": "{option} beats it by {over} to {under}.",
    "loses by a chain": "{option} beats {other} by {over} to {under}.",
    "left in a tie": "{option} against {other}: {over} to {under}.",
    "left with a removed defeat": "{option} against {other}: {over} to {under}, a defeat that was set aside in round {round}.",
    "left with many": "It is left with {number} other options, and no defeat among them is left.",
    "lost by the casting vote": "The casting vote chose {option}.",
    "a tie": "No option has won yet: {options} are tied. The casting vote has to choose one of them.",
    "a tie by defeats that were removed": "The defeats among them were set aside as the weakest.",
    "a tie without defeats": "None of them beats another.",
    "a winner": "Winner: {option}",
    "the casting vote": "Winner: {option} by casting vote",
    "the casting vote among many": "These options were left: {options}.",
    "an option failed": "{option}: {votes}.",
    "many failed": "The {number} other options lacked more.",
    "a circle": "Options beat each other in a circle, so the weakest defeat was set aside: {defeat}.",
    "circles": "Options beat each other in circles, so {number} weakest defeats were set aside, the last of them {defeat}.",
    "beats after circles": "Then it beats {options}, and nothing beats it.",
    "beats by chains": "It beats {options}, and each other one by a chain of defeats.",
    "beats one": "It beats {options}.",
    "beats each of two": "It beats each option that was not dropped: {options}.",
    "beats each of many": "It beats each option that was not dropped, most narrowly {option}.",
    "on the page of all questions": "{over} to {under} against {other}",
}

# how each question may end, in capitals
ENDED = {
    "tie": "No option has won yet",
    "casting": "Has won by the casting vote",
    "rejected": "Not carried",
    "carried": "Carried",
}
ENDED |= {"default": "The default option has won", "won": "Has won"}


# the answers to a motion: yes, no and abstain
ANSWERS = {
    "en": ("Yes", "No", "Abstain"),
    "de": ("Ja", "Nein", "Enthaltung"),
    "fr": ("Oui", "Non", "Abstention"),
    "es": ("Sí", "No", "Abstención"),
}

ENGLISH = Spoken("en")
EQUAL = "{equal}\u00a0equal"


class Wrong(Exception):
    """A part that does not hold."""


def demand(holds, why):
    if not holds:
        raise Wrong(why)


def demand_equal(what, found, wanted):
    demand(found == wanted, f"{what}: {str(found)[:600]} in place of {str(wanted)[:600]}")


def in_one_line(text):
    return " ".join(text.split())


def escaped(text):
    return html.escape(text).replace("&quot;", "&#34;").replace("&#x27;", "&#39;")


class Node:
    """An element with its attributes and what stands in it."""

    def __init__(self, tag, attributes):
        self.tag, self.attributes, self.inner = tag, dict(attributes), []

    def text(self):
        return "".join(part if isinstance(part, str) else part.text() for part in self.inner)

    def within(self):
        """All elements within, in the order of their first tags."""
        for part in self.inner:
            if isinstance(part, Node):
                yield part
                yield from part.within()

    def all(self, tag, kind=None):
        """All elements of a tag within, and of a class if one is given."""
        return (
            node
            for node in self.within()
            if node.tag == tag
            and (kind is None or kind in node.attributes.get("class", "").split())
        )

    def one(self, tag, kind=None):
        found = list(self.all(tag, kind))
        demand_equal(f"how many {tag} {kind or ''}", len(found), 1)
        return found[0]


class Builder(html.parser.HTMLParser):
    def __init__(self):
        super().__init__()
        self.root = Node("page", [])
        self.open = [self.root]
        self.faults = []

    def handle_starttag(self, tag, attributes):
        node = Node(tag, attributes)
        self.open[-1].inner.append(node)
        if tag not in EMPTY_TAGS:
            self.open.append(node)

    def handle_endtag(self, tag):
        if tag not in EMPTY_TAGS:
            self.faults += [] if self.open[-1].tag == tag else [f"/{tag}"]
            del self.open[max(1, len(self.open) - 1) :]

    def handle_data(self, data):
        # where lines may break is seen in a browser
        self.open[-1].inner.append(data.replace("\u00a0", " "))


def tree_of(page):
    return built(page).root


@functools.lru_cache(2)
def built(page):
    builder = Builder()
    builder.feed(page)
    builder.close()
    return builder


def sections_of(page):
    """The parts of a page by the places of their headings."""
    return {
        section.attributes["aria-labelledby"]: section for section in tree_of(page).all("section")
    }


def doubts_of(page):
    """The doubts that the page marks, as a reader reads them."""
    return [
        entry.text().removeprefix("Doubt: ")
        for box in list(tree_of(page).all("div", "doubts"))
        for entry in box.all("li")
    ]


def try_page(expect, name, folder):
    """All tags are closed; nothing is loaded, and nothing runs but the script of the page; each
    link leads to a file of the folder or a place of the page; each ballot has its place, and no
    elector has the place of another thing.
    """
    read = built((folder / "index.html").read_text())
    nodes = list(read.root.within())
    is_active = {
        node.tag
        for node in nodes
        for key in node.attributes
        if key.startswith("on") or key in UNWANTED_ATTRIBUTES
    }
    unwanted = is_active | ({node.tag for node in nodes} & UNWANTED_TAGS)
    faults = read.faults + [node.tag for node in read.open[1:]]
    expect(
        f"{name}: its tags",
        (faults, unwanted, sum(node.tag == "script" for node in nodes)),
        ([], set(), 1),
    )
    ids = [node.attributes["id"] for node in nodes if "id" in node.attributes]
    roll = tomllib.loads((folder / "poll.toml").read_text())["roll"]
    expect(
        f"{name}: its places",
        (len(set(ids)), [place for place in set(ids) - set(roll) if place == place.lower()]),
        (len(ids), []),
    )
    expect(
        f"{name}: a place for each ballot",
        {line.split()[0] for line in (folder / "standing.txt").read_text().splitlines()} - set(ids),
        set(),
    )
    places = {f"#{place}" for place in ids} | {file.name for file in folder.iterdir()}
    expect(
        f"{name}: its links",
        {node.attributes["href"] for node in nodes if "href" in node.attributes} - places,
        set(),
    )


class Reasons:
    """Why options have won and lost, by the count of the reference."""

    def __init__(self, count):
        self.count, self.poll, self.votes = count, count.poll, count.votes
        self.default, self.winner, self.final = count.poll.default, count.winner, count.final
        self.voters = len(count.last)
        self.removed = [pair for _, pairs in count.rounds for pair in sorted(pairs)]
        # those that were not dropped
        self.kept = [option for option in self.poll.options if option not in count.dropped]

    def nearest(self):
        """The options that were dropped, by what they lacked for quorum and majority."""
        count = self.count
        return sorted(
            (max(least_of(count), majority_of(count, o)) - self.votes[o, self.default], o)
            for o in count.dropped
        )

    def chain(self, option):
        """The shortest chain of defeats that were there when an option left the set: to the winner
        if one is, or else to the least number.
        """
        gone = [removed for kept, removed in self.count.rounds if option in kept]
        defeats = sorted(self.count.defeats.difference(*gone))
        within = {*self.count.rounds[len(gone)][0]}
        chains, last = {option: []}, [option]
        while not within & chains.keys():
            step = {}
            for loser in last:
                for a, b in defeats:
                    if b == loser and a not in chains.keys() | step.keys():
                        step[a] = [*chains[loser], (a, b)]
            chains, last = chains | step, sorted(step)
        return chains[self.winner if self.winner in chains else min(within & chains.keys())]

    def beaten(self):
        """The options that the winner beats by defeats that hold, the nearest first."""
        return sorted(
            (self.votes[pair] - self.votes[pair[::-1]], pair[1])
            for pair in self.count.defeats - {*self.removed}
            if pair[0] == self.winner
        )


class Parts(Reasons):
    """The parts of a page beside the count of the reference, in a language. A page of several
    questions has a label.
    """

    def __init__(self, page, letter, count, names, spoken=ENGLISH, *, label="", is_motion=False):
        """`names` are those that people read of title (0) and options, where they differ from the
        plain ones.
        """
        super().__init__(count)
        self.page, self.letter, self.names = tree_of(page), f" {in_one_line(letter)} ", names
        self.spoken, self.label, self.is_motion = spoken, label, is_motion
        self.say, self.say_number = spoken.say, spoken.say_number
        self.sections = sections_of(page)
        # the kinds of sentences that were met
        self.met = collections.Counter()

    def plain(self, option):
        """The name of an option without its number."""
        return self.names.get(option, self.poll.names[option])

    @property
    def title(self):
        return self.names.get(0, self.poll.title)

    def name(self, option):
        return self.spoken.numbered.format(number=option, name=self.plain(option))

    def all_names(self, options):
        return self.spoken.joined(map(self.name, options))

    def entries(self, heading, kind="ul"):
        """The entries of the lists of a part."""
        return [entry for found in self.sections[heading].all(kind) for entry in found.all("li")]

    def check(self):
        """Meets all parts with the count. Raises Wrong, or returns the kinds of sentences that the
        page has.
        """
        parts = "headings named facts panel lines rule others options table defeats rounds ballots who_voted"
        for part in parts.split():
            getattr(self, part)()
        self.spoken = self.spoken.in_letters()
        self.in_letter()
        return self.met

    def told(self, kind, pair=None, **places):
        """A sentence of a kind, in which a pair of options may have its names, numbers and
        round.
        """
        self.met[kind] += 1
        if pair is not None:
            removed = [
                number
                for number, (_, gone) in enumerate(self.count.rounds, start=1)
                if {pair, pair[::-1]} & gone
            ]
            places |= self.pair(*pair) | {"round": sum(removed)}
        return self.say(SENTENCES[kind], **places)

    def pair(self, a, b):
        """The places of a sentence on two options."""
        names = {"option": self.name(a), "other": self.name(b)}
        return names | {"over": self.votes[a, b], "under": self.votes[b, a]}

    def headings(self):
        """Each part has a heading with its place, and a part of a group is one deeper than the
        group.
        """
        for place, section in self.sections.items():
            heads = [head.attributes.get("id") for tag in ("h2", "h3") for head in section.all(tag)]
            demand_equal(f"the heading of {place}", heads, [place])
        demand_equal("the title", self.page.one("h1").text(), self.title)
        tags = [node.tag for node in self.page.within()]
        levels = [0, *(int(tag[1]) for tag in tags if re.fullmatch("h[1-6]", tag))]
        steps = [after - before for before, after in zip(levels, levels[1:])]
        demand_equal(
            "the first heading, and those that skip a level", (steps[0], max(steps)), (1, 1)
        )

    def named(self):
        """Each name of an option beside its number is that of this option."""
        for node in self.page.within():
            for number, name in zip(node.inner, node.inner[2:]):
                if isinstance(number, Node) and number.tag == "i":
                    wanted = "bdi", self.plain(int(number.text()))
                    demand_equal("a named option", (name.tag, name.text()), wanted)

    def facts(self):
        """The numbers below the winner."""
        found = [entry.text() for entry in self.page.one("ul", "facts").all("li")]
        demand_equal("the facts", found, list(self.numbers()))

    def numbers(self):
        """The numbers of a result; what is none is not told."""
        quorum, lines = least_of(self.count), len(self.count.lines)
        refused, electors = lines - self.count.valid, len(self.poll.roll)
        of_voters = "{voters} of {electors} voted"
        yield self.say_number(
            of_voters, of_voters, self.voters, voters=self.voters, electors=electors
        )
        if self.poll.quorum:
            over = max(self.votes[option, self.default] for option in self.poll.ratios)
            said = "quorum {quorum} reached" if over >= quorum else "quorum {quorum} not reached"
            yield self.say(said, quorum=quorum)
        if refused:
            of_lines = "{refused} of {lines} line refused", "{refused} of {lines} lines refused"
            yield self.say_number(*of_lines, lines, refused=refused, lines=lines)
        if self.is_motion and (abstained := self.voters - self.votes[1, 2] - self.votes[2, 1]):
            yield self.say("{number} abstained", number=abstained)

    def lines(self):
        valid, lines = self.count.valid, len(self.count.lines)
        one = "{number} line is in the ballot file: {valid} valid, {refused} refused."
        many = "{number} lines are in the ballot file: {valid} valid, {refused} refused."
        wanted = [self.say_number(one, many, lines, valid=valid, refused=lines - valid)]
        if valid != self.voters:
            more = "{valid} valid lines: electors who voted again account for the difference, and the last valid line of each counts."
            one, many = (f"{{number}} {said} {more}" for said in ("voter has", "voters have"))
            wanted.append(self.say_number(one, many, self.voters, valid=valid))
        if self.poll.last_envelope is not None:
            said = "The last envelope is {number}: a line with a greater number is late, and is refused."
            wanted.append(self.say(said, number=self.poll.last_envelope))
        found = next(self.sections["Refused-lines"].all("p")).text()
        demand_equal("the lines", in_one_line(found), " ".join(wanted))

    def rule(self):
        poll, said = self.poll, self.sections["Options"].text()
        sentences = {
            "At least the ratio times as many electors must prefer it as prefer the default option, and in any case more.": not poll.is_more_than,
            "More than the ratio times as many electors must prefer it as prefer the default option.": poll.is_more_than,
            "more than the ratio, where the Constitution of Debian has at least the ratio": poll.is_more_than,
            "No quorum is asked for.": not poll.quorum,
        }
        for sentence, is_told in sentences.items():
            demand_equal(sentence, self.say(sentence) in said, is_told)
        of = ": at least {multiple}Q, where Q is half of the square root of the number of electors."
        one, many = f"The quorum is {{number}} vote{of}", f"The quorum is {{number}} votes{of}"
        quorum = self.say_number(one, many, least_of(self.count), multiple=poll.quorum)
        demand_equal("the quorum", quorum in said, poll.quorum > 0)

    def others(self):
        """Below the panel, each whose fate the panel does not say, as the rounds leave them, and
        last those that were dropped: of each the name, the chip, and what became of it; of one that
        was dropped a bar with its numbers, too.
        """
        count, options = self.count, self.poll.options
        told = {self.winner}
        if self.winner == self.default:
            told |= {option for _, option in few(self.nearest())}
        elif self.winner is None and len(self.final) == 2:
            told |= {*self.final}
        # in how many rounds each is
        rounds = collections.Counter(option for kept, _ in count.rounds for option in kept)
        order = sorted(
            options, key=lambda option: (option in count.dropped, -rounds[option], option)
        )
        order = [option for option in order if option not in told and len(options) > 2]
        heading = "Why-not-the-others"
        demand_equal("whether others are told", heading in self.sections, order != [])
        if not order:
            return
        seen = [len(list(part.all("li"))) for part in self.sections[heading].all("ol", "options")]
        wanted = [len(order)] if len(order) <= 8 else [5, len(order) - 5]
        demand_equal("how many options are seen, and folded", seen, wanted)
        chips = {"quorum": "no quorum", "majority": "no majority", "left": "tied"}
        for option, entry in zip(order, self.entries(heading, "ol")):
            head = [one.text() for one in entry.one("p", "option").inner if isinstance(one, Node)]
            chip = self.say(chips.get(count.ended(option), "lost"))
            demand_equal(f"the head of {option}", head, [self.name(option), chip])
            reasons, bars = [" ".join(self.fate(option))], []
            if option in count.dropped:
                said = self.say(
                    "{over} for it, {under} for {other}.", **self.pair(option, self.default)
                )
                reasons = [f"{said} {self.lack(option)}"]
                bars = [self.bar(option, self.default, needed_by(count, option))]
                beside = option, self.winner
                if self.winner not in (None, self.default) and self.is_over(*beside):
                    reasons.append(self.told("dropped, and preferred to the winner", beside))
            found = [part.text() for part in entry.all("p", "reason")]
            found = found, list(map(bar_of, entry.all("svg", "bar")))
            demand_equal(f"what became of {option}", found, (reasons, bars))

    def is_over(self, a, b):
        """Whether more prefer the first option than the second."""
        return self.votes[a, b] > self.votes[b, a]

    def bar(self, a, b, needed=0):
        """A bar, all of which have one scale: it ends at the voters, and what is needed beyond them
        is dashed, up to as much again.
        """
        voters, over, under = self.voters, self.votes[a, b], self.votes[b, a]
        most = max((needed_by(self.count, o) for o in self.count.dropped), default=0)
        whole = max(voters, min(most, 2 * voters), 1)
        is_right = over + under <= voters <= whole
        demand(is_right, f"the bar of {a} and {b} is longer than its numbers say")
        dashed = [(voters, min(needed, whole) - voters)] if needed > voters else []
        marks = [needed] if 0 < needed <= whole else []
        return (whole, voters), over, (voters - under, under), dashed, marks

    def lack(self, option):
        """What an option lacks that was dropped."""
        ratio = self.poll.ratios[option]
        kind = "missed more than a ratio" if self.poll.is_more_than else "missed a ratio"
        if self.count.dropped[option] == "quorum":
            kind = "missed the quorum"
        elif ratio == 1:
            kind = "missed its majority"
        kind = f"a motion {kind}" if self.is_motion else kind
        return self.told(kind, needed=needed_by(self.count, option), ratio=ratio)

    def for_and_against(self, option):
        said = "{over} yes, {under} no" if self.is_motion else "{over} for, {under} against"
        return self.say(said, **self.pair(option, self.default))

    def fate(self, option):
        """What became of an option that was not dropped and has not won, a sentence each."""
        if option in self.count.dropped:
            return
        if option not in self.final:
            beside = self.winner, option
            if self.winner and self.votes[beside] == self.votes[beside[::-1]]:
                yield self.told("equal with the winner", beside)
            for pair in self.removed:
                if pair[0] == option:
                    yield self.told("its own defeat removed", pair)
            first, *more = self.chain(option)
            yield self.told("loses directly", first)
            yield from (self.told("loses by a chain", pair) for pair in more)
            return
        others = [other for other in self.final if other != option]
        if len(others) < 3:
            yield from (self.against(option, other) for other in others)
        else:
            yield self.told("left with many", number=len(others))
        if self.winner not in (None, option):
            yield self.told("lost by the casting vote", option=self.name(self.winner))

    def against(self, *pair):
        is_removed = {pair, pair[::-1]} & {*self.removed}
        return self.told("left with a removed defeat" if is_removed else "left in a tie", pair)

    def how_it_ended(self):
        is_default = self.winner == self.default
        kind = "default" if is_default else "won"
        if self.winner is None:
            kind = "tie"
        elif self.final[1:]:
            kind = "casting"
        elif self.is_motion:
            kind = "rejected" if is_default else "carried"
        return self.say(ENDED[kind])

    def panel(self):
        """How it ended, the name of the winner, and the winner against each rival: no bar but that
        of a defeat that was set aside has fewer for the winner than against it.
        """
        section = self.sections["Result"]
        head, texts = section.one("h2"), [part.text() for part in section.all("p")]
        demand_equal("how it ended", texts.pop(0), self.how_it_ended())
        found = head.text(), [node.tag for node in head.within()]
        if self.winner is None:
            said = self.say("The casting vote has to choose one of them.")
            wanted = [self.all_names(self.final), f"{said} {self.tied()}"]
            demand_equal("a tie", (*found, texts), (self.say("A tie"), [], wanted))
            return
        name = self.plain(self.winner)
        demand_equal("the head of the result", found, (name, ["b", "bdi"]))
        is_grey = "default" in section.attributes["class"].split()
        found = head.attributes.get("class"), is_grey
        wanted = "long" if len(name) > 60 else None, self.winner == self.default
        demand_equal("whether it is long, and grey", found, wanted)
        if self.final[1:]:
            said = "Those who publish this page do not say whose casting vote it was, or when it was given."
            demand_equal("a casting vote", texts, [self.left(), self.say(said)])
            return
        rows = [self.shown(entry) for entry in section.one("ul", "duels").all("li")]
        rivals = self.rivals
        if self.winner == self.default:
            rivals = self.failed
        elif self.is_motion:
            rivals = self.carried
        demand_equal("the rivals", rows, list(rivals()))

    def tied(self):
        """Why there is a tie: two have their numbers."""
        if not self.final[2:]:
            return self.against(*self.final)
        among = [pair for pair in self.removed if {*pair} <= {*self.final}]
        return self.told("a tie by defeats that were removed" if among else "a tie without defeats")

    def left(self):
        """Among which the casting vote chose."""
        if not self.final[2:]:
            return self.against(*self.final)
        return self.told("the casting vote among many", options=self.all_names(self.final))

    def shown(self, entry):
        """A row of the panel: its texts, its bar, and whether it is one of a defeat that holds."""
        heads = [part for head in entry.all("p", "duel") for part in head.inner]
        texts = [part.text() for part in heads if isinstance(part, Node)] or [entry.text()]
        texts += [part.text() for part in entry.all("p", "reason")]
        return texts, *map(bar_of, entry.all("svg", "bar")), entry.attributes.get("class")

    def failed(self):
        """The options that the default option has outlived, the nearest first."""
        rows = self.nearest()
        for _, option in few(rows):
            texts = [self.name(option), self.for_and_against(option), self.lack(option)]
            yield texts, self.bar(option, self.default, needed_by(self.count, option)), None
        yield from self.more(rows)

    def carried(self):
        """A motion that was carried, whose name stands above."""
        yield ["", self.for_and_against(1)], self.bar(1, 2, needed_by(self.count, 1)), "won"

    def rivals(self):
        """Those whom the winner beats, the nearest first; defeats that were set aside; and those
        whom it beats by chains.
        """
        winner, beaten = self.winner, self.beaten()
        aside = [a if b == winner else b for a, b in self.removed if winner in (a, b)]

        def row(rival, *more, kind=None):
            pair = self.pair(winner, rival)
            over, equal = pair["over"], self.voters - pair["over"] - pair["under"]
            demand(not kind or over > pair["under"], f"the bar of {rival} contradicts the result")
            said = self.say("{over} to {under}", **pair)
            if equal:
                said += f" {self.say(EQUAL, equal=equal)}"
            # by its name alone: a number there would be read as one of votes
            against = self.say("against {option}", option=self.plain(rival))
            return [against, said, *more], self.bar(winner, rival), kind

        yield from (row(rival, kind="won") for _, rival in few(beaten))
        yield from self.more(beaten)
        why = self.say("set aside: the weakest defeat in a circle of options that beat each other")
        yield from (row(rival, why) for rival in few(aside))
        yield from self.more(aside)
        rest = {*self.kept} - {winner, *aside, *(rival for _, rival in beaten)}
        if rest:
            one = "and {number} other option by a chain of defeats"
            many = "and {number} other options by chains of defeats"
            yield [self.say_number(one, many, len(rest))], None

    def more(self, rows):
        """The row of the panel for those that have none of their own."""
        if len(rows) > 3:
            yield [self.say("and {number} other options", number=len(rows) - 2)], None

    def in_letter(self):
        """In the letter, below the head of a question of several: how it ended, what decides it,
        and the numbers of the result.
        """
        if self.winner is None:
            wanted = f"{self.told('a tie', options=self.all_names(self.final))} {self.tied()}"
        else:
            kind, decides = "a winner", self.deciding()
            if self.final[1:]:
                kind, decides = "the casting vote", [self.left()]
            won = self.told(kind, option=self.name(self.winner))
            wanted = " ".join([f"{won}.", *decides])
        if self.label:
            question = "Question {label}: {title}"
            wanted = f"{self.say(question, label=self.label, title=self.title)} {wanted}"
        for said in (wanted, f"{', '.join(self.numbers())}."):
            is_there = f" {in_one_line(said)} " in self.letter
            demand(is_there, f"in the letter: {said} is not in {self.letter[:900]}")

    def deciding(self):
        """The sentences on what decides it where one option is left."""
        if self.winner == self.default:
            demand_equal("all others were dropped", self.kept, [self.default])
            nearest = self.nearest()
            shown = nearest if len(nearest) < 4 else nearest[:1]
            yield from (self.failure(option) for _, option in shown)
            if len(nearest) > 3:
                yield self.told("many failed", number=len(nearest) - 1)
        elif self.is_motion:
            yield f"{self.for_and_against(1)}."
        else:
            yield from self.whom_it_beats()

    def failure(self, option):
        """What an option had that was dropped, and what it lacks."""
        said = votes = f"{self.for_and_against(option)}."
        if not self.is_motion:
            said = self.told("an option failed", option=self.name(option), votes=votes[:-1])
        return f"{said} {self.lack(option)}"

    def whom_it_beats(self):
        winner, removed, rows = self.winner, self.removed, self.beaten()
        others = {*self.kept} - {winner}
        holding = self.count.defeats - {*removed}
        demand(winner not in [b for _, b in holding], "nothing beats the winner")
        by = [self.say("{other} by {over} to {under}", **self.pair(winner, b)) for _, b in rows]
        said = self.spoken.joined(by)
        if len(by) > 2:
            said = self.say(
                "{number} options, most narrowly {option}", number=len(by), option=by[0]
            )
        if removed:
            kind, last = "circles" if removed[1:] else "a circle", self.defeat(removed[-1])
            yield self.told(kind, number=len(removed), defeat=last)
            yield self.told("beats after circles", options=said)
            return
        if len(by) < len(others):
            chains = reference.transitive_defeats(self.kept, self.count.defeats)
            beaten = {b for a, b in chains if a == winner}
            demand(beaten >= others, "the winner beats all by chains")
            yield self.told("beats by chains", options=said)
            return
        kind = {1: "beats one", 2: "beats each of two"}.get(len(others), "beats each of many")
        yield self.told(kind, options=said, option=by[0])

    def above(self, front):
        """On the page of all questions: label, title, how it ended, the name, and the numbers by
        which; a tie is framed.
        """
        # it has no list of options, so none has a number there
        self.spoken = Spoken(self.spoken.code, "{name}")
        section = sections_of(front)[f"Question-{self.label}"]
        kinds = {None: ["tie"], self.default: ["default"]}.get(self.winner, [])
        found = section.attributes["class"].split()[1:], section.one("h2").text()
        demand_equal("kind and title of a question", found, (kinds, f"{self.label} {self.title}"))
        name = self.all_names(self.final) if self.winner is None else self.plain(self.winner)
        wanted = [self.how_it_ended(), name, self.by_which_numbers()]
        texts = [section.one("p", part).text() for part in ("ended", "won", "votes")]
        demand_equal("how it ended", [*map(in_one_line, texts)], [*map(in_one_line, wanted)])
        return self.met

    def by_which_numbers(self):
        if self.final[1:]:
            return self.tied() if self.winner is None else self.left()
        if self.winner == self.default:
            return self.failure(self.nearest()[0][1])
        if self.is_motion:
            return f"{self.for_and_against(1)}."
        return self.told("on the page of all questions", (self.winner, self.beaten()[0][1]))

    def defeat(self, pair):
        return self.say("{option} over {other} by {over} to {under}", **self.pair(*pair))

    def options(self):
        wanted = []
        for o, plain in self.poll.names.items():
            said = self.say("the default option")
            if o != self.default:
                said = self.say("majority ratio {ratio}", ratio=self.poll.ratios[o])
            said = f"{self.name(o)}, {said}"
            if o in self.names:
                said += f" ({self.say('plain name, on the result sheet: {name}', name=plain)})"
            if o != self.default:
                needs = "{quorum} are the quorum, {majority} a majority; it has {over}"
                numbers = {"quorum": least_of(self.count), "majority": majority_of(self.count, o)}
                needs = self.say(needs, **numbers, over=self.votes[o, self.default])
                said = self.spoken.with_colon(said, needs)
            wanted.append(said)
        demand_equal("Options", [entry.text() for entry in self.entries("Options")], wanted)

    def table(self):
        """The table: its numbers, which cells are marked as those of a defeat, and how each row is
        marked.
        """
        rows = self.sections["Votes"].one("tbody").all("tr")
        chips = {"won": ("won", "won"), "left": ("tied", "left"), "lost": ("", None)}
        for a, row in zip(self.poll.options, rows, strict=True):
            ended = self.count.ended(a)
            said, kind = chips.get(ended, (f"no {ended}", "dropped"))
            head = [self.name(a), *["default option"] * (a == self.default), *[said] * bool(said)]
            head[1:] = map(self.say, head[1:])
            found = row.one("th").text(), row.attributes.get("class")
            demand_equal(f"the head of row {a}", found, (" ".join(head), kind))
            cells = [(cell.text(), cell.attributes.get("class")) for cell in row.all("td")]
            wanted = [
                ("-", None)
                if a == b
                else (str(self.votes[a, b]), "beats" if (a, b) in self.count.defeats else None)
                for b in self.poll.options
            ]
            demand_equal(f"row {a}", cells, wanted)

    def defeats(self):
        """The sentences of the defeats, in which numbers are bold."""
        pairs = sorted(self.count.defeats)
        wanted = [
            (self.defeat(pair), [str(self.votes[pair]), str(self.votes[pair[::-1]])])
            for pair in pairs
        ]
        found = [
            (row.text(), [number.text() for number in row.all("b")])
            for row in self.entries("Defeats")[: len(pairs)]
        ]
        demand_equal("Defeats", found, wanted)

    def rounds(self):
        wanted = []
        for kept, removed in self.count.rounds:
            places = {"options": self.all_names(kept)}
            said = "The set is {options}. No defeat is within it, and the count ends."
            if removed:
                places["defeats"] = self.spoken.joined(map(self.defeat, sorted(removed)))
                said = "The set is {options}. Removed: {defeats}."
            wanted.append(self.say(said, **places))
        found = [entry.text() for entry in self.entries("Defeats", "ol")]
        demand_equal("Rounds", found, wanted)

    def ballots(self):
        listed = self.sections["Ballots"].all("li")
        found, wanted = [(entry.attributes["id"], entry.text()) for entry in listed], []
        for voter, ranks in sorted(self.count.last.items()):
            name = self.poll.roll[voter]
            spelled = ",".join("-" if rank is None else str(rank) for rank in ranks)
            said = self.answer(ranks) if self.is_motion else self.ballot_words(ranks)
            wanted.append((name, self.spoken.with_colon(f"{name} {spelled}", said)))
        demand_equal("Ballots", found, wanted)

    def ballot_words(self, ranks):
        steps = []
        for rank in sorted({*ranks} - {None}):
            options = [option for option, other in enumerate(ranks, start=1) if other == rank]
            equal = self.all_names(options)
            steps.append(self.say("{options} equally", options=equal) if options[1:] else equal)
        if not steps:
            return self.say("no option is ranked, so nothing is preferred")
        ranked, *rest = steps
        for step in rest:
            ranked = self.say("{before}, then {step}", before=ranked, step=step)
        if None not in ranks:
            return ranked
        unranked = [option for option, rank in enumerate(ranks, start=1) if rank is None]
        behind = "{ranked}; not ranked, and so behind all others: {unranked}"
        return self.say(behind, ranked=ranked, unranked=self.all_names(unranked))

    def answer(self, ranks):
        """What a ballot says to a motion: a word, and the name of what it is for, unless that
        begins with the word.
        """
        one, other = (100 if rank is None else rank for rank in ranks)
        yes, no, abstain = ANSWERS[self.spoken.code]
        if one == other:
            return abstain
        word, name = (yes, self.plain(1)) if one < other else (no, self.plain(2))
        first = re.match(r"\W*(\w*)", name)[1]
        return word if first.lower() == word.lower() else self.spoken.with_colon(word, name)

    def who_voted(self):
        """The electors in the order of the roll: who has a ballot that counts, and who has none and
        so a place here.
        """
        count, section, lists = self.count, self.sections["Who-voted"], ([], [])
        for voter, name in enumerate(self.poll.roll):
            is_absent = voter not in count.last
            lists[is_absent].append((name, name if is_absent else None))
        heads = [head.text() for head in section.all("h4")]
        said = ("Voted ({number})", "No ballot that counts ({number})")
        wanted = [self.say(text, number=len(names)) for text, names in zip(said, lists)]
        demand_equal("who voted, heads", heads, wanted)
        found = [
            [(entry.text(), entry.attributes.get("id")) for entry in names.all("li")]
            for names in section.all("ul", "roll")
        ]
        demand_equal("who voted", found, [names for names in lists if names])
        one = "{number} elector of {electors} has a ballot that counts, which is {share}."
        many = "{number} electors of {electors} have a ballot that counts, which is {share}."
        voters, electors = self.voters, len(self.poll.roll)
        part = share(voters, electors, self.spoken)
        said = self.say_number(one, many, voters, electors=electors, share=part)
        demand_equal("who voted, number", next(section.all("p")).text(), said)


def bar_of(svg):
    """The whole width and that of the bar, the width of those for, from where those against begin
    and their width, the same of what is lacking, and the marks.
    """
    ground, over, under = next(svg.all("rect")), svg.one("rect", "for"), svg.one("rect", "against")
    widths = int(svg.attributes["viewbox"].split()[2]), int(ground.attributes["width"])
    demand_equal("a reader has the numbers of a bar as text", svg.attributes["aria-hidden"], "true")
    marks = [int(re.match(r"M(\d+) ", mark.attributes["d"])[1]) for mark in svg.all("path")]
    from_to = [
        (int(part.attributes["x"]), int(part.attributes["width"]))
        for part in (under, *svg.all("rect", "lacking"))
    ]
    return widths, int(over.attributes["width"]), from_to[0], from_to[1:], marks


def majority_of(count, option):
    """The least number that is a majority, tried one by one."""
    poll, under = count.poll, count.votes[count.poll.default, option]
    least = poll.ratios[option] * under + poll.is_more_than
    return next(number for number in range(200_000) if number > under and number >= least)


def needed_by(count, option):
    """What an option needs: of what it was dropped for, or of quorum and majority."""
    needs = {"quorum": [least_of(count)], "majority": [majority_of(count, option)]}
    return max(needs.get(count.dropped.get(option), sum(needs.values(), [])))


def least_of(count):
    """The least number of votes that meets the quorum."""
    square = count.poll.quorum**2 * len(count.poll.roll)
    return next(number for number in range(20_000) if (2 * number) ** 2 >= square)


def few(rows):
    """The rows that options have of their own in the panel: two, or all three, so that never one
    alone is not named.
    """
    return rows if len(rows) == 3 else rows[:2]


def share(voters, electors, spoken):
    """Per cent with one place behind the point, rounded; neither 0 nor 100 unless it is."""
    tenth = decimal.Decimal("0.1")
    rounded = (decimal.Decimal(100) * voters / electors).quantize(tenth, decimal.ROUND_HALF_UP)
    if 0 < voters < electors:
        rounded = min(max(rounded, tenth), decimal.Decimal("99.9"))
    whole, tenths = str(rounded).split(".")
    return (
        spoken.say("{whole} %", whole=whole)
        if tenths == "0"
        else spoken.say("{whole}.{tenths} %", whole=whole, tenths=tenths)
    )
