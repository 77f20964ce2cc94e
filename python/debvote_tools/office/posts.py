"""What each form does: it starts a command, answers one, or writes a draft."""

import pathlib
from collections.abc import Callable, Mapping

from debvote_tools.cli.faults import Fault, bad_arguments
from debvote_tools.commands.held import NOT_TIED, VOTED_SINCE
from debvote_tools.election import CALL, RESULT, URN
from debvote_tools.files import PUBLIC, write_made
from debvote_tools.outbox.steps import SAID, Step, published_place
from debvote_tools.office import acts, desks, drafts, own_programs, state
from debvote_tools.office.runs import Run, Task
from debvote_tools.office.visit import Answer, Refused, Visit, first, number_in
from debvote_tools.text.language import LANGUAGES

# the pages to which a command may lead that was done well, by what forms call them
BACK = {"state": "", "letters": "letters", "roll": "roll", "draft": "draft"}
# in characters
LONGEST_NAME = 40


def post(visit: Visit) -> Answer:
    """Does what a form asks for, and names the page that follows."""
    forms = FORMS if visit.office.folder else WITHOUT
    if visit.route not in forms:
        raise Refused()
    return forms[visit.route](visit)


def follow(visit: Visit, *tasks: Task) -> Answer:
    """Starts commands, and leads to what they write, or to the page that says what they ask or have
    done.
    """
    run = visit.office.start(*tasks, uploads=visit.uploads)
    visit.wait(run)
    return visit.see(run.place)


def answer(visit: Visit, run: Run, text: str, place: str = "") -> Answer:
    """Types an answer to the question that somebody saw, and leads to the page that says whether it
    was taken: that of the command, or another one.
    """
    is_taken = run.type(text, number_in(visit.form, "asked"))
    visit.wait(run)
    place = place or run.place
    lost = "&lost=1" if "?" in place else "?lost=1"
    return visit.see(place if is_taken else place + lost)


# ---- without an election
def folder(visit: Visit) -> Answer:
    if path := first(visit.form, "folder").strip():
        try:
            visit.office.open(pathlib.Path(path).expanduser())
        except state.Taken as taken:
            return visit.page("taken", address=state.address_in(str(taken)))
    return visit.see("")


def new(visit: Visit) -> Answer:
    path = pathlib.Path(first(visit.form, "folder").strip()).expanduser()
    if not path.is_absolute():
        raise bad_arguments(path, "it is no whole path", "write it from its first slash on", None)
    options = [f"--{name}={first(visit.form, name)}" for name in ("language", "questions")]
    return follow(visit, Task(("new", *options, "--", str(path)), done=""))


# ---- commands
def do(visit: Visit) -> Answer:
    command = acts.form_of(visit.rest)
    # of several ties each option that was chosen has a name of its own
    chosen = [value[0] for name, value in visit.form.items() if name.startswith("casting")]
    files = {field.name: files_of(visit, field.name) for field in command.pasted}
    task = Task(
        command.words({**visit.form, "casting": chosen, **files}),
        # the page of letters draws the ballots about which `add` asks
        asks="letters" if visit.rest == "add" else None,
        done=BACK.get(first(visit.form, "back")),
        given=visit.form if files else {},
    )
    return follow(visit, task)


def files_of(visit: Visit, field: str) -> list[str]:
    """What was pasted into a field, as a file; else those that were uploaded."""
    if pasted := drafts.plain(visit.form, field):
        return [visit.kept(f"{field}.txt", pasted.encode())]
    return [file for file in visit.form.get(f"{field}-file", ()) if file]


def run(visit: Visit) -> Answer:
    return answer(visit, visit.own_run, first(visit.form, "answer"))


def end_run(visit: Visit) -> Answer:
    visit.own_run.interrupt()
    visit.wait(visit.own_run)
    return visit.see(f"run/{visit.number}")


# ---- letters
def add(visit: Visit) -> Answer:
    files = [name.strip() for name in visit.form.get("file", ()) if name.strip()]
    return follow(visit, adding(*files)) if files else visit.see("letters")


def adding(*files: str) -> Task:
    """A command that adds letters: what it asks, the page of the letters asks."""
    return Task(("add", "--", *files), asks="letters", done="letters")


def decide(visit: Visit) -> Answer:
    """What becomes of a letter."""
    act = first(visit.form, "act")
    if not visit.number or act not in ("aside", "enter", "as"):
        raise Refused()
    words = ["--set-aside"]
    if act != "aside":
        line = desks.line_of(visit.election.questions, visit.form)
        forced = [why for why in visit.form.get("force", ()) if why in (NOT_TIED, VOTED_SINCE)]
        words = ["--enter" if act == "enter" else f"--as={line}"]
        words += [f"--force={why}" for why in forced]
    task = Task(("held", *words, "--", visit.rest), asks=f"letters/{visit.rest}", done="letters")
    return follow(visit, task)


# ---- the desk
def desk(visit: Visit) -> Answer:
    """Begins a desk, types a ballot there, or answers what it asks."""
    number = visit.desk
    place = f"desk/{number}"
    if "begin" in visit.form:
        name = state.desk_name(visit.election, number)
        if (given := first(visit.form, "name").strip()) not in ("", name):
            name = given[:LONGEST_NAME]
            state.name_desk(visit.election, number, name)
        visit.office.desk(number, name)
        return visit.see(place)
    run = visit.office.desks.get(number)
    if run is None:
        return visit.see(f"{place}?lost=1")
    if "answer" in visit.form:
        text = first(visit.form, "answer")
    else:
        text = desks.line_of(visit.election.questions, visit.form)
    return answer(visit, run, text, place)


# ---- the draft
def draft(visit: Visit) -> Answer:
    if changed := drafts.save(visit.election, visit.form):
        return visit.page("draft", changed=changed, **drafts.draft_of(visit.election))
    return follow(visit, Task(("roll",), done="draft"))


# ---- what goes to the web, and comes from there
def upload(visit: Visit) -> Answer:
    """Puts the folder on the web, between two askings of the web box: after the first one nothing
    is on the host that is not here, and letters of the call need the second one.
    """
    own = agreed(visit)
    history = visit.election.history()
    kind = first(visit.form, "kind")
    if kind == URN:
        return upload_lists(visit, own)
    place = visit.election.path(CALL)
    if kind == RESULT:
        published = published_place(visit.election, history)
        if published is None:
            raise Fault(None, "the folder of the result is not there", "publish it first")
        place = published
    ask = Task(("add", "--box"), asks="letters", needs=False)
    tasks = [Task(own.upload_words(place.resolve()), is_own=True)]
    if history.announced("box"):
        before = [ask] if history.askings else []
        tasks = [*before, *tasks, ask]
    return follow(visit, *tasks)


def upload_lists(visit: Visit, own: own_programs.OwnPrograms) -> Answer:
    """Puts the lists of tellers beside the page of the call, and nothing that lies beside them."""
    place = visit.new_folder()
    lists = visit.election.path(URN).glob("list-*.txt")
    # programs copy the modes, too, that of the folder for the one on the host
    write_made(place, {file.name: file.read_bytes() for file in lists}, PUBLIC)
    return follow(visit, Task(own.upload_words(place), is_own=True), noting(Step.UPLOAD.value))


def fetch(visit: Visit) -> Answer:
    own = agreed(visit)
    if not own.fetch:
        raise Refused()
    return follow(visit, Task(own.fetch, is_own=True), adding(own.mailbox))


def agreed(visit: Visit) -> own_programs.OwnPrograms:
    """The programs of the folder. Stops if nobody has agreed to them here."""
    own = own_programs.programs_in(visit.election)
    if own is None or not own.is_agreed:
        raise Fault(own_programs.FILE, "nobody has agreed to it here", "look at its words first")
    return own


def agree(visit: Visit) -> Answer:
    """Agrees to the file of programs whose words the page has shown."""
    own = own_programs.programs_in(visit.election)
    if own is not None and own.digest == first(visit.form, "digest"):
        state.agree(own.digest)
    return visit.see("")


def done(visit: Visit) -> Answer:
    if visit.rest not in [step.value for step in SAID]:
        raise Refused()
    return follow(visit, noting(visit.rest))


def noting(step: str) -> Task:
    """A command that notes that a step is done."""
    return Task(("status", f"--done={step}"), done="")


# ---- the office itself
def language(visit: Visit) -> Answer:
    if visit.rest not in LANGUAGES:
        raise Refused()
    visit.office.code = visit.rest
    return visit.see("")


def end(visit: Visit) -> Answer:
    visit.office.is_ended = True
    return visit.page("ended")


# the forms that need no election, and all forms
WITHOUT: Mapping[str, Callable[[Visit], Answer]] = {
    "folder": folder,
    "new": new,
    "run/": run,
    "end-run/": end_run,
    "language/": language,
    "end": end,
}
FORMS: Mapping[str, Callable[[Visit], Answer]] = {
    **WITHOUT,
    "do/": do,
    "letters": add,
    "letters/": decide,
    "desk/": desk,
    "draft": draft,
    "upload": upload,
    "fetch": fetch,
    "agree": agree,
    "done/": done,
}
