"""The program debvote-office: the server, and the browser that opens its page."""

import argparse
import pathlib
import signal
import threading
import webbrowser

from debvote_tools.cli import arguments, console
from debvote_tools.cli.faults import Fault, Status
from debvote_tools.office import state
from debvote_tools.office.office import Office
from debvote_tools.office.server import Server
from debvote_tools.text.language import LANGUAGES

PROGRAM = "debvote-office"


def parser() -> argparse.ArgumentParser:
    made = arguments.Parser(
        prog=PROGRAM,
        description="Shows an election as a page on this computer, from which its commands are run.",
    )
    arguments.add_version(made)
    made.add_argument(
        "folder",
        metavar="FOLDER",
        nargs="?",
        help="The folder of the election (default: the page asks for it, or makes one)",
    )
    made.add_argument(
        "--language",
        metavar="CODE",
        choices=sorted(LANGUAGES),
        help="The language of the page: de, en, es or fr (default: that of the election)",
    )
    made.add_argument(
        "--port",
        metavar="N",
        type=int,
        default=0,
        help="The port on this computer (default: any that is free)",
    )
    made.add_argument(
        "--no-browser",
        action="store_true",
        help="Print the address of the page, and open no browser",
    )
    return made


def main(program_folder: pathlib.Path) -> int:
    console.prepare(signal.SIGHUP, signal.SIGTERM)
    signal.signal(signal.SIGINT, signal.default_int_handler)
    # the pages of the office are read by a person, as a terminal is
    console.AT_OFFICE = True
    words = parser().parse_args()
    office = Office(program_folder, words.language)
    try:
        if words.folder is not None:
            try:
                office.open(pathlib.Path(words.folder))
            except state.Taken as taken:
                return show_other(str(taken))
            except Fault as fault:
                office.fault = fault.words
        return serve(office, words.port, has_browser=not words.no_browser)
    except OSError as error:
        return console.failed(PROGRAM, str(error), Status.BAD_OUTPUT)
    finally:
        office.close()


def show_other(page: str) -> int:
    """Opens the page of the office that has the folder already."""
    if not page or not pathlib.Path(page).is_file():
        words = "another office has this election open: use its page, or end it there first"
        return console.failed(PROGRAM, words, Status.DOUBT)
    webbrowser.open(pathlib.Path(page).as_uri())
    console.tell(f"This election is open in an office already: its page is {page}.")
    return Status.DONE


def serve(office: Office, port: int, *, has_browser: bool) -> int:
    """Runs the server, until the page or a signal ends it."""
    with Server(office, port) as server:
        office.write_page()
        if has_browser:
            # a browser that runs in this terminal is waited for
            address = office.page.as_uri()
            threading.Thread(target=webbrowser.open, args=[address], daemon=True).start()
            console.tell(
                f"The page is open in your browser; else open {office.page} there. Ctrl-C ends it."
            )
        else:
            console.tell(office.address())
        try:
            server.serve_forever()
        except KeyboardInterrupt:
            console.tell("")
    return Status.DONE
