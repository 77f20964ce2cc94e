"""The command line of debvote-election."""

import argparse
import gc
import importlib
import pathlib
import signal
import sys
from collections.abc import Sequence
from typing import Any

from debvote_tools.cli import arguments, console
from debvote_tools.cli.faults import Fault, Status, not_installed
from debvote_tools.election import Election

PROGRAM = "debvote-election"

# by the phases of an election, as the guide for the secretary has them. Each is a function in the
# module of the same name; its docstring is the help, and the class of its arguments has the options
PHASES = {
    "Before": "new roll check codes",
    "To begin": "call letters backup",
    "Each day": "add desk held",
    "Near the end": "status",
    "To end": "close tellers",
    "After it": "count publish",
    "If something is wrong": "show undo strike reopen log export",
}
COMMANDS = " ".join(PHASES.values()).split()

# the commands that change nothing
QUIET = ("check", "show", "status", "count", "log")


class ByPhase(argparse.HelpFormatter):
    """A help that lists commands by the phases of an election."""

    def _format_action(self, action: argparse.Action) -> str:
        if not isinstance(action, argparse._SubParsersAction):
            return super()._format_action(action)
        commands = {command.dest: command for command in action._get_subactions()}
        parts = []
        for phase, names in PHASES.items():
            parts.append(f"  {phase}:\n")
            self._indent()
            parts += [self._format_action(commands[name]) for name in names.split()]
            self._dedent()
        return "".join(parts)


def parser(typed: Sequence[str] = ()) -> argparse.ArgumentParser:
    """The parser of the command line. If what is typed begins with a command, it knows this one
    alone, since the module of each takes a while to be read.
    """
    # --folder may come before the command and after it
    folder = argparse.ArgumentParser(add_help=False)
    text = "The folder of the election (default: the current folder)"
    folder.add_argument("--folder", metavar="F", default=argparse.SUPPRESS, help=text)
    how: dict[str, Any] = {"allow_abbrev": False, "parents": [folder]}
    text = "Runs an election in one folder, from the list of members to the published result, with debvote."
    top = arguments.Parser(prog=PROGRAM, description=text, formatter_class=ByPhase, **how)
    arguments.add_version(top)
    commands = top.add_subparsers(title="commands", dest="command", metavar="COMMAND")
    for name in typed[:1] if typed and typed[0] in COMMANDS else COMMANDS:
        module = importlib.import_module(f"debvote_tools.commands.{name}")
        run = getattr(module, name)
        kind = run.__annotations__["arguments"]
        text = " ".join(run.__doc__.split())
        command = commands.add_parser(name, help=text.removesuffix("."), description=text, **how)
        arguments.add_arguments(command, kind)
        command.set_defaults(run=run, arguments=kind)
    return top


def main(program_folder: pathlib.Path, typed: Sequence[str] | None = None) -> int:
    """Runs a command, and returns the exit status. `program_folder` is that of the program."""
    console.prepare(signal.SIGHUP, signal.SIGTERM)
    if not console.has_output():
        return console.failed(
            PROGRAM, "standard output is closed; nothing was changed", Status.BAD_OUTPUT
        )
    # lines and letters have no cycles: to look for some again and again takes a seventh of the time
    # of `add`
    gc.disable()
    typed = sys.argv[1:] if typed is None else typed
    try:
        top = parser(typed)
        namespace = top.parse_args(typed)
    except ModuleNotFoundError as error:
        return console.failed(PROGRAM, not_installed(error).words, Status.NOT_FOUND)
    if namespace.command is None:
        top.print_help()
        return Status.BAD_ARGUMENTS
    signal.signal(signal.SIGINT, signal.default_int_handler)
    election = Election(getattr(namespace, "folder", None), program_folder)
    try:
        return run(election, namespace)
    except Fault as fault:
        # a command that changes nothing ends quietly if nobody reads on
        if isinstance(fault, console.OutputFailed) and fault.is_closed_pipe:
            if namespace.command in QUIET:
                return fault.status
        for each in (fault, *fault.others):
            words = each.after(election.done, namespace.arguments.nothing).words
            console.failed(PROGRAM, words, each.status)
        return fault.status
    except KeyboardInterrupt:
        words = f"interrupted; {election.done or console.REPORTED}, and nothing else"
        return console.failed(PROGRAM, words, 128 + signal.SIGINT)
    except OSError as error:
        return console.failed(PROGRAM, error_words(error, election.done), Status.BAD_OUTPUT)


def error_words(error: OSError, acts: str) -> str:
    """What the system says, after these acts. A file that can't be read or written is named, but
    for standard input.
    """
    done = f"{acts}; " if acts else ""
    if error.filename is None:
        return f"{error.strerror}; {done}{console.REPORTED}: see debvote-election status"
    return f"{error.filename}: {error.strerror}; it was not changed; {done}put this right, then run the command again"


def run(election: Election, namespace: argparse.Namespace) -> int:
    """Runs a command. What it can't work with is the fault of the book if that is damaged."""
    options = namespace.arguments(**vars(namespace))
    try:
        return int(namespace.run(election, options) or Status.DONE)
    except (Fault, OSError):
        raise
    except ModuleNotFoundError as error:
        raise not_installed(error) from None
    except Exception:
        election.demand_undamaged()
        raise
