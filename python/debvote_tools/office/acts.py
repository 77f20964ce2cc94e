"""The form of a command, made from its own options: each of `debvote-election` has one."""

import importlib
from collections.abc import Iterator, Mapping, Sequence
from typing import Any, NamedTuple

from debvote_tools.cli.console import say
from debvote_tools.commands.command_line import COMMANDS, PHASES
from debvote_tools.office.visit import Refused

# what is a page of its own
APART = ("desk", "new")
# what no form has: what a command asks is answered when it is asked, and who needs to say that a
# book was moved reads first what that means
NO_FIELD = ("yes", "moved")
# what is in the files of these is pasted, or the files are uploaded: slips, and lists of tellers
PASTED = ("paper", "lists")


class Field(NamedTuple):
    """An option of a command as a field of a form; `how` is what its parser has of it."""

    name: str
    help: str
    how: Mapping[str, Any]

    @property
    def option(self) -> str:
        return str(self.how.get("name", f"--{self.name.replace('_', '-')}"))

    @property
    def is_positional(self) -> bool:
        return "is_positional" in self.how

    @property
    def is_flag(self) -> bool:
        return self.how.get("action") == "store_true"

    @property
    def is_several(self) -> bool:
        return self.how.get("action") == "append" or self.how.get("nargs") == "*"

    @property
    def is_pasted(self) -> bool:
        return self.name in PASTED

    def words(self, given: Sequence[str]) -> list[str]:
        """What would be typed; each value is part of its option, so that none reads as another."""
        lines = [
            line for text in given for line in (text.split("\n") if self.is_several else [text])
        ]
        values = [line.strip() for line in lines if line.strip()]
        if self.is_positional:
            return values
        if self.is_flag:
            return [self.option][: len(values)]
        return [f"{self.option}={value}" for value in values]


class Form(NamedTuple):
    name: str
    help: str
    fields: Sequence[Field]

    @property
    def pasted(self) -> list[Field]:
        return [field for field in self.fields if field.is_pasted]

    def words(self, given: Mapping[str, Sequence[str]]) -> list[str]:
        """The whole command; what has no option is behind `--`."""
        options = list[str]()
        others = list[str]()
        for field in self.fields:
            words = others if field.is_positional else options
            words += field.words(given.get(field.name, ()))
        return [self.name, *options, *(["--", *others] if others else [])]


def form_of(name: str) -> Form:
    if name not in COMMANDS or name in APART:
        raise Refused()
    run = getattr(importlib.import_module(f"debvote_tools.commands.{name}"), name)
    fields = fields_of(run.__annotations__["arguments"])
    return Form(name, say(" ".join(run.__doc__.split())), list(fields))


def fields_of(kind: type) -> Iterator[Field]:
    for owner in kind.__mro__:
        for name in owner.__dict__.get("__annotations__", {}):
            if name not in NO_FIELD:
                how = owner.__dict__[name]
                yield Field(name, say(how["help"]), how)


def phases() -> dict[str, list[Form]]:
    return {
        phase: [form_of(name) for name in names.split() if name not in APART]
        for phase, names in PHASES.items()
    }
