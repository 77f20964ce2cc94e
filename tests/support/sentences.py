#!/usr/bin/python3
"""The sentences of debvote_tools that have translations, from its code.

    tests/support/sentences.py de

prints the entries that de.po lacks, and those that nothing in the code uses.
"""

import ast
import dataclasses
import functools
import itertools
import pathlib
import re
import sys

import jinja2

ROOT = pathlib.Path(__file__).resolve().parents[2]
PACKAGE = ROOT / "python" / "debvote_tools"
LOCALE = PACKAGE / "locale"

# the functions whose first argument is a sentence, or has some, and those whose first two are its
# singular and its plural
WITH_ONE = {"say", "say_each", "marked", "between"}
WITH_TWO = {"say_number"}
# how a sentence begins that is marked by nothing else
BEGINS = "The reason: "
# the enumerations whose values are sentences, or begin with one; and the words of the log
SAID = {"Reason", "Ruling"}
ACTS = "ActName"
FACTS = "SHOWN"


@dataclasses.dataclass(frozen=True)
class Entry:
    """An entry of a `.po` file: its texts, its translations, and what its comments say."""

    texts: tuple[str, ...]
    forms: tuple[str, ...]
    is_fuzzy: bool
    is_obsolete: bool


@functools.cache
def in_code() -> dict[tuple[str, ...], str]:
    """The sentences of the code and of the templates, each with the first place where it occurs."""
    from debvote_tools.office import acts

    found: dict[tuple[str, ...], str] = {}
    templates = jinja2.Environment(extensions=["jinja2.ext.i18n"])
    for file in sorted(PACKAGE.rglob("templates/*")):
        for line, name, words in templates.extract_translations(
            file.read_text(encoding="utf-8"), ["say", "say_number", "say_each", "marked"]
        ):
            texts = words if isinstance(words, tuple) else (words,)
            texts = texts[:2] if name in WITH_TWO else texts[:1]
            # a macro says its argument, which is where the macro is called
            if None not in texts:
                found.setdefault(texts, f"{file.relative_to(PACKAGE)}:{line}")
    for file in sorted(PACKAGE.rglob("*.py")):
        for node in ast.walk(ast.parse(file.read_text(encoding="utf-8"))):
            for texts in texts_of(node):
                found.setdefault(texts, f"{file.relative_to(PACKAGE)}:{node.lineno}")
    for form in itertools.chain.from_iterable(acts.phases().values()):
        for text in (form.help, *(field.help for field in form.fields)):
            found.setdefault((text,), f"commands/{form.name}.py")
    return found


def texts_of(node: ast.AST) -> list[tuple[str, ...]]:
    if isinstance(node, ast.ClassDef) and node.name in SAID:
        values = [line.value for line in node.body if isinstance(line, ast.Assign)]
        return [(literals(value)[0],) for value in values]
    if isinstance(node, ast.Assign) and getattr(node.targets[0], "id", "") in (ACTS, FACTS):
        words = [text for one in ast.walk(node.value) for text in literals(one)]
        return [(word,) for word in (words if words[1:] else " ".join(words).split())]
    if (
        isinstance(node, ast.Constant)
        and isinstance(node.value, str)
        and node.value.startswith(BEGINS)
    ):
        return [(node.value,)]
    if not isinstance(node, ast.Call):
        return []
    name = (
        node.func.attr
        if isinstance(node.func, ast.Attribute)
        else node.func.id
        if isinstance(node.func, ast.Name)
        else ""
    )
    if name in WITH_TWO:
        one, many = (literals(word) for word in node.args[:2])
        return [(first, second) for first in one for second in many]
    return [(text,) for text in literals(node.args[0])] if name in WITH_ONE and node.args else []


def literals(node: ast.expr | None) -> list[str]:
    """The string literals that an argument may be, or that are in it, as far as the call shows
    them.
    """
    if isinstance(node, ast.Constant) and isinstance(node.value, str):
        return [node.value]
    within: list[ast.expr | None] = []
    if isinstance(node, ast.IfExp):
        within = [node.body, node.orelse]
    elif isinstance(node, ast.Dict):
        within = list(node.values)
    elif isinstance(node, ast.Tuple):
        within = list(node.elts)
    elif isinstance(node, ast.Call) and isinstance(node.func, ast.Name) and node.func.id == "dict":
        within = [named.value for named in node.keywords]
    return [text for one in within for text in literals(one)]


def entries_in(text: str) -> list[Entry]:
    """The entries of a `.po` file, the first of which is its head."""
    found = []
    for block in re.split(r"\n\s*\n", text):
        parts: dict[str, str] = {}
        keyword = ""
        for line in block.splitlines():
            said = re.fullmatch(
                r'(?:#~ )?(msgid_plural|msgid|msgstr(?:\[\d\])?)?\s*(".*")', line.strip()
            )
            if said:
                keyword = said[1] or keyword
                parts[keyword] = parts.get(keyword, "") + ast.literal_eval(said[2])
        if "msgid" in parts:
            texts = tuple(parts[name] for name in ("msgid", "msgid_plural") if name in parts)
            forms = tuple(parts[name] for name in sorted(parts) if name.startswith("msgstr"))
            found.append(
                Entry(
                    texts,
                    forms,
                    bool(re.search(r"(?m)^#,.*fuzzy", block)),
                    bool(re.search(r"(?m)^#~", block)),
                )
            )
    return found


def places_in(text: str) -> set[str]:
    return set(re.findall(r"\{(\w+)\}", text))


def as_po(texts: tuple[str, ...], forms: tuple[str, ...]) -> str:
    keywords = ["msgid"] if len(texts) == 1 else ["msgid", "msgid_plural"]
    names = ["msgstr"] if len(texts) == 1 else [f"msgstr[{number}]" for number in range(len(forms))]
    return "".join(
        f"{keyword} {quoted(text)}\n"
        for keyword, text in zip([*keywords, *names], [*texts, *forms], strict=True)
    )


def quoted(text: str) -> str:
    """A text of a `.po` file, on its own lines if it is long."""
    escaped = text.replace("\\", "\\\\").replace('"', '\\"').replace("\n", "\\n")
    if len(escaped) <= 110:
        return f'"{escaped}"'
    lines, line = [], ""
    for word in re.findall(r"\S+\s*|\s+", escaped):
        if line and len(line) + len(word) > 118:
            lines.append(line)
            line = ""
        line += word
    return '""\n' + "\n".join(f'"{part}"' for part in [*lines, line])


def tell_new(code: str):
    """Prints the entries that a file of translations lacks, and those that nothing uses."""
    has = {
        entry.texts for entry in entries_in((LOCALE / f"{code}.po").read_text(encoding="utf-8"))[1:]
    }
    said = in_code()
    for texts, place in said.items():
        if texts not in has:
            print(f"#: {place}\n{as_po(texts, ('',) * len(texts))}")
    for texts in sorted(has - said.keys()):
        print(f"# not in the code: {texts[0]}")


if __name__ == "__main__":
    sys.path.insert(0, str(PACKAGE.parent))
    tell_new(sys.argv[1])
