"""tests/all: when its parts begin, beside what `rt ci` proves and what it keeps."""

import importlib.machinery
import importlib.util
import types

import pytest

from tests.support import debian, edits, parts
from tests.support.program import ROOT

PASSED = [f"rt: tests_{which}_desks: its tests passed" for which in ("below", "from")]
# at the end rt ci hands out the programs that it has kept
KEPT = "rt: debvote is kept: an earlier run proved it"


@pytest.mark.parametrize(
    "said, first",
    [
        (["rt: debvote proved", *PASSED, "rt: ok", edits.EDITS_LEFT], 3),
        ([KEPT, *PASSED, "rt: ok", edits.EDITS_LEFT, "1 passed, 0 failed"], 5),
        ([PASSED[0], KEPT, PASSED[1], edits.EDITS_LEFT], 4),
        (["rt: debvote is not proved"], 1),
    ],
)
def test_when_the_parts_begin(said, first, tmp_path, monkeypatch):
    loader = importlib.machinery.SourceFileLoader("tests_all", str(ROOT / "tests" / "all"))
    tool = importlib.util.module_from_spec(importlib.util.spec_from_loader("tests_all", loader))
    loader.exec_module(tool)
    heard, begun = [], []

    def lines():
        for line in said:
            heard.append(line)
            yield f"{line}\n".encode()

    proving = types.SimpleNamespace(
        told=tmp_path / "told",
        process=types.SimpleNamespace(stdout=lines()),
        count=lambda: parts.Count(1, 0),
        time=lambda: "",
    )
    for name in ("demand_kit", "demand"):
        monkeypatch.setattr(debian, name, lambda *_: None)
    monkeypatch.setattr(tool, "begin_proving", lambda *_: proving)
    monkeypatch.setattr(parts, "Part", lambda *_: begun.append(len(heard)))
    monkeypatch.setattr(parts, "tell", lambda _: parts.Count(1, 0))
    monkeypatch.setattr(parts, "tell_failures", lambda _: None)
    monkeypatch.setenv("DEBVOTE", "")
    assert tool.prove_and_test([]) == 0
    assert begun == [first] * len(tool.PARTS)
