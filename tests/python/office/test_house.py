"""The office has no rule of its own: it starts commands, and does not do what they do."""

import ast
import unittest

from tests.support.program import ROOT

PACKAGE = ROOT / "python" / "debvote_tools"
# what commits an act, or plans one
ACTING = {"Change", "carried_out", "act", "insert", "insert_all", "NewAct", "demand_right_book"}


class House(unittest.TestCase):
    def test_nothing_of_it_acts(self):
        files = [*(PACKAGE / "office").glob("*.py")]
        self.assertGreater(len(files), 10)
        for file in files:
            for node in ast.walk(ast.parse(file.read_text())):
                names = {
                    *([node.attr] if isinstance(node, ast.Attribute) else ()),
                    *(
                        [name.name for name in node.names]
                        if isinstance(node, (ast.Import, ast.ImportFrom))
                        else ()
                    ),
                }
                with self.subTest(file=file.name, line=getattr(node, "lineno", 0)):
                    self.assertEqual(names & ACTING, set())

    def test_one_module_knows_that_an_office_runs_a_command(self):
        knowing = [
            str(file.relative_to(PACKAGE))
            for file in PACKAGE.rglob("*.py")
            if any(name in file.read_text() for name in ("AT_OFFICE", "DEBVOTE_OFFICE"))
        ]
        self.assertEqual(
            sorted(knowing), ["cli/console.py", "office/command_line.py", "office/runs.py"]
        )
