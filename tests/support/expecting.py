"""A test of many facts, each with a name: it goes on after one that fails, and at its end says all that failed."""

import unittest


class Expecting(unittest.TestCase):
    maxDiff = 2_000

    def setUp(self):
        super().setUp()
        self.wrong: list[str] = []
        self.addCleanup(self.tell)

    def expect(self, name, found, wanted):
        try:
            self.assertEqual(found, wanted)
        except AssertionError as error:
            self.wrong.append(f"{name}: {error}")

    def tell(self):
        if self.wrong:
            self.fail("\n".join(self.wrong))
