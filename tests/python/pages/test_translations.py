"""The files of translations: each has each sentence of the code, whole, and nothing else."""

import gettext
import io
import itertools
import re
import shutil
import subprocess
import unittest

from debvote_tools.result.page import share
from debvote_tools.text.language import LANGUAGES, catalog_of, language_of

from tests.support import languages, sentences

MSGFMT = shutil.which("msgfmt")
TAG = re.compile(r"<[^>]*>")

# words that have stood for a thing which another word of the glossary stands for: what is entered,
# and the rank
NOT_IN_THE_GLOSSARY = {"de": "eingetragen", "fr": "enregistr", "es": r"\brangos?\b"}


class Translations(languages.LanguageTest):
    def setUp(self):
        super().setUp()
        self.said = sentences.in_code()
        self.entries = {
            code: sentences.entries_in(
                (sentences.LOCALE / f"{code}.po").read_text(encoding="utf-8")
            )
            for code in languages.LANGUAGES
        }

    def test_each_language_has_its_file_with_each_sentence_and_no_other(self):
        self.assertEqual(sorted(LANGUAGES), sorted(["en", *languages.LANGUAGES]))
        files = [file.stem for file in sentences.LOCALE.glob("*.po")]
        self.assertEqual(sorted(files), sorted(languages.LANGUAGES))
        self.assertGreater(len(self.said), 500)
        for code, entries in self.entries.items():
            texts = sorted(entry.texts for entry in entries[1:])
            self.assertEqual(texts, sorted(self.said), "twice, not translated, or not in the code")
            for entry in entries[1:]:
                found = all(entry.forms), entry.is_fuzzy, entry.is_obsolete
                self.assertEqual(found, (True, False, False), (code, entry.texts))

    def test_each_translation_has_the_places_the_tags_and_the_end_of_its_sentence(self):
        ends = re.compile(r"([.:?])(?:</\w+>)?$")
        for code, entries in self.entries.items():
            for entry in entries[1:]:
                with self.subTest(language=code, text=entry.texts[0]):
                    text, places = entry.texts[-1], sentences.places_in(entry.texts[-1])
                    wanted, found = map(ends.findall, (entry.texts[0], entry.forms[0]))
                    self.assertTrue(found == wanted or wanted in ([], ["."]), found)
                    self.assertEqual(len(entry.forms), len(entry.texts))
                    for form in entry.forms:
                        self.assertEqual(sentences.places_in(form), places)
                        self.assertEqual(sorted(TAG.findall(form)), sorted(TAG.findall(text)))
                        count = len(re.findall(r"\{\w+\}", form))
                        self.assertEqual((form.count("{"), form.strip()), (count, form))
                        # it may come to stand in an attribute
                        self.assertNotIn('"', TAG.sub("", form))

    def test_what_puts_parts_behind_each_other_has_its_places_at_its_ends(self):
        for code, text in itertools.product(
            languages.LANGUAGES,
            (
                "{entries} and {last}",
                "{before}: {after}",
                "{before}; {after}",
                "{before}, then {step}",
                "{thousands},{rest}",
            ),
        ):
            first, second = map(re.escape, re.findall(r"\{\w+\}", text))
            self.assertRegex(language_of(code).catalog.gettext(text), f"^{first}.*{second}$", code)

    def test_one_word_stands_for_one_thing(self):
        """A letter told electors to write `rangos`, and two lines below words in place of the
        `puestos`.
        """
        for code, word in NOT_IN_THE_GLOSSARY.items():
            forms = [form for entry in self.entries[code] for form in entry.forms]
            self.assertEqual([form for form in forms if re.search(word, form)], [])

    def test_french_signs_stand_behind_a_space_that_does_not_break(self):
        wrong = r"[^\u00a0:/][;?!\u00bb]|\u00ab[^\u00a0]| :|\w: "
        for entry in self.entries["fr"][1:]:
            for form in entry.forms:
                self.assertNotRegex(TAG.sub("", form).replace("https:", ""), wrong)

    @unittest.skipUnless(MSGFMT, "msgfmt is not installed")
    def test_msgfmt_takes_each_file_and_makes_of_it_what_is_read_here(self):
        for code in languages.LANGUAGES:
            made, file = self.scratch / f"{code}.mo", sentences.LOCALE / f"{code}.po"
            words = [MSGFMT, "--check", "-o", made, file]
            ended = subprocess.run(words, capture_output=True, text=True)
            self.assertEqual((ended.returncode, ended.stdout, ended.stderr), (0, "", ""))
            by_msgfmt = gettext.GNUTranslations(io.BytesIO(made.read_bytes()))
            here = catalog_of(file.read_bytes())
            # but for the head, which is no sentence
            self.assertEqual({**by_msgfmt._catalog, "": ""}, {**here._catalog, "": ""})
            for number in range(200):
                self.assertEqual(by_msgfmt.plural(number), here.plural(number))

    def test_numbers_and_places(self):
        german = language_of("de")
        files = [german.say_number("{number} file", "{number} files", count) for count in (1, 3)]
        self.assertEqual(files, ["1 Datei", "3 Dateien"])
        self.assertEqual(german.say("The line: {line}", line="{x}"), "Die Zeile: {x}")
        self.assertEqual(language_of("fr").between("{before}; {after}"), "\u00a0; ")
        for code in LANGUAGES:
            third = "33.3 %" if code == "en" else "33,3 %"
            shares = [share(1, whole, language_of(code)) for whole in (3, 2)]
            self.assertEqual(shares, [third, "50 %"])
