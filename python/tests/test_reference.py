"""The docstrings: each has all parameters and an example, and each example does what it shows. scripts/release makes a page of them."""
import doctest
import importlib.util
import os
import re
import sys
import unittest
from html.parser import HTMLParser

import bedkeep
from helpers import EXAMPLES, Case

sys.path.insert(0, str(EXAMPLES.parent / "scripts/release"))
import reference  # noqa: E402

ENTRIES = dict(reference.public(bedkeep))
FLAGS = doctest.NORMALIZE_WHITESPACE | doctest.ELLIPSIS


def named(section):
    """The names that begin the terms of a section."""
    terms = re.findall(r"^([*\w, ]+) : ", section, re.M)
    return [name.strip("* ") for term in terms for name in term.split(",")]


class Docstrings(Case):
    def test_each_has_its_parameters_and_an_example(self):
        for name, entry in ENTRIES.items():
            with self.subTest(name):
                parts = reference.sections(entry)
                wanted = [one.name for one in reference.parameters_of(entry)]
                self.assertTrue(parts[""])
                self.assertEqual(named(parts.get("Parameters") or parts.get("Attributes", "") if wanted else ""), wanted)
                self.assertIn("Examples", parts)

    def test_what_they_raise_is_there(self):
        for name, entry in ENTRIES.items():
            for terms in re.findall(r"^\S.*", reference.sections(entry).get("Raises", ""), re.M):
                for term in terms.split(", "):
                    self.assertTrue(term in bedkeep.__all__ or term in ("IndexError", "OSError", "ValueError"), f"{name}: {term}")

    def setUp(self):
        super().setUp()
        self.addCleanup(os.chdir, os.getcwd())
        os.chdir(self.folder)
        for name, text in reference.FILES.items():
            self.file(name, text)

    def run_examples(self, names):
        finder = doctest.DocTestFinder(recurse=False)
        said = []
        for name in names:
            session = bedkeep.Session(*reference.SESSION)
            (found,) = finder.find(ENTRIES[name].fget if isinstance(ENTRIES[name], property) else ENTRIES[name], name, globs={})
            found.globs.update(bedkeep=bedkeep, session=session)
            doctest.DocTestRunner(optionflags=FLAGS).run(found, out=said.append)
            session.end()
        self.assertFalse(said, "".join(said))

    def test_examples(self):
        self.run_examples(name for name in ENTRIES if "to_frame" not in name and name != "edits")

    @unittest.skipUnless(importlib.util.find_spec("pandas"), "without pandas")
    def test_examples_of_tables(self):
        self.run_examples(name for name in ENTRIES if "to_frame" in name or name == "edits")


class Page(unittest.TestCase):
    def test_elements_are_closed_and_links_lead_somewhere(self):
        opened, links, names = [], [], []

        class Reader(HTMLParser):
            def handle_starttag(self, tag, attributes):
                if tag != "meta":
                    opened.append(tag)
                given = dict(attributes)
                links.extend(given[key] for key in ("href", "src") if key in given)
                names.extend([given["id"]] if "id" in given else [])

            def handle_endtag(self, tag):
                if opened.pop() != tag:
                    raise AssertionError(f"{tag} is closed too early")

        Reader().feed("\n".join(reference.page(bedkeep)))
        self.assertEqual(opened, [])
        self.assertEqual(sorted(links), sorted(f"#{name}" for name in ENTRIES))
        self.assertEqual(sorted(names), sorted(ENTRIES))

    def test_text_is_escaped(self):
        self.assertEqual(list(reference.paragraphs("`a < b` & <i>")), ["<p><code>a &lt; b</code> &amp; &lt;i&gt;</p>"])
        self.assertEqual(list(reference.paragraphs("One.\n\n    if x:\n        y")), ["<p>One.</p>", "<pre>if x:\n    y</pre>"])
        self.assertEqual(list(reference.definitions("a : int\n    x < 1.\nb : int")),
                         ["<dl>", "<dt>a : int</dt><dd>x &lt; 1.</dd>", "<dt>b : int</dt><dd></dd>", "</dl>"])


if __name__ == "__main__":
    unittest.main()
