"""The pages: links lead somewhere, README lists each page, and lines fit a screen where people read them in a terminal."""

import glob
import os
import re
import unittest

from cases import ROOT, data_of, path_of

USERS = [
    "README.md", "CHANGELOG.md", "CONTRIBUTING.md", "tools/README.md", "examples/README.md", "acceptance/README.md", "bench/README.md", "bindings/README.md",
    "docs/ARCHITECTURE.md", "docs/BENCHMARKS.md", "docs/CLIENT.md", "docs/COOKBOOK.md", "docs/EMBEDDING.md", "docs/FORMATS.md",
    "docs/GLOSSARY.md", "docs/OPERATING.md",  "docs/PROMISES.md", "docs/SIZING.md", "docs/STYLE.md", "docs/THREATS.md",
    "docs/TROUBLESHOOTING.md", "docs/TUTORIAL.md",
]
LONGEST = 120


def pages():
    """The pages of the repository, as seen from its top."""
    for pattern in ["*.md", "*/*.md"]:
        for path in sorted(glob.glob(path_of(pattern))):
            yield os.path.relpath(path, ROOT)


def links(page):
    return re.findall(r"\]\(([^)#]+)\)", data_of(page).decode())


class Pages(unittest.TestCase):
    def test_links(self):
        for page in pages():
            for link in links(page):
                with self.subTest(page=page, link=link):
                    self.assertTrue(os.path.exists(path_of(os.path.dirname(page), link)))

    def test_the_readme_lists_each_page(self):
        listed = {os.path.normpath(it) for it in links("README.md")}
        self.assertEqual([it for it in pages() if it != "README.md" and it not in listed], [])

    def test_lines(self):
        for page in USERS:
            long = [line for line in data_of(page).decode().splitlines() if len(line) > LONGEST]
            self.assertEqual(long, [], page)


if __name__ == "__main__":
    unittest.main()
