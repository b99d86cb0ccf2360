#!/usr/bin/env python3
"""Holds docs/MAP.md to docs/SCOPE.md and to the repository.

Every named sentence of SCOPE has its row, every name in the map is there (in the page that the map gives for it), and every
must-fail edit has a row. Also of the other pages: each citation of SCOPE, in the whole repository, names a section or a sentence that
it has; the table of crates in docs/DESIGN.md is that of crates.txt; links lead somewhere. What is gone is listed whole, so that one
run tells all that is to be mended.
"""
import pathlib
import re
import unittest

ROOT = pathlib.Path(__file__).resolve().parent.parent
SCOPE = (ROOT / "docs/SCOPE.md").read_text()
MAP = (ROOT / "docs/MAP.md").read_text()
SENTENCES = re.findall(r"\*\*([A-Z]\d+[a-z]?)\.?\*\*", SCOPE)
SECTIONS = re.findall(r"^## (.*)$", SCOPE, re.MULTILINE)
ROWS = [[cell.strip() for cell in row.split("|")[1:-1]] for row in MAP.splitlines() if re.match(r"\| [A-Z]\d+[a-z]? \|", row)]
PLAIN = re.sub(r"`[^`]+`", "``", MAP)
DEFINED = re.compile(r"^\s*(?:(?:abbrev|unfoldable|pub|record|data) +)*([^\s:(){}]+) *(?:[({].*?)?:", re.MULTILINE)
DECLARED = re.compile(r"\b(?:fn|struct|enum|const|mod|let|let mut) +(\w+)")


def files(ending):
    return [path for path in ROOT.glob("crates/*/*/**/*." + ending) if not {"must-fail", "out"} & set(path.parts)]


def page(crate, name):
    """The names that a page defines, or None where there is no such page."""
    for folder in ("specs", "proofs"):
        path = ROOT / "crates" / crate / folder / (name + ".antt")
        if path.is_file():
            return set(DEFINED.findall(path.read_text()))
    return None


def vocabulary():
    """The vectors, the names that are defined or declared in the crates, and all the words there."""
    pages, sources = ([path.read_text() for path in files(ending)] for ending in ("antt", "rt"))
    names = {name for text in pages for name in DEFINED.findall(text)}
    names |= {name for text in sources for name in DECLARED.findall(text)}
    names |= {path.stem for path in ROOT.glob("tests/vectors/*/*.in")}
    names |= {path.name for path in ROOT.glob("crates/*")} | {"ensures"}
    return names, re.sub(r"\s+", " ", " ".join(pages + sources))


NAMES, WORDS = vocabulary()


def unknown(text):
    """What is quoted in a text and is neither a name (a star stands for any end of it) nor the very words of a page or a source."""
    for name in re.findall(r"`([^`\n]+)`", text):
        pattern = re.escape(name).replace(r"\*", ".*")
        if not (set(name.split("::")) <= NAMES or "*" in name and any(re.fullmatch(pattern, one) for one in NAMES)):
            if not (" " in name and name in WORDS):
                yield name


class Map(unittest.TestCase):
    maxDiff = None

    def test_each_sentence_has_its_row(self):
        self.assertEqual(len(SENTENCES), len(set(SENTENCES)))
        self.assertEqual([row[0] for row in ROWS], SENTENCES)

    def test_sections_are_those_of_scope(self):
        headings = re.findall(r"^## (.*)$", MAP, re.MULTILINE)
        self.assertEqual(headings[: len(SECTIONS)], SECTIONS)

    def test_each_row_says_where_and_how(self):
        """A row has a place in the second column, and in the third or fourth what shows it."""
        self.assertEqual([row for row in ROWS if len(row) != 4 or not row[1] or not (row[2] or row[3])], [])

    def test_each_edit_has_a_row(self):
        edits = {path.stem for path in ROOT.glob("crates/*/must-fail/*.edit")}
        self.assertEqual(edits - set(re.findall(r"\w+", PLAIN)), set())

    def test_each_named_edit_is_there(self):
        gone = []
        for row in PLAIN.splitlines():
            crate = None
            for before, name in re.findall(r"(?<![\w/])(?:([a-z]+)/)?([a-z0-9]+(?:_[a-z0-9]+)+)\b(?![./])", row):
                crate = before or crate
                if not (ROOT / "crates" / str(crate) / "must-fail" / (name + ".edit")).is_file():
                    gone.append("%s/%s" % (crate, name))
        self.assertEqual(gone, [])

    def test_each_named_file_is_there(self):
        paths = re.findall(r"(?<![\w/`])(?:crates|scripts|docs|tests)/[\w./-]*\w", MAP)
        self.assertEqual([path for path in paths if not (ROOT / path).exists()], [])

    def test_each_named_page_is_there(self):
        pages = re.findall(r"\b(?!docs)([a-z]+)/([A-Z]\w+)", PLAIN)
        self.assertEqual(["%s/%s" % pair for pair in pages if page(*pair) is None], [])

    def test_each_name_is_on_its_page(self):
        """Of names before a page, each is on it; a theorem elsewhere is among the claims: a demand, or what the third column shows a row by."""
        claims = page("claims", "Claims")
        gone = []
        for row in ROWS:
            text = " | ".join([row[1], re.sub(r"contracts? of (?:`\w+`(?:, | and )?)+", "", row[2]), row[3]])
            for quoted, crate, name in re.findall(r"((?:`[^`]+`(?:, | and )?)+) \(([a-z]+)/([A-Z]\w+)\)", text):
                there = (page(crate, name) or set()) | claims
                gone += ["%s: %s (%s/%s)" % (row[0], one, crate, name) for one in re.findall(r"`([^`]+)`", quoted) if one not in there]
                text = text.replace("%s (%s/%s)" % (quoted, crate, name), "")
            theorems = re.findall(r"`(demand_\w+)`", text) + re.findall(r"`([a-z0-9]+(?:_[a-z0-9]+)+)`", text.split(" | ")[1])
            gone += ["%s: %s (claims/Claims)" % (row[0], one) for one in theorems if one not in claims]
        self.assertEqual(gone, [])

    def test_everything_quoted_is_there(self):
        gone = ["%s: %s" % (row[0], name) for row in ROWS for name in unknown(" | ".join(row[1:]))]
        self.assertEqual(gone, [])


class Pages(unittest.TestCase):
    maxDiff = None

    def test_the_table_has_every_crate(self):
        listed = re.findall(r"^(\w+)(?: staticlib)?:", (ROOT / "crates.txt").read_text(), re.MULTILINE)
        shown = re.findall(r"^\| \[(\w+)\]\(../crates/\w+\) \|", (ROOT / "docs/DESIGN.md").read_text(), re.MULTILINE)
        self.assertEqual(shown, listed)

    def test_what_is_quoted_is_there(self):
        for name in ("DESIGN", "OPEN-CASES"):
            self.assertEqual(list(unknown((ROOT / "docs" / (name + ".md")).read_text())), [], name)

    def test_each_link_leads_somewhere(self):
        gone = []
        for path in [ROOT / "README.md", *ROOT.glob("docs/**/*.md"), *ROOT.glob("*/README.md")]:
            links = re.findall(r"\]\((?!https?:)([^)#]+)", path.read_text())
            gone += ["%s: %s" % (path.relative_to(ROOT), link) for link in links if not (path.parent / link).exists()]
        self.assertEqual(gone, [])

    def test_what_is_cited_is_there(self):
        """SCOPE, "Section", or SCOPE and the name of a sentence."""
        kinds = {".md", ".py", ".rt", ".antt", ".h", ".c", ".rs", ".edit", ""}
        folders = ("crates", "docs", "tests", "scripts", "include", "examples", "bench", "samples", ".ci")
        gone = []
        for path in [ROOT / "README.md"] + [path for folder in folders for path in sorted((ROOT / folder).rglob("*"))]:
            if path.suffix not in kinds or "out" in path.parts or not path.is_file() or path.name == "test_map.py":
                continue
            text = re.sub(r"\s*\n\s*(?://+!?|--|#|\*)?\s*", " ", path.read_text(errors="replace"))
            cited = re.findall(r"SCOPE, ((?:\"[^\"]+\"(?:, | and )?)+)", text)
            gone += ["%s: %s" % (path.relative_to(ROOT), one) for part in cited for one in re.findall(r'"([^"]+)"', part) if one not in SECTIONS]
            if path.name != "DECISIONS.md" and re.search(r"\b[Dd]ocument 0[012]\b", text):
                gone.append("%s: a document that no reader of the repository has" % path.relative_to(ROOT))
            named = re.findall(r"SCOPE ([A-Z]\d+[a-z]?)\b", text)
            gone += ["%s: %s" % (path.relative_to(ROOT), one) for one in named if one not in SENTENCES]
        self.assertEqual(gone, [])


if __name__ == "__main__":
    unittest.main()
