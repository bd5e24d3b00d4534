#!/usr/bin/env python3
"""Checks that docs/RULES.md and what cites it fit together.

A rule is a number in bold, as **S1**; those of a letter are counted from 1 without a gap. A citation is a comment that begins with numbers
of rules and a colon, as "-- S10, S21: .." or "-- S15 to S23: ..": above a definition, or above one case of it. Every number that is cited,
or named in a document, has to be a rule. Every rule has to be cited by a definition below specs/, or by the code where it is one about
code; the letters of UNCITED are about the whole work, and stand in docs/TRACE.md alone. Every rule has a row in docs/TRACE.md.
"""

import re
import unittest
from pathlib import Path
from typing import Dict, Iterator, List, Set

ROOT = Path(__file__).resolve().parent.parent
RULES = ROOT / "docs" / "RULES.md"
TRACE = ROOT / "docs" / "TRACE.md"
DOCUMENTS = [ROOT / "README.md", ROOT / "CONTRIBUTING.md", *sorted((ROOT / "docs").glob("*.md"))]
DEFINING = ("crates/*/specs/*.antt", "crates/*/src/*.rt")
CITING = DEFINING + ("crates/*/proofs/**/*.antt", "tests/*.py", "speed/*.c", "speed/*.h", "tools/*")
# What is built, and how it is proved: no single definition says it.
UNCITED = "GK"

RULE = re.compile(r"\*\*([A-Z]\d+)\*\*")
NUMBER = re.compile(r"\b[A-Z]\d+\b")
LIST = r"[A-Z]\d+(?:(?:, | to | and )[A-Z]\d+)*"
CITATION = re.compile(rf"^\s*(?:--|//+|#|/\*+|\*) ({LIST}): ", re.MULTILINE)
ROW = re.compile(rf"^\| ({LIST}) \|", re.MULTILINE)
# The table of letters, each with a link to its section.
LETTER = re.compile(r"^\| \[([A-Z])\]\(#", re.MULTILINE)


def expanded(numbers: str) -> List[str]:
    """The rules of a list: "S1, S3 to S5" is S1, S3, S4 and S5."""
    rules: List[str] = []
    for part in re.split(r", | and ", numbers):
        first, _, last = part.partition(" to ")
        if not last:
            rules.append(first)
        elif first[0] != last[0] or int(first[1:]) >= int(last[1:]):
            raise ValueError(f"{part} is no range of rules")
        else:
            rules += [f"{first[0]}{number}" for number in range(int(first[1:]), int(last[1:]) + 1)]
    return rules


def cited(text: str, form: "re.Pattern[str]" = CITATION) -> Set[str]:
    """The rules that the comments of a file cite, or the rows of a table name."""
    return {rule for numbers in form.findall(text) for rule in expanded(numbers)}


def files(patterns: "tuple[str, ...]") -> Iterator[Path]:
    for pattern in patterns:
        yield from (path for path in sorted(ROOT.glob(pattern)) if path.is_file())


def gaps(rules: List[str]) -> List[str]:
    """What is wrong with the numbers of a list of rules: each stands once, and those of a letter are 1, 2, 3 and so on."""
    by_letter: Dict[str, List[int]] = {}
    for rule in rules:
        by_letter.setdefault(rule[0], []).append(int(rule[1:]))
    return [f"{letter}: {numbers}" for letter, numbers in by_letter.items() if sorted(numbers) != list(range(1, len(numbers) + 1))]


class Rules(unittest.TestCase):
    def setUp(self):
        self.rules = RULE.findall(RULES.read_text())

    def test_each_letter_counts_from_one(self):
        self.assertEqual(gaps(self.rules), [])

    def test_the_table_has_each_letter_in_the_order_of_the_rules(self):
        self.assertEqual(LETTER.findall(RULES.read_text()), list(dict.fromkeys(rule[0] for rule in self.rules)))

    def test_each_citation_exists(self):
        unknown = [(str(path.relative_to(ROOT)), rule) for path in files(CITING) for rule in sorted(cited(path.read_text()) - set(self.rules))]
        self.assertEqual(unknown, [])

    def test_each_rule_is_cited_by_a_definition(self):
        all_cited = {rule for path in files(DEFINING) for rule in cited(path.read_text())}
        self.assertEqual([rule for rule in self.rules if rule[0] not in UNCITED and rule not in all_cited], [])

    def test_each_rule_has_a_row_in_the_trace(self):
        rows = cited(TRACE.read_text(), ROW)
        self.assertEqual([rule for rule in self.rules if rule not in rows], [])

    def test_each_rule_that_a_document_names_exists(self):
        letters = {rule[0] for rule in self.rules}
        unknown = [
            (path.name, number)
            for path in DOCUMENTS
            for number in sorted(set(NUMBER.findall(path.read_text())))
            if number[0] in letters and number not in self.rules
        ]
        self.assertEqual(unknown, [])

    def test_the_model_cites_each_rule_of_the_manager(self):
        cited_there = cited((ROOT / "tests" / "model.py").read_text())
        self.assertEqual([rule for rule in self.rules if rule[0] in "RHNTBXLAC" and rule not in cited_there], [])


class Reading(unittest.TestCase):
    """The functions above, on texts of their own."""

    def test_a_list_is_expanded(self):
        self.assertEqual(expanded("S1, S3 to S5 and T2"), ["S1", "S3", "S4", "S5", "T2"])
        self.assertRaises(ValueError, expanded, "S3 to T5")
        self.assertRaises(ValueError, expanded, "S5 to S3")

    def test_a_citation_begins_a_comment(self):
        text = "-- S1, S2: a\n  // T3: b\n    # B4 to B6: c\n/* A1: d */\nabbrev x = S7: no\n-- see S8: no\n"
        self.assertEqual(cited(text), {"S1", "S2", "T3", "B4", "B5", "B6", "A1"})

    def test_a_row_names_its_rules_first(self):
        self.assertEqual(cited("| S1, S2 | x | T3 |\n| word | S4 |\n", ROW), {"S1", "S2"})

    def test_a_gap_is_seen(self):
        self.assertEqual(gaps(["S1", "S2", "T1"]), [])
        self.assertEqual(gaps(["S1", "S3"]), ["S: [1, 3]"])
        self.assertEqual(gaps(["S1", "S1"]), ["S: [1, 1]"])


if __name__ == "__main__":
    unittest.main()
