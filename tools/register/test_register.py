#!/usr/bin/env python3
"""Tries tools/check-register: each alteration of the register that a reader would be misled by must be found, and the register as it is has no fault."""

import os
import re
import sys
import unittest
from unittest import mock

sys.dont_write_bytecode = True
sys.path.insert(0, os.path.dirname(os.path.abspath(__file__)))

import checks
import made
import pages
import paper
import sources

NOW = checks.Register()
WEEK, LOSSES, TRACKER = (next(page for page in NOW.pages if name in page) for name in ("02-13", "02-09", "02-04"))


def altered(page, old, new):
    """The register with one text of a page replaced, which stands there."""
    text = NOW.texts[page]
    if old not in text:
        raise AssertionError(f"{page} does not have {old}")
    return checks.Register({**NOW.texts, page: text.replace(old, new, 1)})


def cell_of(page, words):
    """The last cell of the row that takes these words."""
    return next(row.cells[3] for row in NOW.rows if row.page == page and words in row.cells[0])


class Found(unittest.TestCase):
    def assert_found(self, check, register, words):
        faults = list(check(register))
        self.assertTrue(any(words in fault for fault in faults), f"{words} is not among {faults}")

    def test_as_it_is(self):
        self.assertEqual(checks.faults(NOW), [])

    def test_64_turned_into_640_in_a_row(self):
        self.assert_found(checks.words, altered(WEEK, "64 KiB of memory", "640 KiB of memory"), "these words do not stand in")

    def test_64_turned_into_640_in_the_sentences(self):
        self.assert_found(checks.words, altered(paper.SENTENCES, "64 KiB", "640 KiB"), "these words do not stand in")

    def test_a_part_of_a_number_is_no_word(self):
        self.assert_found(checks.words, altered(WEEK, "64 KiB of memory", "4 KiB of memory"), "these words do not stand in")

    def test_row_deleted(self):
        row = next(row for row in NOW.rows if "64 KiB" in row.cells[0])
        line = NOW.texts[WEEK].splitlines()[row.line - 1]
        self.assert_found(checks.words, altered(WEEK, line + "\n", ""), 'no row takes "in at most 64 KiB of memory"')

    def test_any_row_deleted(self):
        """Where another row takes the same words the front page counts one too few."""
        counted = made.sections(NOW)
        for row in NOW.rows:
            lines = NOW.texts[row.page].splitlines(keepends=True)
            without = checks.Register({**NOW.texts, row.page: "".join(lines[: row.line - 1] + lines[row.line :])})
            self.assertNotEqual(made.sections(without), counted, row.at())

    def test_sentence_deleted(self):
        sentence = "- Outstanding, acknowledged and lost add up to the number sent.\n"
        self.assert_found(checks.words, altered(paper.SENTENCES, sentence, ""), "these words do not stand in")

    def test_sentence_added(self):
        added = altered(paper.SENTENCES, "### No. 14.", "- It also sings.\n\n### No. 14.")
        self.assert_found(checks.words, added, 'no row takes "It also sings"')

    def test_papers_word_for_word(self):
        papers = ["# Rules\n\nIt **opens**. It\ncloses.\n\n## Numbers\n\n| No. | When |\n|---|---|\n| 1 | always |\n\n- a point", "# Requests\n\n```\n0 0\n```\n"]
        text = "# The sentences\n\n## Document 01: Rules\n\n- It opens.\n  - no row: why\n- It closes.\n\n### Numbers\n\n- No.: When\n- 1: always\n- a point\n\n## Document 02: Requests\n\n- 0 0\n\n## Quoted besides\n\n- more\n"
        self.assertIsNone(paper.beside(text, papers))
        self.assertEqual(paper.beside(text.replace("always", "never"), papers), ("Numbers No.: When 1: never a point Requests", "Numbers No.: When 1: always a point Requests"))
        self.assertIsNotNone(paper.beside(text.replace("- a point\n", ""), papers))
        self.assertIsNotNone(paper.beside(text, papers[:1]))

    def test_sentence_over_several_lines(self):
        sections, faults = paper.load("## One\n\n- It opens\n  and closes.\n  - no row for \"opens\n    and\": it is plain\n\n  stray\n")
        self.assertEqual((sections[0].text, sections[0].sentences, len(sections[0].reasons)), ("It opens and closes. ", [(3, 0, 20)], 1))
        self.assertEqual(faults, [f"{paper.SENTENCES}:8: neither a sentence nor a reason"])

    def test_row_and_reason(self):
        both = altered(paper.SENTENCES, "- The floor never falls.\n", "- The floor never falls.\n  - no row: it is plain\n")
        self.assert_found(checks.words, both, "it has a row, and a reason why it has none")

    def test_reason_for_words_that_are_not_there(self):
        wrong = altered(paper.SENTENCES, "- The floor never falls.\n", '- The floor never falls.\n  - no row for "rises": it is plain\n')
        self.assertIn("is not in the sentence above", " ".join(wrong.faults))

    def test_row_on_another_page(self):
        row = next(row for row in NOW.rows if row.page == TRACKER)
        line = NOW.texts[TRACKER].splitlines(keepends=True)[row.line - 1]
        moved = checks.Register({**NOW.texts, WEEK: NOW.texts[WEEK] + line})
        self.assert_found(checks.words, moved, "these words do not stand in")

    def test_rows_out_of_order(self):
        first, second = [row.line for row in NOW.rows if row.page == WEEK][:2]
        lines = NOW.texts[WEEK].splitlines(keepends=True)
        lines[first - 1], lines[second - 1] = lines[second - 1], lines[first - 1]
        self.assert_found(checks.words, checks.Register({**NOW.texts, WEEK: "".join(lines)}), "out of the order")

    def test_other_theorem(self):
        cell = cell_of(LOSSES, "add up to the number sent")
        proof = re.search(r"proved as (\[totals-add-up\]\([^)]*\))", cell)[1]
        other = pages.place(LOSSES, "crates/losses/proofs/Counting.antt", "none-rises")
        self.assert_found(checks.proofs, altered(LOSSES, cell, cell.replace(proof, other)), "none-rises does not state TotalsAddUp")

    def test_example_is_no_proof_of_a_definition(self):
        longer = ("crates/wire/proofs/Examples.antt", "longer")
        self.assertIn("read_number", sources.type_of(*longer))
        self.assertFalse(sources.states(longer, ("crates/wire/specs/Numbers.antt", "read_number")))

    def test_statement_of_the_same_name_elsewhere(self):
        told = ("crates/tracked/proofs/After.antt", "told")
        self.assertTrue(sources.states(told, ("crates/tracked/specs/Told.antt", "Told")))
        self.assertFalse(sources.states(told, ("crates/promises/specs/Told.antt", "Told")))

    def test_statement_without_a_theorem(self):
        cell = cell_of(LOSSES, "add up to the number sent")
        stray = pages.place(LOSSES, "crates/losses/specs/Kept.antt", "Kept")
        self.assert_found(checks.statements, altered(LOSSES, cell, cell.replace("Proved: ", f"Proved: {stray}, ")), "no theorem of this row leads to Kept")

    def test_wrong_line(self):
        link = next(link for row in NOW.rows if row.page == WEEK for link in row.links() if link.named())
        self.assert_found(checks.places, altered(WEEK, f"[{link.name}]({'../../' + link.path}#L{link.line})", f"[{link.name}]({'../../' + link.path}#L{link.line + 1})"), f"{link.name} stands at line")

    def test_wrong_line_is_mended(self):
        text = NOW.texts[WEEK]
        self.assertEqual(pages.with_lines(WEEK, re.sub(r"#L\d+\)", "#L1)", text)), text)

    def test_wrong_name_and_file(self):
        self.assert_found(checks.places, altered(WEEK, "[lines_from]", "[lines_up_to]"), "does not define lines_up_to")
        self.assert_found(checks.places, altered(WEEK, "specs/Page.antt", "specs/Sheet.antt"), "does not exist")
        cell = cell_of(WEEK, "64 KiB")
        stray = "[unheard_of](../../crates/page/must-fail/wrong_answers_1.edit)"
        self.assert_found(checks.places, altered(WEEK, cell, cell + f", {stray}"), "unheard_of of crates/page/must-fail/wrong_answers_1.edit has no line, and is not there")

    def test_guard_of_something_else(self):
        cell = cell_of(TRACKER, "Prove that total equals")
        stray = pages.place(TRACKER, "crates/report/must-fail/wrong_answers_1.edit", "sum_not_checked")
        self.assert_found(checks.guards, altered(TRACKER, cell, cell + f"<br>Wrong answers: {stray}"), "sum_not_checked changes judging::adds_up, and touches nothing of this row")

    def test_function_without_a_wrong_answer(self):
        made.guards.cache_clear()
        with mock.patch.object(sources, "wrong_answers", lambda: {}):
            faults = list(checks.functions(NOW))
        made.guards.cache_clear()
        self.assertEqual(sum("no wrong answer touches it" in fault for fault in faults), len(sources.public()))

    def test_function_without_one_result(self):
        with mock.patch.object(made, "theorems", lambda function: []):
            faults = list(checks.functions(NOW))
        self.assertTrue(any("read_number is public, no theorem" in fault for fault in faults))
        self.assertFalse(any(": play is public, no theorem" in fault for fault in faults))
        self.assertTrue(any("Profile::try_from is public, no theorem" in fault for fault in faults))

    def test_function_of_a_trait(self):
        given = "crates/ecn/src/given.rt"
        self.assertEqual([sources.functions()[one] for one in sources.public() if one[0] == given], ["Mark::from", "Kind::from"])
        self.assertIn(("crates/ecn/specs/Given.antt", "kind_of"), sources.contract((given, "given::KindFromBool::from"))[0])
        text = "\nimpl From<u64> for Mark {\n    ghost from_gives = { a };\n    fn from() {}\n}\nfn after() {}\n"
        self.assertIn("a", sources.touches.trait_says(text, text.index("    fn from")))
        self.assertEqual(sources.touches.trait_says(text, text.index("fn after")), "")

    def test_wrong_answer_in_no_row(self):
        with mock.patch.object(sources, "wrong_answers", lambda: {("crates/wire/must-fail/wrong_answers_1.edit", "unheard_of"): set()}):
            self.assert_found(checks.answers, NOW, "unheard_of stands in no row")

    def test_quotation_of_nothing(self):
        self.assert_found(checks.quotations, altered(paper.SENTENCES, "acknowledged or lost.", "or lost."), '"each outstanding, acknowledged or lost" stands in no sentence')

    def test_quotation_not_closed(self):
        self.assertEqual(paper.quotations('-- it says "so\nname : A\n'), [(1, None)])

    def test_kind(self):
        self.assert_found(checks.cells, altered(WEEK, "| run and compared |", "| certain |"), "none of the four kinds")

    def test_proved_without_a_theorem(self):
        self.assert_found(checks.cells, altered(WEEK, "| run and compared |", "| proved of each call |"), "no theorem is named")

    def test_lists_are_there(self):
        self.assertEqual([one for one in checks.LISTS if one[1] not in sources.defined(one[0])], [])

    def test_over_all_calls_by_a_theorem_of_one_call(self):
        row = next(row for row in NOW.rows if row.cells[2] == "proved of each call" and row.page.endswith("01-03-numbers-on-the-wire.md"))
        line = NOW.texts[row.page].splitlines()[row.line - 1]
        more = altered(row.page, line, line.replace("| proved of each call |", "| proved over all calls |"))
        self.assert_found(checks.cells, more, "no theorem speaks of a list of calls")

    def test_long_words(self):
        row = next(row for row in NOW.rows if row.page == WEEK)
        self.assert_found(checks.cells, altered(WEEK, row.cells[1], row.cells[1] * 40), "in plain words it has")

    def test_front_page_not_made_anew(self):
        self.assert_found(checks.front, altered(WEEK, "| run and compared |", "| read only |"), made.FRONT)


if __name__ == "__main__":
    unittest.main()
