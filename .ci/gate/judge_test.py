#!/usr/bin/env python3
"""Tests the judge on recorded outputs of the prover (recorded/: the status, then the lines of a check that it reads)."""
import os
import sys
import unittest

HERE = os.path.dirname(os.path.abspath(__file__))
sys.path.insert(0, HERE)

import judge


class Edit:
    """Returns an edit of a function, with the goals that it names."""

    def __init__(self, of, *goals, code=True):
        self.of, self.goals, self.code = of, goals, code

    def is_of_code(self):
        return self.code


def recorded(name):
    with open(f"{HERE}/recorded/{name}.txt", encoding="utf-8") as it:
        status, _, said = it.read().partition("\n")
    return int(status.removeprefix("status ")), said


def in_group(name, of, *goals):
    return judge.verdict(Edit(of, *goals), recorded(name)[1])


def alone(name, edit, text=""):
    return judge.verdict_alone(edit, *recorded(name), lambda _: text)


class Judge(unittest.TestCase):
    def test_a_goal_that_search_left(self):
        self.assertEqual(in_group("group", "slice::SliceIndex::get"), (True, "refused: returns-clause-row"))

    def test_a_goal_that_an_answer_does_not_show(self):
        self.assertEqual(in_group("group", "slice::Slice+ref+slice+T::as_slice"), (True, "refused: slice_bounds-result-end"))
        self.assertEqual(in_group("group", "slice::SliceOrderedRow::same_row"), (True, "refused: returns"))

    def test_a_goal_that_is_named(self):
        self.assertTrue(in_group("group", "slice::SliceIndex::get", "returns-clause-row")[0])

    def test_refused_for_another_goal_than_the_named(self):
        well, text = in_group("group", "slice::SliceIndex::get", "returns-clause-other")
        self.assertFalse(well)
        self.assertEqual(text, "NOT REFUSED FOR returns-clause-other, but refused: returns-clause-row")

    def test_what_calls_a_refused_function_is_not_refused_itself(self):
        self.assertEqual(in_group("group", "slice::SlicePartialEq::eq"), (False, "NOT REFUSED"))

    def test_a_hole_is_no_refusal(self):
        self.assertEqual(in_group("group", "ordered::same_rows_of"), (False, "NOT REFUSED"))
        self.assertEqual(in_group("group", "slice::SliceLen::len"), (False, "NOT REFUSED"))

    def test_a_function_that_is_not_named_is_not_refused(self):
        self.assertEqual(in_group("group", "slice::Slice"), (False, "NOT REFUSED"))

    def test_a_name_that_is_gone(self):
        refused = (False, "REFUSED FOR A NAME ALONE: returns-then-count-len")
        self.assertEqual(in_group("name_gone", "ordered::same_rows_of"), refused)
        self.assertEqual(alone("name_gone", Edit("ordered::same_rows_of")), refused)

    def test_a_goal_of_functions_that_call_each_other_is_its_own_function_s(self):
        self.assertEqual(in_group("in_turn", "row::write_row"), (True, "refused: write_row-returns-in_ok-push_quoted-in-Field"))
        self.assertEqual(in_group("in_turn", "row::write_items"), (False, "NOT REFUSED"))

    def test_still_proved(self):
        self.assertEqual(in_group("still_proved_by_contract", "slice::SliceLen::len"), (False, "NOT REFUSED"))
        self.assertEqual(alone("still_proved", Edit("slice::SliceLen::len")), (False, "NOT REFUSED: its function is still proved"))

    def test_text_that_does_not_compile_is_a_bad_edit(self):
        for name in ("no_such_field", "no_syntax"):
            self.assertFalse(in_group(name, "slice::SliceLen::len")[0])
            well, text = alone(name, Edit("slice::SliceLen::len"))
            self.assertFalse(well)
            self.assertTrue(text.startswith("BAD EDIT: it did not reach the prover: src/slice.rt:133"), text)

    def test_a_check_that_ended_early_refuses_nothing(self):
        status, said = recorded("group")
        said = said[: said.index("only=")]
        for of in ("slice::SliceIndex::get", "slice::SliceOrderedRow::same_row"):
            self.assertFalse(judge.verdict(Edit(of), said)[0])
            self.assertTrue(judge.verdict_alone(Edit(of), status, said, lambda _: "")[1].startswith("BAD EDIT"))
        self.assertFalse(judge.verdict(Edit("slice::SliceIndex::get"), "")[0])

    def test_a_definition_by_a_lemma_that_fails(self):
        edit = Edit("tuple::Tuple2Truncate::truncate", code=False)
        text = "pub pair_two : (a b : Format) → TwoParts a b"
        self.assertEqual(alone("definition", edit, text), (True, "refused: pair_two of specs/TupleLaws.antt"))

    def test_a_definition_that_is_refused_itself_shows_nothing(self):
        edit = Edit("tuple::Tuple2Truncate::truncate", code=False)
        self.assertFalse(alone("definition", edit, "pub record pair_two")[0])


if __name__ == "__main__":
    unittest.main()
