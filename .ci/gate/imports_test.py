#!/usr/bin/env python3
"""Tests what a text with some words sees of a source file: no body, no unnamed function, and all of traits."""
import os
import sys
import unittest

HERE = os.path.dirname(os.path.abspath(__file__))
sys.path.insert(0, HERE)

import imports

TEXT = """ghost use Rattle.std.specs.Prelude.{◌≡◌, length, map};

use std::mem;
use std::ops::{Deref, Range};

pub struct Pair {
    first: u8,
}

impl Pair {
    pub fn open(&self) -> u8
        ensures { result ≡ 1 }
    {
        let it = self.hidden();
        it
    }

    pub(crate) fn half_open(&self) {}

    #[cold]
    #[inline(never)]
    #[tactic(auto, using(crate::specs::Laws::hidden))]
    fn hidden(&self) -> u8
        requires { 1 < 2 }
    {
        2
    }
}

impl Len for Pair {
    fn len(&self) -> usize {
        3
    }
}

pub trait Size {
    fn size() -> usize
        ensures { result ≡ Self.size };
}

fn alone<T: Into<u8>>(
    it: T,
) -> u8
where
    T: Copy,
{
    4
}

pub const LAST: usize = 5;
"""


class Seen(unittest.TestCase):
    def setUp(self):
        self.read, imports.read = imports.read, lambda path: TEXT
        imports.parts.cache_clear()
        imports.with_functions.cache_clear()

    def tearDown(self):
        imports.read = self.read
        imports.parts.cache_clear()
        imports.with_functions.cache_clear()

    def seen(self, *words, text=TEXT):
        imports.read = lambda path: text
        imports.parts.cache_clear()
        imports.with_functions.cache_clear()
        return imports.signature("crates/near/src/pair.rt", frozenset(words))

    def names(self, *words):
        return [it for it in ("open", "half_open", "hidden", "len", "size", "alone") if f"fn {it}" in self.seen(*words)]

    def test_no_body(self):
        text = self.seen("open", "half_open", "hidden", "alone")
        for body in ("self.hidden()", "        2\n", "        3\n", "    4\n"):
            self.assertNotIn(body, text)
        self.assertIn("ensures { result ≡ 1 }", text)

    def test_functions_that_are_named_and_those_of_traits(self):
        self.assertEqual(self.names(), ["len", "size"])
        self.assertEqual(self.names("open", "alone"), ["open", "len", "size", "alone"])
        self.assertEqual(self.names("hidden", "half_open"), ["half_open", "hidden", "len", "size"])

    def test_all_that_is_no_function(self):
        text = self.seen()
        for gone in ("1 < 2", "T: Copy"):
            self.assertNotIn(gone, text)
        for kept in ("first: u8", "pub const LAST", "Self.size", "use std::mem", "impl Pair {"):
            self.assertIn(kept, text)

    def test_a_clause_counts_where_its_function_is_named(self):
        more = TEXT.replace("requires { 1 < 2 }", "requires { 1 < 3 }")
        self.assertEqual(self.seen("open", text=more), self.seen("open"))
        self.assertNotEqual(self.seen("hidden", text=more), self.seen("hidden"))

    def test_a_clause_of_a_trait_counts(self):
        self.assertNotEqual(self.seen(text=TEXT.replace("Self.size }", "Self.size + 1 }")), self.seen())

    def test_a_name_that_is_brought_for_others(self):
        text = self.seen()
        self.assertIn("Prelude.{◌≡◌};", text)
        self.assertIn("use std::ops::{};", text)
        more = TEXT.replace("map}", "map, take}").replace("impl Pair {", "impl Pair {\n    pub fn cut(&self) -> Range<u8>\n        ensures { length (take 1) }\n    {}\n")
        self.assertEqual(self.seen("open", text=more), self.seen("open"))
        self.assertIn("{◌≡◌, length, take}", self.seen("cut", text=more))
        self.assertIn("{Range}", self.seen("cut", text=more))

    def test_not_where_it_is_inlined_nor_what_it_is_proved_with(self):
        bare = TEXT.replace("    #[cold]\n    #[inline(never)]\n    #[tactic(auto, using(crate::specs::Laws::hidden))]\n", "")
        self.assertEqual(self.seen("hidden", text=bare), self.seen("hidden"))

    def test_a_function_more_that_is_not_named(self):
        more = TEXT.replace("fn alone<", "pub fn new(it: u8) -> u8\n    ensures { result ≡ it }\n{\n    it\n}\n\nfn alone<")
        more = more.replace("    #[cold]\n", "    pub fn newer(&self) -> u8 {\n        6\n    }\n\n    #[cold]\n")
        self.assertEqual(self.seen("open", text=more), self.seen("open"))
        self.assertNotEqual(self.seen("newer", text=more), self.seen("newer"))


if __name__ == "__main__":
    unittest.main()
