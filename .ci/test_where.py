#!/usr/bin/env python3
"""Tries tools/where: over a small tree, that --check misses a test and a definition that are taken away, and that each
answer says what was put there; over this one, that names of each sort have answers.
Usage: python3 .ci/test_where.py. Needs python3, from 3.9 on."""
import contextlib
import io
import sys
import tempfile
import unittest
from pathlib import Path

TOP = Path(__file__).resolve().parent.parent
sys.path.insert(0, str(TOP / "tools"))
from loaded import script

TWOS = """//! Twos.

ghost use Rattle.low.specs.Twos.{two};

/// A number.
pub struct Two {
    pub half: u8,
}

impl Sequence for Two {
    ghost asn1 = { two };
}

/// The number.
pub fn two(half: u8) -> Two
    ensures { result ≡ two half }
{
    Two { half }
}
"""
DER_C = """//! For C.

use half_calls::halves;

#[unsafe(no_mangle)]
pub extern "C" fn der_two(half: u8) -> u32
    ensures { result ≡ 2 }
{
    halves::der_two(half)
}
"""
CALLED = """//! Halves.

use low::two;

/// The number.
pub fn der_two(half: u8) -> u32
    ensures { result ≡ 2 }
{
    two(half).half as u32
}
"""
STATUS = """//! The status of a call.

/// It is.
pub const FINE: u32 = 0;
"""
KINDS = """//! Kinds.

pub enum SomeKind {
    Two,
}

macro_rules! some_kinds {
    ($by:ident) => {
        $crate::table! { $by SomeKind
            Two = "two",
        }
    };
}
"""
HEADER = """/* Twos. */
#define DER_MOST 2

typedef enum der_status {
  DER_FINE = 0 /* it is */
} der_status;

uint32_t der_two(uint8_t half);

static inline der_status der_twice(uint8_t half) {
  return (der_status)der_two(half);
}

static inline const char *der_status_word(der_status status) {
  static const char *const words[] = {"fine"};
  return words[status];
}
"""
CALLER = """#include "der.h"

int main(void) {
  return der_twice(DER_MOST) == DER_FINE ? 0 : *der_status_word(DER_FINE);
}
"""
TREE = {
    "crates.txt": "call_values:\nhalf_calls: low\nder_c staticlib: low call_values half_calls\n",
    "crates/x509_containers/src/lib.rt": "//! All.\n\nmod kinds;\n\npub use kinds::some::SomeKind;\npub use low::Two;\n"
                                         "pub use low::two;\n",
    "crates/x509_containers/src/kinds.rt": "//! Kinds.\n\npub mod some;\n",
    "crates/x509_containers/src/kinds/some.rt": KINDS,
    "crates/low/src/lib.rt": TWOS,
    "crates/low/specs/Twos.antt": "-- Two ::= INTEGER\nabbrev pub two : Contents\ntwo = INTEGER\n",
    "crates/low/must-fail/two_is_three.edit": "file: src/lib.rt\nold:     Two { half }\nnew:     Two { half: 3 }\n",
    "crates/der_c/src/lib.rt": DER_C,
    "crates/half_calls/src/halves.rt": CALLED,
    "crates/half_calls/must-fail/two_is_one.edit": "file: src/halves.rt\nold: .half as\nnew: .half as u8 as\n",
    "crates/call_values/src/status.rt": STATUS,
    "crates/example_low/src/main.rt": "//! Writes one.\n\nuse low::two;\n\nfn main() {\n    let it = written(two(1));\n"
                                      "    show(it);\n}\n",
    "crates/example_rows/stdin": "# twos\ntwo of 1 headers | 02 01 02 | normal 3 | = Two { half: 1 }\n",
    "c/der.h": HEADER,
    "c/tests/twice.c": CALLER,
}
# Where crates/low has what the answers name.
LINE = {"Two": 6, "asn1": 11, "two": 15, "ensures": 16}


class Small(unittest.TestCase):
    def setUp(self):
        folder = tempfile.TemporaryDirectory()
        self.addCleanup(folder.cleanup)
        self.top = Path(folder.name)
        for name, text in TREE.items():
            self.put(name, text)

    def put(self, name, text):
        path = self.top / name
        path.parent.mkdir(parents=True, exist_ok=True)
        path.write_text(text, "utf-8")

    def change(self, name, old, new):
        self.assertIn(old, TREE[name])
        self.put(name, TREE[name].replace(old, new))

    def where(self):
        """tools/where over the small tree, which has read nothing of it yet."""
        made = script(TOP / "tools/where")
        made.ROOT = made.API.ROOT = self.top
        return made

    def faults(self):
        where = self.where()
        return where.faults([it for same in where.entries().values() for it in same if it.is_public])

    def places(self, name, heading):
        where = self.where()
        return [f"{at.file}:{at.line}" for at in where.answer(heading, where.named(name))]

    def test_all_have_a_definition_and_a_test(self):
        self.assertEqual(self.faults(), [])

    def test_a_call_without_a_test(self):
        twos = "/// It again.\npub fn twos() -> u8 {\n    4\n}\n\n"
        self.change("crates/low/src/lib.rt", "/// The number.", f"{twos}/// The number.")
        self.change("crates/x509_containers/src/lib.rt", "low::two;", "low::two;\npub use low::twos;")
        self.assertEqual(self.faults(), ["twos, call of low: no test"])
        self.assertEqual(self.places("twos", "definition"), ["crates/low/src/lib.rt:15"])

    def test_a_test_that_is_taken_away(self):
        self.change("crates/example_low/src/main.rt", "two(1)", "1")
        self.assertEqual(self.faults(), ["two, call of low: no test"])

    def test_a_mention_that_is_no_call(self):
        self.change("crates/example_low/src/main.rt", "written(two(1));", "written(1, \"two(1)\"); // two(1)")
        self.assertEqual(self.faults(), ["two, call of low: no test"])

    def test_rows_that_are_taken_away(self):
        self.put("crates/example_rows/stdin", "# twos\n")
        lacking = {fault.partition(",")[0] for fault in self.faults()}
        self.assertEqual(lacking, {"two", "Two", "Two::half", "SomeKind", "SomeKind::Two"})

    def test_a_call_of_the_header_that_no_test_makes(self):
        self.change("c/tests/twice.c", "der_twice(DER_MOST)", "DER_MOST")
        wanted = [f"{name}, call of der.h of der_c: no test" for name in ("der_two", "der_twice")]
        self.assertEqual(self.faults(), wanted)

    def test_a_call_that_is_tested_through_the_package_for_python(self):
        self.change("c/tests/twice.c", "der_twice(DER_MOST)", "DER_MOST")
        double = "class Library:\n    def double(self):\n        return self._library.der_two(1)\n"
        self.put("python/vuyhanip/der.py", double)
        self.put("tests/test_twos.py", "class Twos:\n    def test_it(self):\n        self.equal(library.double(), 2)\n")
        self.assertEqual(self.places("der_two", "tests"), ["tests/test_twos.py:3"])

    def test_a_status_that_no_test_names(self):
        self.change("c/tests/twice.c", "DER_FINE", "0")
        wanted = ["der_status::DER_FINE, status of der.h", "der_status, type of der.h"]
        self.assertEqual(self.faults(), [f"{name} of der_c: no test" for name in wanted])

    def test_a_declaration_without_a_definition(self):
        self.change("crates/der_c/src/lib.rt", "fn der_two(", "fn der_2(")
        self.assertEqual(self.faults(), ["der_two, call of der.h of der_c: no definition"])

    def test_each_answer_of_a_call(self):
        low = "crates/low/src/lib.rt"
        self.assertEqual(self.places("low::two", "definition"), [f"{low}:{LINE['two']}"])
        clause = [f"{low}:{LINE['ensures']}", "crates/low/specs/Twos.antt:2"]
        self.assertEqual(self.places("low::two", "clause"), clause)
        self.assertEqual(self.places("low::two", "must-fail edits"), ["crates/low/must-fail/two_is_three.edit:2"])
        self.assertEqual(self.places("low::two", "tests"), ["crates/example_low/src/main.rt:6"])

    def test_each_answer_of_a_type(self):
        low, row = "crates/low/src/lib.rt", "crates/example_rows/stdin:2"
        self.assertEqual(self.places("low::Two", "definition"), [f"{low}:{LINE['Two']}"])
        self.assertEqual(self.places("low::Two", "clause"), [f"{low}:{LINE['asn1']}", "crates/low/specs/Twos.antt:2"])
        self.assertEqual((self.places("low::Two", "rows"), self.places("Two::half", "tests")), ([row], [row]))

    def test_a_kind_and_a_call_of_the_header(self):
        table, of = "crates/x509_containers/src/kinds/some.rt:10", f"crates/low/src/lib.rt:{LINE['Two']}"
        self.assertEqual(self.places("x509_containers::two", "definition"), [table, of])
        exported, called = "crates/der_c/src/lib.rt", "crates/half_calls/src/halves.rt"
        self.assertEqual(self.places("der_twice", "definition"), ["c/der.h:10", f"{exported}:6", f"{called}:6"])
        self.assertEqual(self.places("der_twice", "clause"), [f"{exported}:7", f"{called}:7"])
        edits = ["crates/half_calls/must-fail/two_is_one.edit:2"]
        self.assertEqual(self.places("der_two", "must-fail edits"), edits)
        self.assertEqual(self.places("DER_FINE", "definition"), ["c/der.h:5", "crates/call_values/src/status.rt:4"])
        self.assertEqual(self.places("der_two", "tests"), ["c/tests/twice.c:4"])


class Whole(unittest.TestCase):
    @classmethod
    def setUpClass(cls):
        cls.where = script(TOP / "tools/where")

    def said(self, *words):
        """The status, and what is printed."""
        out = io.StringIO()
        with contextlib.redirect_stdout(out), self.assertRaises(SystemExit) as ended:
            self.where.main(list(words))
        return ended.exception.code, out.getvalue()

    def test_names_have_answers(self):
        asked = {"from_bytes": "clause, must-fail edits", "Pfx": "clause, rows", "der_signer_rows": "clause",
                 "pkcs7certificate": "clause, rows", "mac_octets": "clause, must-fail edits"}
        for name, headings in asked.items():
            with self.subTest(name):
                for heading in ("definition", "tests", *headings.split(", ")):
                    self.assertTrue(self.where.answer(heading, self.where.named(name)), heading)
                status, text = self.said(name)
                self.assertFalse(status)
                self.assertRegex(text, rf"^{name}: (?s:.*)\n  definition(?s:.*)\n  tests")

    def test_a_name_of_several_crates(self):
        found = [at.file for at in self.where.answer("definition", self.where.named("mac_octets"))]
        self.assertEqual(len(set(found)), len(found))
        self.assertGreater(len(found), 1)
        self.assertEqual(len(self.where.named("Pfx::mac_octets")), 1)

    def test_a_name_that_is_unknown(self):
        status, text = self.said("from_byte", "Pfx::from_bytes")
        self.assertTrue(status)
        self.assertRegex(text, r"from_byte: no name .*\bfrom_bytes\b")
        self.assertIn("Pfx::from_bytes: no name", text)


if __name__ == "__main__":
    sys.dont_write_bytecode = True
    unittest.main()
