"""Callers of the library in C, in Rust and in Python say of inputs of each kind, of changed ones, and of containers of
more than 64 KB what derbox does, and Python the places that dertree does. At limits of nesting levels they say what the
worked examples do, and of bags in bags what their levels ask for. c/tests/check.c and rust/tests/check.rs also write
each normal encoding; the former into a buffer that is too short, too."""
import pickle
import unittest

from support import built, inputs
from support.cases import Comparing
from support.statuses import ENDS, checked, derbox, outcome, place, status_and_length
from support.tools import needs
from oracle.answers import is_over_attributes
from vuyhanip import der

CHECK_IN_C, CHECK_IN_RUST = built.TOP / "c/tests/check.c", built.TOP / "rust/tests/check.rs"
# How many kinds there are at least.
KINDS = 77
# What a check of a long input is to be seen to answer.
LONG_STATUSES = {0, 1, 3, 4, 5, 6}


def python_says(kind, text, limit=der.MAX_NESTING):
    """What Python is told of an input: the exit status and the line of `derbox check`, and the place; another line where a
    rewriting isn't what the check says of it."""
    library = built.library()
    try:
        verdict = library.check(kind, text, limit)
        made = library.rewrite(kind, text, limit)
    except der.Refused as refusal:
        return 1, f"refused: {refusal.reason}\n".encode(), refusal.place
    except MemoryError:
        return 1, b"refused: no memory\n", 0
    if len(made) != verdict.length or (made == text) != verdict.is_normal:
        return 4, b"a rewriting differs\n", 0
    if verdict.is_normal:
        return 0, f"normal {len(text)}\n".encode(), 0
    return 3, f"loose {len(text)} -> {len(made)}\n".encode(), verdict.loose_end


class TestChecks(Comparing):
    """What callers say of inputs, of changed ones, of long ones, and at limits of nesting levels."""

    def program_agrees(self, program, most=2**32 - 1):
        """Compares what a program says, which takes limits of nesting levels up to that one."""
        kinds = built.library().kinds()
        for kind, text in [*inputs.checked(kinds), *inputs.long()]:
            self.same(outcome(program, kind, text=text), derbox(kind, text), program.name, kind, text)
        for kind, limit, text, line in inputs.limited(kinds):
            if limit <= most:
                wanted = ENDS.get(status_and_length(line)[0], 1), f"{line}\n".encode()
                self.same(outcome(program, kind, limit, text=text), wanted, program.name, kind, limit, text)

    def test_a_caller_in_c_says_what_derbox_says(self):
        self.program_agrees(built.in_c(CHECK_IN_C))

    @needs("gcc", "clang")
    def test_a_caller_that_clang_builds_says_what_derbox_says(self):
        self.program_agrees(built.in_c(CHECK_IN_C, by="clang"))

    @needs("rustc")
    def test_a_caller_in_rust_says_what_derbox_says(self):
        """It takes a limit as a byte."""
        self.program_agrees(built.in_rust(CHECK_IN_RUST), 255)

    def test_a_caller_in_python_says_what_derbox_says(self):
        kinds = built.library().kinds()
        for kind, text in inputs.checked(kinds):
            self.same(python_says(kind, text)[:2], derbox(kind, text), kind, text)
        for kind, limit, text, line in inputs.limited(kinds):
            wanted = ENDS.get(status_and_length(line)[0], 1), f"{line}\n".encode()
            self.same(python_says(kind, text, limit)[:2], wanted, kind, limit, text)

    def test_places_are_those_of_dertree(self):
        kinds = built.library().kinds()
        for kind, text in inputs.cases(kinds, is_over_attributes):
            if kind in kinds:
                status, _ = checked(kind, text)
                self.same(python_says(kind, text)[2], place(kind, status, text), kind, text)

    def test_long_inputs_are_of_each_status(self):
        statuses = set()
        for kind, text in inputs.long():
            status, _ = checked(kind, text)
            wanted = *derbox(kind, text), place(kind, status, text)
            self.same(python_says(kind, text), wanted, kind, text)
            self.at_least(len(text), (1 << 16) + 1, "octets of a long input")
            statuses.add(status)
        self.same(statuses, LONG_STATUSES, "statuses")

    def test_kinds_are_listed(self):
        kinds = built.library().kinds()
        listed = outcome(built.in_c(CHECK_IN_C), text=b"")
        self.same(listed, (0, "".join(f"{kind}\n" for kind in kinds).encode()), "kinds")
        self.at_least(len(kinds), KINDS, "kinds")


class TestPython(Comparing):
    """What der.py itself does."""

    def setUp(self):
        super().setUp()
        self.signed = next(
            text for kind, text in inputs.with_parts() if kind == "pkcs7certificate" and len(text) % 4 == 0
        )

    def test_an_input_may_be_a_view_of_any_items(self):
        library, text = built.library(), self.signed
        for view in (bytearray(text), *(memoryview(text).cast(form) for form in "BHIc")):
            for call, *words in (
                (library.check, "pkcs7certificate"),
                (library.part, der.Part.SIGNATURE),
                (library.signers,),
            ):
                self.same(call(*words, view), call(*words, text), call.__name__, view)

    def test_an_index_past_64_bits_is_of_nothing(self):
        library, text = built.library(), self.signed
        for index in (2**64 - 1, 2**64, 2**64 + 1, 2**80):
            self.same(library.part(der.Part.CERTIFICATE, text, index), None, "part", index)
            self.same(library.signer(text, index), None, "signer", index)
            self.same(library.attributes(text, index), None, "attributes", index)

    def test_a_refusal_crosses_processes(self):
        refusal = pickle.loads(pickle.dumps(der.Refused("too deep", 7)))
        found = type(refusal), refusal.reason, refusal.place, str(refusal)
        self.same(found, (der.Refused, "too deep", 7, "too deep at 7"), "a refusal")


if __name__ == "__main__":
    unittest.main()
