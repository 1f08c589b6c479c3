"""Each part of a container that der_part_octets copies is that which is found element by element: of rows, of changed
ones, and of containers with hundreds of bags, certificates and signers; of indices up to one past the last, in steps
where there are many; in Python, in Rust (rust/examples/parts.rs), and into just the room that the part needs. Where that
is an octet less, nothing is written; and where a container is refused, so is each of its parts, at the place that a
reader of tests/oracle finds."""
import functools
import random
import unittest

from support import built, inputs
from support.containers import MANY, long_signers, refused_stores
from support.elements import integer, sequence
from support.parts import SIGNED_PARTS, STORE_PARTS, mac_parts, signed_parts, store_parts
from support.rooms import InRooms, in_room, marked
from support.statuses import LOOSE, NO_PART, NORMAL, WORDS, answered, checked, outcome, place, refusal
from support.tools import needs
from oracle import answers
from vuyhanip.der import MAC_PARTS, Part

# How many changed ones of each container are asked for their parts.
CHANGES = 12
# Each part is asked for where the last index is below ALL. Else those at both ends and around 128 and 256 are, where an
# index gets a bit more or an octet more, and one of STEP of the others.
ALL, STEP = 64, 16


def signed_found(text):
    """The parts of signed data, of which a reader of tests/oracle says whether they are that."""
    status, _, where = answers.signers(text)
    return SIGNED_PARTS, status, where, signed_parts(text) if status == NORMAL else {}


def store_found(text):
    """The parts of a store, alike."""
    status, rows, where = answers.bags_of(refusal, text)
    return STORE_PARTS, status, where, store_parts(text, rows)


def mac_found(text):
    """The parts of a store's MAC, of which derbox says whether it is a store, and dertree where it isn't."""
    status, _ = checked("rawpfx", text)
    if status > LOOSE:
        return MAC_PARTS, status, place("rawpfx", status, text), {}
    return MAC_PARTS, NORMAL, 0, mac_parts(text)[0]


@functools.lru_cache(maxsize=4096)
def found_parts(text):
    """Each group of parts; of it the status of a call and the place where it is refused, and what is found element by
    element where it isn't, by the part and the index."""
    return signed_found(text), store_found(text), mac_found(text)


def indices(found):
    """The indices of parts, up to the last."""
    return range(1 + max((index for _, index in found), default=-1))


def asked_indices(found):
    """The indices that are asked for, up to one past the last."""
    after = len(indices(found))
    if after <= ALL:
        return range(after + 1)
    chosen = {*range(0, after, STEP), *(it for end in (0, 128, 256, after) for it in range(end - 2, end + 3))}
    return sorted(it for it in chosen if 0 <= it <= after)


def rust_lines(text):
    """The lines of rust/examples/parts.rs: each part by what is found element by element, or why there is none."""
    lines = []
    for parts, status, where, found in found_parts(text):
        for part in parts:
            name = part.name.title().replace("_", "")
            if status != NORMAL:
                lines.append(f"{name} refused: {WORDS[status]} at {where}\n")
            for index in indices(found):
                if (part, index) in found:
                    lines.append(f"{name} {index} {found[part, index].hex().upper()}\n")
    return "".join(lines)


def containers():
    """Inputs in which something is missing, containers of the worked examples, and changed ones."""
    chance = random.Random(17)
    yield from (b"", sequence(integer(3)))
    for _, text in inputs.with_parts():
        yield from (text, *(inputs.changed(chance, text) for _ in range(CHANGES)))


class OfParts(InRooms):
    """A test that compares parts."""

    def same_part(self, part, index, text, status, where, wanted):
        """Compares a part in Python, and all that the call writes."""
        answer = answered(built.library().part, part, text, index)
        self.same(answer, (status, wanted, where), part.name, index, text)
        given = part.value, index, text, len(text)
        if wanted is not None:
            self.same_octets("der_part_octets", given, wanted, part.name, index, text, places=1)
        else:
            nothing = status or NO_PART, 0, where, marked(b"", len(text))
            self.same(in_room("der_part_octets", given, len(text), 2), nothing, part.name, index, "in a room", text)

    def same_parts(self, text):
        """Compares each part of an input, up to one index past the last. The hashed content and the parts of a MAC are
        the same at each index. Returns the last index, and the statuses."""
        for parts, status, where, found in found_parts(text):
            for part in parts:
                is_one = part in MAC_PARTS or part is Part.HASHED_CONTENT
                for index in asked_indices(found):
                    wanted = found.get((part, 0 if is_one else index))
                    self.same_part(part, index, text, status, where, wanted)
        groups = found_parts(text)
        return max(len(indices(found)) - 1 for *_, found in groups), {status for _, status, _, _ in groups}


class TestParts(OfParts):
    """Parts beside what is found element by element."""

    def test_each_part_is_that_found_element_by_element(self):
        for _, text in inputs.cases(built.library().kinds(), answers.is_over_attributes):
            self.same_parts(text)

    def test_each_part_of_changed_containers_is_that_found(self):
        statuses = set()
        for text in containers():
            statuses |= self.same_parts(text)[1]
        self.assertGreaterEqual(statuses, {0, 3, 4, 5})

    def test_each_of_more_parts_than_an_octet_counts_is_that_found(self):
        last = []
        for kind, text in inputs.long():
            # what is a "pfx" is a "rawpfx" too
            if kind in ("pkcs7certificate", "pfx") and checked(kind, text)[0] == NORMAL:
                last.append(self.same_parts(text)[0])
        self.at_least(max(last), 1 << 8, "the last index of a part")

    def test_each_part_of_signers_of_several_versions_is_that_found(self):
        """The signers are of versions 1 and 3, over a time stamp's content."""
        text, _ = next(long_signers())
        self.at_least(self.same_parts(text)[0], MANY - 1, "the last index of a part")

    def test_parts_of_refused_stores_are_refused_alike(self):
        """Of each of them it is known why and where it is refused."""
        for text, reason, where, is_kind in refused_stores():
            status, library = WORDS.index(reason), built.library()
            self.same(answered(library.bags, text), (status, None, where), "bags", text)
            for part in STORE_PARTS:
                self.same_part(part, 0, text, status, where, None)
            if is_kind:
                self.same(answered(library.check, "pfx", text), (status, None, where), "pfx", text)


@needs("rustc")
class TestPartsInRust(OfParts):
    """Parts that the safe call in Rust says, beside what is found element by element."""

    def same_in_rust(self, text):
        path = built.room() / "parts.input"
        path.write_bytes(text)
        answer = outcome(built.rust_example("parts"), path, text=b"")
        self.same(answer, (0, rust_lines(text).encode()), text)

    def test_rust_says_each_part_that_is_found(self):
        for text in containers():
            self.same_in_rust(text)

    def test_rust_refuses_parts_of_refused_stores(self):
        for text, *_ in refused_stores():
            self.same_in_rust(text)


if __name__ == "__main__":
    unittest.main()
