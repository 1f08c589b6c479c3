"""Where der_bag_rows says that a PKCS #12 store has its bags, tests/oracle/bags.py finds them: of rows, of changed ones,
of stores with hundreds of bags, with equal ones, and of refused ones, of which it is known why and where. They are
compared in rooms for one more, for just them and for one less, where nothing is written."""
import random
import unittest

from support import built, inputs
from support.containers import (
    NULL, attribute, bag, bare_bag, bmp_string, content_info, refused_stores, secret_bag, store_around, store_of,
)
from support.elements import octet_string, sequence
from support.rooms import BAG_ROW, InRooms
from support.statuses import NORMAL, WORDS, refusal
from oracle import answers
from vuyhanip import der

# How many changed ones of each store are asked for their bags.
CHANGES = 40


class TestBagRows(InRooms):
    """The rows of bags."""

    def same_bags(self, text):
        """Compares the rows of bags in several rooms. Returns the status, and how many there are."""
        answer = answers.bags_of(refusal, text)
        self.same_rows("der_bag_rows", (text, len(text)), answer, BAG_ROW, text)
        return answer[0], len(answer[1])

    def test_rows_of_bags_are_those_of_the_other_reader(self):
        """Bags of a "pfx" aren't refused."""
        chance, count, statuses = random.Random(16), 0, set()
        for kind, text in inputs.with_parts():
            if kind in inputs.STORES:
                status, found = self.same_bags(text)
                if kind == "pfx":
                    self.same(status, NORMAL, kind, text)
                count += found
                statuses |= {self.same_bags(inputs.changed(chance, text))[0] for _ in range(CHANGES)}
        self.at_least(count, 20, "bags")
        self.assertGreaterEqual(statuses, {0, 3, 4, 5})

    def test_rows_of_long_stores_are_those_of_the_other_reader(self):
        counts = [self.same_bags(text)[1] for kind, text in inputs.long() if kind == "rawpfx"]
        self.at_least(max(counts), 1 << 8, "bags")

    def test_equal_bags_are_each_in_its_own_place(self):
        """A name, a key identifier and what a bag holds are of the same octets, in equal bags of two levels."""
        same = b"\0A" * 8
        name = attribute("friendlyName", bmp_string(same))
        held = content_info("X.509 certificate", octet_string(same))
        it = bag("certificate bag", held, name, attribute("localKeyId", octet_string(same)))
        within = bare_bag("safe contents bag", sequence(it, it))
        text = store_of(it, within, it, within)
        self.assertEqual(self.same_bags(text), (NORMAL, 8))
        places = {(row[4], row[6], row[8], row[10]) for row in answers.bags_of(refusal, text)[1]}
        self.assertEqual(len(places), 8)

    def test_a_bag_of_an_unknown_type_is_another(self):
        text = store_around(sequence(bare_bag("1.2.3.4", NULL), secret_bag()))
        self.assertEqual(self.same_bags(text), (NORMAL, 2))
        kinds = [bag.kind for bag in built.library().bags(text)]
        self.assertEqual(kinds, [der.BagKind.OTHER, der.BagKind.SECRET])

    def test_refused_stores_are_refused_where_it_is_known(self):
        for text, reason, where, _ in refused_stores():
            self.same(answers.bags_of(refusal, text), (WORDS.index(reason), [], where), "tests/oracle/bags.py", text)
            self.same_bags(text)


if __name__ == "__main__":
    unittest.main()
