"""The reader of elements of tests/support and the readers of tests/oracle, which share nothing, find the same in the
worked examples that are accepted: the same elements, down into the constructed ones; in signed data the same parts of
each signer; and in PKCS #12 stores the same bags."""
import unittest

from support import rows
from support.cases import Comparing
from support.elements import at, elements, inside
from support.inputs import SIGNED, STORES
from support.oids import oid
from support.parts import content, in_set
from oracle import answers, bags, signed

# How many elements, signers and bags the rows have at least.
ELEMENTS, SIGNERS, BAGS = 10_000, 20, 30
CONSTRUCTED = 0x20
BAG_ATTRIBUTES = "friendlyName", "localKeyId"


def accepted(types=None):
    """The rows that are normal, of some types."""
    return [row for row in rows.examples() if row.said.startswith("normal") and (types is None or row.type in types)]


def by_oracle(text, place, end):
    """The elements from one place to another as tests/oracle reads them; None where they aren't elements."""
    try:
        return signed.Elements(text, place, end).each(signed.Elements.any)
    except signed.Refused:
        return None


class TestElements(Comparing):
    """Elements of the worked examples."""

    def same_elements(self, text):
        """Compares the elements of a text, and those in each constructed one. Returns how many there are, and in how
        many are octets that aren't elements: what is in some fields isn't looked into."""
        count, others, asked = 0, 0, [(0, len(text))]
        while asked:
            place, end = asked.pop()
            found = by_oracle(text, place, end)
            if found is None:
                others += 1
                continue
            self.same(list(map(tuple, elements(text, place, end))), list(map(tuple, found)), "from", place, "in", text)
            asked += [(inner.start, inner.end) for inner in found if inner.tag & CONSTRUCTED]
            count += len(found)
        return count, others

    def test_elements_are_the_same(self):
        counts = []
        for row in accepted():
            text = row.octets()
            self.same(by_oracle(text, 0, len(text)) is None, False, row.type, "whether it isn't elements", text)
            counts.append(self.same_elements(text))
        self.at_least(sum(count for count, _ in counts), ELEMENTS, "elements")
        self.assertLess(sum(others for _, others in counts), len(counts) // 100)


def digest_place(text, attributes):
    """Where the value of messageDigest is among signed attributes."""
    for attribute in inside(text, attributes):
        kind, values = inside(text, attribute)
        if kind.of(text) == oid("messageDigest"):
            return inside(text, values)[0].contents_place()
    return signed.NOTHING


def signer_places(text):
    """Where each signer has its parts, by the reader of tests/support, and the octets of its serial number."""
    data = content(text)
    _, *explicit = inside(text, data[2])
    octets_place = inside(text, explicit[0])[0].contents_place() if explicit else signed.NOTHING
    for signer in inside(text, data[-1]):
        fields = inside(text, signer)
        over = [field for field in fields[3:4] if field.tag == 0xA0]
        algorithm, signature = fields[3 + len(over) : 5 + len(over)]
        serial_number = inside(text, fields[1])[-1].of(text) if fields[1].tag == 0x30 else b""
        yield serial_number, {
            "over_attributes": len(over),
            "has_content": len(explicit),
            "covered": over[0].place() if over else octets_place,
            "digest": digest_place(text, over[0]) if over else signed.NOTHING,
            "content": octets_place,
            "digest_algorithm": fields[2].place(),
            "signature_algorithm": algorithm.place(),
            "signature": signature.contents_place(),
        }


class TestSigners(Comparing):
    """Signers of the worked examples."""

    def same_signer(self, text, row, serial_number, places):
        self.same({name: getattr(row, name) for name in places}, places, text)
        if row.has_certificate:
            certificates = [found.place() for found in in_set(text, content(text)[3:], 0xA0)]
            self.assertIn(row.certificate, certificates)
            start, size = row.certificate
            self.assertIn(serial_number, text[start : start + size])

    def test_parts_of_signers_are_the_same(self):
        count = 0
        for example in accepted(SIGNED):
            text = example.octets()
            status, found, _ = answers.signers(text)
            self.same(status, 0, "the status of", text)
            places = list(signer_places(text))
            self.same(len(places), len(found), "signers of", text)
            for row, (serial_number, wanted) in zip(found, places):
                if row.status == 0:
                    self.same_signer(text, row, serial_number, wanted)
                    count += 1
        self.at_least(count, SIGNERS, "signers")


def bag_places(text, bag, level):
    """The level of a bag, where it is, and where its name and its key identifier are, and the same of the bags in it, by
    the reader of tests/support."""
    kind, explicit, *sets = inside(text, bag)
    [held] = inside(text, explicit)
    values = {}
    for attribute in (attribute for attributes in sets for attribute in inside(text, attributes)):
        attribute_type, attribute_values = inside(text, attribute)
        values[attribute_type.of(text)] = inside(text, attribute_values)[0].contents_place()
    named = [values.get(oid(name), signed.NOTHING) for name in BAG_ATTRIBUTES]
    yield level, bag.place(), *named
    if kind.of(text) == oid("safe contents bag"):
        for inner in inside(text, held):
            yield from bag_places(text, inner, level + 1)


def store_places(text):
    """The same of all bags of a store that aren't encrypted, and where its other contents are."""
    safe = inside(text, at(text, 0))[1]
    if inside(text, safe)[0].of(text) != oid("data"):
        yield 0, safe.place(), signed.NOTHING, signed.NOTHING
        return
    for whole in inside(text, octet_string_of(text, safe)):
        for info in inside(text, at(text, whole.at)):
            yield from info_places(text, info)


def octet_string_of(text, info):
    """The OCTET STRING under [0] in a ContentInfo."""
    return inside(text, inside(text, info)[1])[0]


def info_places(text, info):
    """The same of a ContentInfo."""
    if inside(text, info)[0].of(text) != oid("data"):
        yield 0, info.place(), signed.NOTHING, signed.NOTHING
        return
    [contents] = inside(text, octet_string_of(text, info))
    for bag in inside(text, contents):
        yield from bag_places(text, bag, 0)


class TestBags(Comparing):
    """Bags of the worked examples."""

    def test_bags_are_at_the_same_places(self):
        count = 0
        for example in accepted(STORES):
            text = example.octets()
            # what is in a bag or in its attributes isn't looked into by each of these types
            status, found, _ = answers.answered([], bags.rows, lambda kind, octets: None, text)
            if status == 0:
                places = [(row[1], row[4:6], row[8:10], row[10:12]) for row in found]
                self.same(places, list(store_places(text)), text)
                count += len(found)
        self.at_least(count, BAGS, "bags")


if __name__ == "__main__":
    unittest.main()
