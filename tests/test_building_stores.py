"""What der_build_bags, der_build_safe and der_build_store write from parts beside the writer of tests/oracle, in just
the room that they need and in less: bags of each kind, with each part and without it, attributes in any order, names
past U+FFFF, bags in bags up to 64 levels, 10,000 bags; contents and MACs of each kind; whatever is where a call doesn't
look. What is written is read as what was given. Of bags, contents and parts that can't be written, one or several, the
first is told, and nothing is written. In Python the same is built. der_text_utf16 writes what Python encodes, and
nothing of what is no UTF-8."""
import itertools
import pickle
import random
import unittest

from support import built, elements, given, given_stores, inputs
from support.containers import (
    NULL, attribute, bag, bare_bag, bmp_string, content_info, mac_data, nested, store, store_around,
)
from support.elements import element, explicit, integer, octet_string, parts, sequence, set_of
from support.given import NO_ELEMENTS, NUMBERS, SIZES
from support.given_stores import ANYTHING, CERTIFICATE, CRL, KEY, OTHER, SAFE_CONTENTS, SECRET, SHROUDED_KEY
from support.given_stores import KINDS, NAMES, NAMES_OF_KINDS, RANGES, RANGES_OF_STORE, beside, changed
from support.oids import ARCS, contents, octets, oid, spelt
from support.rooms import InRooms, in_room, marked
from support.statuses import INVALID, NORMAL, NO_ROOM, answered, refusal
from support.stores import (
    CERTIFICATE_OF, FURTHER, KEY_ID, KEY_INFO, LONG, NAME, NAMED, NO_ATTRIBUTES, OF_OTHER_TYPES, SECRET_OF, WITH_ID,
    bags_by_hand, in_other_ways, in_python, made_in_python, not_written, other, plain, read_bags,
)
from oracle import stores
from vuyhanip import build, der
from vuyhanip.der import BadBag, BadContent, BadStore, BagKind, BagPart, GivenBag, GivenContent, GivenMac, StorePart

BAGS, SAFE, STORE, UTF16 = "der_build_bags", "der_build_safe", "der_build_store", "der_text_utf16"
# How often sets of each kind are made up, how many bags there are in a long list, and the room of what is refused.
ROUNDS, MANY, ROOM = 3, 10_000, 64
# Types of the attributes that a bag has by itself.
ITS_OWN = oid("friendlyName"), oid("localKeyId")


def flat(rows):
    """All numbers of some rows, one row after another."""
    return [number for row in rows for number in row.numbers()]


class OfStores(InRooms):
    """A test that compares what is built."""

    def same_built(self, call, words, wanted, places, *what):
        """Compares what a call writes into just the room that it needs, and into less; or, where the other writer
        writes nothing, which places it tells. Returns what is wanted."""
        if isinstance(wanted, bytes):
            self.same_octets(call, words, wanted, *what, places=places)
        else:
            said = in_room(call, words, ROOM, 1 + places)
            self.same(said, (INVALID, 0, *wanted, marked(b"", ROOM)), call, *what)
        return wanted

    def same_bags(self, text, rows, *what):
        """The same of bags from rows over an input. Told is the index of the first that the other writer doesn't write,
        and the number of its first part that keeps it from that."""
        made, wrong = stores.bags_text(text, rows)
        wanted = made if made is not None else (wrong[0][0], wrong[0][1][0])
        return self.same_built(BAGS, (text, len(text), flat(rows), len(rows)), wanted, 2, *what)

    def same_sets(self, sets, chance, *what):
        """The same of sets of parts, laid out in an input."""
        text, fields = given_stores.laid_out(chance, sets)
        rows = [stores.Bag(**it) for it in fields]
        return self.same_bags(text, rows, *what, sets[0] if len(sets) == 1 else len(sets))

    def same_safe(self, text, rows, *what):
        """The same of an AuthenticatedSafe, of which the index of a content is told."""
        made, wrong = stores.safe_text(text, rows)
        wanted = made if made is not None else (wrong[0],)
        return self.same_built(SAFE, (text, len(text), flat(rows), len(rows)), wanted, 1, *what)

    def same_contents(self, sets, chance, *what):
        text, fields = given_stores.laid_out(chance, sets)
        return self.same_safe(text, [stores.Content(**it) for it in fields], *what, sets[0] if sets else sets)

    def same_store(self, text, row, *what):
        """The same of a store, of which the number of a part is told."""
        made, wrong = stores.store_text(text, row)
        wanted = made if made is not None else (wrong[0],)
        return self.same_built(STORE, (text, len(text), row.numbers()), wanted, 1, *what)

    def same_store_of(self, its, chance, *what):
        text, [fields] = given_stores.laid_out(chance, [its])
        return self.same_store(text, stores.Store(**fields), *what, its)


# By hand


class TestByHand(OfStores):
    """What is known octet by octet."""

    def test_bags_are_those_that_are_made_by_hand(self):
        chance, found = random.Random(1), list(bags_by_hand())
        for its, wanted in found:
            self.same(self.same_sets([its], chance), sequence(wanted), "by hand", its)
        self.same(self.same_sets([its for its, _ in found], chance), sequence(*(it for _, it in found)), "all of them")
        self.at_least(len(found), 40, "bags")

    def test_no_bags_are_an_empty_sequence(self):
        for text in (b"", b"any octets"):
            self.same(self.same_bags(text, [], text), bytes.fromhex("3000"), "no bags", text)

    def test_names_are_of_any_characters_and_of_none(self):
        chance, names = random.Random(2), {}
        for name in (*NAMES, "\uFFFF", "\U00010000", "\U0010FFFF", "\uD7FF\uE000"):
            its = name.encode("utf-16-be")
            wanted = bag("key bag", NULL, attribute("friendlyName", bmp_string(its)))
            text = self.same_sets([plain(KEY, NULL, friendly_name=its)], chance)
            self.same(text, sequence(wanted), "named", name)
            [names[name]] = [it.friendly_name for it in built.library().bags(store_around(text))]
            self.same(refusal("safecontents", text) is None, max(name, default="") <= "\uFFFF", "as a kind", name)
        self.same(list(names.values()), list(names), "names that are read")

    def test_a_name_and_an_identifier_among_further_attributes_are_not_written(self):
        chance, those = random.Random(3), list(not_written())
        for it in those:
            for further in ([it], [it, it], [FURTHER[0], it], [it, FURTHER[0]]):
                wanted = [attribute for attribute in further if attribute != it]
                its = plain(KEY, NULL, attributes=set_of(*further))
                bare = bag("key bag", NULL, *wanted) if wanted else bare_bag("key bag", NULL)
                self.same(self.same_sets([its], chance), sequence(bare), "without", it)
                its = plain(KEY, NULL, friendly_name=NAME, local_key_id=KEY_ID, attributes=set_of(*further))
                full = bag("key bag", NULL, *wanted, WITH_ID, NAMED)
                self.same(self.same_sets([its], chance), sequence(full), "with others than", it)
        its = plain(KEY, NULL, attributes=set_of(*those))
        self.same(self.same_sets([its], chance), sequence(bare_bag("key bag", NULL)), "without any")

    def test_bags_are_in_64_bags_at_most(self):
        """Also where other bags are beside them, and where the last has something else in it."""
        chance, refused = random.Random(4), (0, stores.BAG_PARTS["value"])
        for levels in range(68):
            deep, those = nested(levels), list(range(levels))
            beside = sequence(bare_bag("key bag", NULL), *parts(deep), bare_bag("1.2.3", NULL))
            filled = sequence(bare_bag("key bag", NULL))
            for _ in range(levels):
                filled = sequence(bare_bag("safe contents bag", filled))
            for text, its_levels in ((deep, those), (beside, [0, *those, 0]), (filled, [*those, levels])):
                said = self.same_sets([plain(SAFE_CONTENTS, text)], chance, levels)
                if levels <= 63:
                    self.same_levels(store_around(said), [0, *(level + 1 for level in its_levels)], levels)
                else:
                    self.same(said, refused, "as a value", levels)
                said = self.same_contents([{"is_data": 1, "octets": text}], chance, levels)
                if levels <= 64:
                    self.same_levels(store("data", octet_string(said)), its_levels, levels)
                else:
                    self.same(said, (0,), "as data", levels)

    def same_levels(self, text, wanted, *what):
        """Compares the levels of the bags of a store."""
        self.same([row.level for row in built.library().bags(text)], wanted, "levels that are read", *what)

    def test_bags_that_were_built_are_put_in_bags_up_to_64_levels(self):
        """All that is built so, of bags that are read, is read too in a store around it."""
        chance, text = random.Random(5), sequence()
        for levels in range(1, 65):
            text = self.same_sets([plain(SAFE_CONTENTS, text, friendly_name=NAME)], chance, levels)
            safe = self.same_contents([{"is_data": 1, "octets": text}], chance, levels)
            self.same_levels(store("data", octet_string(safe)), list(range(levels)), levels)
        said = self.same_sets([plain(SAFE_CONTENTS, text)], chance, 65)
        self.same(said, (0, stores.BAG_PARTS["value"]), "65 levels")

    def test_what_bags_in_a_bag_hold_and_their_attributes_are_not_looked_at(self):
        """Nor those of bags that are data: so der_bag_rows may refuse what is built around them."""
        chance, ill = random.Random(6), attribute("friendlyName", NULL)
        for inner, is_read in (
            (bare_bag("shrouded key bag", NULL), False), (bare_bag("certificate bag", NULL), False),
            (bare_bag("list bag", integer(1)), False), (bag("key bag", NULL, NAMED, NAMED), False),
            (bag("safe contents bag", sequence(), ill), False), (bag("key bag", NULL, WITH_ID, WITH_ID), False),
            (bare_bag("secret bag", NULL), True), (bag("key bag", NULL, LONG, FURTHER[0]), True),
            (bag("key bag", NULL), True),
        ):
            text = self.same_sets([plain(SAFE_CONTENTS, sequence(inner))], chance)
            self.same(text, sequence(bare_bag("safe contents bag", sequence(inner))), "with", inner)
            for octets_given in (text, sequence(inner)):
                safe = self.same_contents([{"is_data": 1, "octets": octets_given}], chance)
                said = answered(built.library().bags, store("data", octet_string(safe)))[0]
                self.same(said, NORMAL if is_read else INVALID, "what der_bag_rows says of", inner)

    def test_encrypted_keys_are_taken_by_their_algorithms(self):
        """With a verdict on each by hand, as the kind "encryptedkeybag" has it."""
        chance, right, wrong = random.Random(10), given_stores.right_keys(), list(given_stores.wrong_keys())
        for key in right:
            text = self.same_sets([plain(SHROUDED_KEY, key)], chance)
            self.same(text, sequence(bare_bag("shrouded key bag", key)), "taken", key)
            self.same(refusal("encryptedkeybag", key), None, "as a kind", key)
        for key in wrong:
            said = self.same_sets([plain(SHROUDED_KEY, key)], chance)
            self.same(said, (0, stores.BAG_PARTS["value"]), "told", key)
            self.same(refusal("encryptedkeybag", key) is None, False, "as a kind", key)
        self.at_least(min(len(right), len(wrong)), 100, "keys that are taken, and keys that are told")

    def test_many_bags_are_written(self):
        chance, sets = random.Random(7), []
        for number in range(MANY):
            its = chance.choice(((KEY, NULL), (CERTIFICATE, sequence()), (SHROUDED_KEY, KEY_INFO), (SECRET, SECRET_OF)))
            name = f"bag {number}".encode("utf-16-be")
            sets.append(plain(*its, friendly_name=name, local_key_id=bytes([number % 256])))
        text = self.same_sets(sets, chance)
        rows = built.library().bags(store_around(text))
        self.same([row.friendly_name for row in rows], [f"bag {number}" for number in range(MANY)], "names in order")
        self.same([row.kind.value for row in rows], [its["kind"] for its in sets], "kinds")
        sets[-1] = {**sets[-1], "friendly_name": b"\0"}
        said = self.same_sets(sets, chance)
        self.same(said, (MANY - 1, stores.BAG_PARTS["friendly_name"]), "the last of them")

    def test_contents_are_those_that_are_made_by_hand(self):
        chance = random.Random(8)
        bags = sequence(bag("key bag", NULL, NAMED))
        encrypted = content_info("encrypted data", NULL)
        both = [{"is_data": 1, "octets": bags}, {"is_data": 0, "octets": encrypted}]
        data = content_info("data", octet_string(bags))
        self.same(self.same_contents(both, chance), sequence(data, encrypted), "both")
        self.same(self.same_contents(both[::-1], chance), sequence(encrypted, data), "the other way round")
        self.same(self.same_contents(3 * both[:1], chance), sequence(data, data, data), "the same thrice")
        empty = content_info("data", octet_string(sequence()))
        self.same(self.same_contents([{"is_data": 1, "octets": sequence()}], chance), sequence(empty), "no bags")
        bare = sequence(oid("1.2.3"))
        self.same(self.same_contents([{"is_data": 0, "octets": bare}], chance), sequence(bare), "without content")
        for text in (b"", b"any octets"):
            self.same(self.same_safe(text, []), bytes.fromhex("3000"), "no contents", text)

    def test_stores_are_those_that_are_made_by_hand(self):
        chance = random.Random(9)
        safe = sequence(content_info("data", octet_string(sequence())))
        its = {"has_mac": 1, "safe": safe, "digest": 32 * b"\1", "salt": 8 * b"\2"}
        sha256 = {"digest_algorithm": octets("SHA-256"), "has_digest_parameters": 0}
        bare = store("data", octet_string(safe))
        self.same(self.same_store_of({"has_mac": 0, "safe": safe}, chance), bare, "without a MAC")
        for count in NUMBERS:
            mac = mac_data(32 * b"\1", 8 * b"\2", count)
            if count == 1:
                mac = sequence(*parts(mac)[:2])
            text = self.same_store_of({**its, **sha256, "iterations": count}, chance)
            self.same(text, store("data", octet_string(safe), 3, mac), "with a count of", count)
        # parameters that are given are written of an algorithm that isn't known, and NULL of others, and without any
        for kind in (*given_stores.DIGESTS, given_stores.SHA3_256, "1.2.3"):
            for there in given.there_or_not("digest_parameters", integer(1)):
                parameters = NULL if kind in given_stores.DIGESTS else there.get("digest_parameters", NULL)
                mac = mac_data(32 * b"\1", 8 * b"\2", 2048, sequence(oid(kind), parameters))
                given_too = {"digest_algorithm": contents(kind), **there, "iterations": 2048}
                text = self.same_store_of({**its, **given_too}, chance)
                self.same(text, store("data", octet_string(safe), 3, mac), "with parameters", kind, there)


# Made-up parts


class TestBags(OfStores):
    """Made-up bags of each kind."""

    def read_back(self, its, found):
        """Compares a bag that was read with what was given."""
        kind, identifier, value, attributes = found
        self.same((kind, value), (its["kind"], its["value"]), "kind and value", its)
        if kind == OTHER:
            self.same(identifier, its["identifier"], "the object identifier", its)
        those = parts(its["attributes"]) if its["has_attributes"] else []
        wanted = [it for it in those if elements.part(it, 0) not in ITS_OWN]
        wanted += [attribute("friendlyName", bmp_string(its["friendly_name"]))] if its["has_friendly_name"] else []
        wanted += [attribute("localKeyId", octet_string(its["local_key_id"]))] if its["has_local_key_id"] else []
        self.same(attributes, sorted(wanted) if wanted else None, "attributes", its)

    def test_parts_are_written_as_they_are_given_and_read_back(self):
        chance, counts = random.Random(11), dict.fromkeys(KINDS, 0)
        for _ in range(ROUNDS):
            sets = list(given_stores.bag_sets(chance))
            for its in sets:
                [found] = read_bags(self.same_sets([its], chance))
                self.read_back(its, found)
                counts[its["kind"]] += 1
            chance.shuffle(sets)
            found = list(read_bags(self.same_sets(sets, chance)))
            self.same(len(found), len(sets), "bags")
            for its, it in zip(sets, found):
                self.read_back(its, it)
        for kind, count in counts.items():
            self.at_least(count, 8 * ROUNDS, f"bags of kind {kind}")

    def test_what_is_written_is_normal_and_listed_as_it_was_given(self):
        """In bags in a bag nothing is looked at, so they are none here that der_bag_rows refuses."""
        chance, count = random.Random(12), 0
        for its in given_stores.bag_sets(chance):
            if its["kind"] == SAFE_CONTENTS:
                its = {**its, "value": nested(chance.randrange(4))}
            text = store_around(self.same_sets([its], chance))
            verdict = built.library().check("rawpfx", text)
            self.same((verdict.is_normal, verdict.length), (True, len(text)), "normal", its)
            row, *_ = built.library().bags(text)
            name = its["friendly_name"].decode("utf-16-be") if its["has_friendly_name"] else None
            key_id = its["local_key_id"] if its["has_local_key_id"] else None
            found = row.kind.value, row.level, row.value, row.friendly_name, row.local_key_id
            self.same(found, (its["kind"], 0, its["value"], name, key_id), "listed", its)
            count += 1
        self.at_least(count, 8 * len(KINDS), "bags")

    def test_octets_of_any_length_are_written(self):
        """Of a part and of all around it, on both sides of each length that takes an octet more."""
        chance = random.Random(13)
        for size in (*range(0, 270), *range(65536 - 90, 65536 + 2), 70000):
            for its in (
                plain(CERTIFICATE, octet_string(bytes(size))), plain(KEY, NULL, local_key_id=bytes(size)),
                plain(KEY, NULL, attributes=set_of(attribute("1.2.3", octet_string(bytes(size))))),
            ):
                self.same_sets([its], chance, size)
            if size % 2 == 0:
                self.same_sets([plain(KEY, NULL, friendly_name=size // 2 * b"\0a")], chance, size)

    def test_what_is_not_looked_at_may_be_anything(self):
        """Also the object identifier of a bag whose kind has one."""
        chance, names = random.Random(14), stores.Bag()._asdict()
        for its in given_stores.bag_sets(chance):
            text, [fields] = given_stores.laid_out(chance, [its])
            wanted = self.same_bags(text, [stores.Bag(**fields)], its)
            for among in ([1], [2**64 - 1], *4 * [ANYTHING]):
                row = stores.Bag(**beside(chance, names, fields, among))
                self.same(self.same_bags(text, [row], row), wanted, "beside anything", row)

    def test_parts_may_be_in_one_another_and_several_be_the_same_octets(self):
        chance = random.Random(15)
        # each part is in the identifier's octets, or has them in it
        name = b"\x00\x2A\x00\x03"
        held = element(0x06, name)
        whole = set_of(sequence(oid("1.2.3"), set_of(held)))
        places = {"value": held, "friendly_name": name, "local_key_id": name[1:], "attributes": whole}
        fields = {part: (whole.index(it), len(it)) for part, it in places.items()}
        flags = dict.fromkeys(("has_friendly_name", "has_local_key_id", "has_attributes"), 1)
        for kind in (KEY, CERTIFICATE, CRL):
            its = {"kind": kind, **flags}
            text = self.same_bags(whole, [stores.Bag(**its, **fields)], kind)
            [found] = read_bags(text)
            self.read_back({**its, **places}, found)
            rows = 5 * [stores.Bag(**its, **fields)]
            self.same(len(list(read_bags(self.same_bags(whole, rows, kind)))), 5, "bags of the same octets")
        inner = element(0x06, b"\x2A\3")
        text = self.same_bags(inner, [stores.Bag(identifier=(2, 2), value=(0, 4))])
        self.same(text, sequence(sequence(inner, explicit(0, inner))), "an identifier in a value")
        self.same_sets([other("1.2.3", oid("1.2.3"))], chance)

    def test_empty_parts_may_be_anywhere_up_to_the_end(self):
        chance = random.Random(16)
        for name in ("friendly_name", "local_key_id"):
            text, [fields] = given_stores.laid_out(chance, [plain(KEY, sequence(), **{name: b""})])
            wanted = self.same_bags(text, [stores.Bag(**fields)], name)
            for at in (0, 1, len(text) - 1, len(text)):
                row = stores.Bag(**{**fields, name: (at, 0)})
                self.same(self.same_bags(text, [row], at), wanted, "an empty part at", at)

    def test_changed_bags_are_written_or_told_as_by_the_other_writer(self):
        chance, counts = random.Random(17), dict.fromkeys(("built", *stores.BAG_PARTS.values()), 0)
        for its in given_stores.bag_sets(chance):
            sets = [its, *chance.sample(list(given_stores.bag_sets(chance)), 2)]
            text, fields = given_stores.laid_out(chance, sets)
            for _ in range(40):
                index = chance.randrange(len(sets))
                rows = [changed(chance, it, len(text)) if nth == index else it for nth, it in enumerate(fields)]
                its_text = inputs.changed(chance, text) if chance.random() < 0.2 else text
                said = self.same_bags(its_text, [stores.Bag(**it) for it in rows], its)
                counts["built" if isinstance(said, bytes) else said[1]] += 1
        for kind, count in counts.items():
            self.at_least(count, 5, f"{kind}, of what is built or of the numbers of parts")

    def test_changed_keys_are_written_or_told_as_by_the_other_writer(self):
        chance, counts = random.Random(18), {"built": 0, "told": 0}
        for key in given_stores.right_keys():
            for _ in range(20):
                said = self.same_sets([plain(SHROUDED_KEY, inputs.changed(chance, key))], chance)
                counts["built" if isinstance(said, bytes) else "told"] += 1
        for kind, count in counts.items():
            self.at_least(count, 500, kind)


class TestContents(OfStores):
    """Made-up contents, and stores."""

    def test_contents_are_written_as_they_are_given_and_read_back(self):
        chance, counts = random.Random(21), {0: 0, 1: 0}
        for _ in range(100):
            sets = [given_stores.some_content(chance) for _ in range(chance.randrange(5))]
            text = self.same_contents(sets, chance)
            found = parts(text)
            self.same(len(found), len(sets), "contents")
            for its, it in zip(sets, found):
                data = elements.contents(elements.part(it, 1, 0)) if its["is_data"] else it
                self.same(data, its["octets"], "a content", its)
                counts[its["is_data"]] += 1
            whole = store("data", octet_string(text))
            self.same(built.library().check("rawpfx", whole).is_normal, True, "a store with", text)
        for kind, count in counts.items():
            self.at_least(count, 50, f"contents with is_data {kind}")

    def test_what_is_not_looked_at_in_a_store_may_be_anything(self):
        chance, names = random.Random(22), stores.Store()._asdict()
        for its in (it for _ in range(ROUNDS) for it in given_stores.store_sets(chance)):
            text, [fields] = given_stores.laid_out(chance, [its])
            wanted = self.same_store(text, stores.Store(**fields), its)
            for among in ([1], [2**64 - 1], *4 * [ANYTHING]):
                row = stores.Store(**beside(chance, names, fields, among))
                self.same(self.same_store(text, row, row), wanted, "beside anything", row)

    def test_stores_are_written_as_they_are_given_and_read_back(self):
        """A MAC is found again as it was given, also its count."""
        chance, count = random.Random(23), 0
        for its in (it for _ in range(4 * ROUNDS) for it in given_stores.store_sets(chance)):
            text = self.same_store_of(its, chance)
            verdict = built.library().check("rawpfx", text)
            self.same((verdict.is_normal, verdict.length), (True, len(text)), "normal", its)
            mac = built.library().mac(text)
            self.same(mac is None, not its["has_mac"], "no MAC", its)
            place = built.library().mac_range(text)
            self.same(text[place.start : place.stop], its["safe"], "what a MAC covers", its)
            if mac is not None:
                wanted = der.dotted(its["digest_algorithm"]), its["digest"], its["salt"], its["iterations"], its["safe"]
                self.same(tuple(mac)[1:], wanted, "the MAC", its)
                count += 1
        self.at_least(count, 100, "MACs")

    def test_no_count_is_cut(self):
        chance = random.Random(24)
        its = {"has_mac": 1, "has_digest_parameters": 0, "digest_algorithm": octets("SHA-256"), "safe": sequence()}
        for number in NUMBERS:
            for size in SIZES:
                more = {"digest": bytes(size), "salt": bytes(size), "iterations": number}
                mac = built.library().mac(self.same_store_of({**its, **more}, chance))
                found = mac.iterations, mac.digest, mac.salt
                self.same(found, (number, bytes(size), bytes(size)), "the MAC", number, size)

    def test_octets_of_any_length_are_written(self):
        chance = random.Random(25)
        for size in (*range(0, 270), *range(65536 - 60, 65536 + 2), 70000):
            held = sequence(oid("1.2.3"), explicit(0, octet_string(bytes(size))))
            bags = sequence(bare_bag("key bag", octet_string(bytes(size))))
            for its in ({"is_data": 0, "octets": held}, {"is_data": 1, "octets": bags}):
                safe = self.same_contents([its], chance, size)
                self.same_store_of({"has_mac": 0, "safe": safe}, chance, size)

    def test_changed_contents_and_stores_are_written_or_told_as_by_the_other_writer(self):
        chance, counts = random.Random(26), dict.fromkeys(("built", "told", *stores.STORE_PARTS.values()), 0)
        for _ in range(40):
            sets = [given_stores.some_content(chance) for _ in range(3)]
            text, fields = given_stores.laid_out(chance, sets)
            for _ in range(10):
                rows = [stores.Content(**changed(chance, it, len(text))) for it in fields]
                its_text = inputs.changed(chance, text) if chance.random() < 0.2 else text
                said = self.same_safe(its_text, rows, sets)
                counts["built" if isinstance(said, bytes) else "told"] += 1
        for its in (it for _ in range(ROUNDS) for it in given_stores.store_sets(chance)):
            text, [fields] = given_stores.laid_out(chance, [its])
            for _ in range(40):
                row = stores.Store(**changed(chance, fields, len(text)))
                its_text = inputs.changed(chance, text) if chance.random() < 0.2 else text
                said = self.same_store(its_text, row, its)
                counts["built" if isinstance(said, bytes) else said[0]] += 1
        for kind, count in counts.items():
            self.at_least(count, 5, f"{kind}, of what is built, what is told, or of the numbers of parts")


# Parts that are wrong


class TestRefused(OfStores):
    """Parts one of which is wrong, or several."""

    def told(self, call, words, places, *what):
        """Asks that places are told, and nothing is written, whether there is room or not."""
        for room in (0, ROOM, 4096):
            said = in_room(call, words, room, 1 + len(places))
            self.same(said, (INVALID, 0, *places, marked(b"", room)), call, *what, "in room for", room)

    def told_of(self, index, part, text, rows, *what):
        """The same of bags: the index of one, and a part of it by its name."""
        places = index, stores.BAG_PARTS[part]
        self.told(BAGS, (text, len(text), flat(rows), len(rows)), places, part, *what)
        _, wrong = stores.bags_text(text, rows)
        self.same((wrong[0][0], wrong[0][1][0]), places, "the other writer", part, *what)

    RIGHT = list(given_stores.bag_sets(random.Random(30)))

    def bags_around(self, chance, its):
        """Sets of parts with one among some that are right, and its index."""
        before, after = (chance.sample(self.RIGHT, chance.randrange(3)) for _ in range(2))
        return [*before, its, *after], len(before)

    def test_each_part_that_is_wrong_is_told_with_its_bag(self):
        chance, counts = random.Random(31), {}
        for its in given_stores.bag_sets(chance):
            for part, broken in given_stores.broken_bags(chance, its):
                sets, index = self.bags_around(chance, broken)
                text, fields = given_stores.laid_out(chance, sets)
                self.told_of(index, part, text, [stores.Bag(**it) for it in fields], broken)
                counts[part, its["kind"]] = counts.get((part, its["kind"]), 0) + 1
        wanted = {(part, kind) for part in ("kind", "value", "friendly_name", "attributes") for kind in KINDS}
        self.same(set(counts), wanted | {("identifier", OTHER)}, "what was broken")

    def test_a_range_that_is_not_in_the_input_is_told(self):
        chance, names = random.Random(32), set()
        for its in given_stores.bag_sets(chance):
            sets, index = self.bags_around(chance, its)
            text, fields = given_stores.laid_out(chance, sets)
            for name in (name for name in RANGES if name in its and (its.get(f"has_{name}", 1))):
                for wrong in given.wrong_ranges(text, fields[index][name]):
                    rows = [stores.Bag(**{**it, name: wrong} if nth == index else it) for nth, it in enumerate(fields)]
                    self.told_of(index, name, text, rows, wrong)
                names.add(name)
        self.same(names, set(RANGES), "parts that are ranges")

    def test_of_several_parts_the_first_is_told(self):
        """In the order of der.h: a part that comes before is looked at first, whatever is in the others."""
        chance, pairs = random.Random(33), set()
        names = ("kind", *RANGES)
        for _ in range(ROUNDS):
            for its in given_stores.bag_sets(chance):
                text, [fields] = given_stores.laid_out(chance, [its])
                flags = dict.fromkeys(("has_friendly_name", "has_local_key_id", "has_attributes"), 1)
                there = names if its["kind"] == OTHER else [name for name in names if name != "identifier"]
                for first, second in itertools.combinations(there, 2):
                    wrong = {name: len(its) + 10 if name == "kind" else (len(text) + 1, 1) for name in (first, second)}
                    # what is between may be anything that is right
                    right = {name: (len(text), 0) for name in ("friendly_name", "local_key_id") if name not in fields}
                    right |= {"has_attributes": 0} if "attributes" not in (first, second, *fields) else {}
                    row = stores.Bag(**{**flags, **fields, **flags, **right, **wrong})
                    self.told_of(0, first, text, [row], second)
                    pairs.add((first, second))
        self.same(pairs, set(itertools.combinations(names, 2)), "pairs of parts")

    def test_of_several_bags_the_first_is_told(self):
        """Whichever part of a later one is wrong, and how many."""
        chance, count = random.Random(34), 0
        for its in given_stores.bag_sets(chance):
            broken = list(given_stores.broken_bags(chance, its))
            (part, first), *others = chance.sample(broken, 4)
            sets, index = self.bags_around(chance, first)
            sets += [it for _, it in others]
            text, fields = given_stores.laid_out(chance, sets)
            self.told_of(index, part, text, [stores.Bag(**it) for it in fields], "before others")
            count += 1
        self.at_least(count, 50, "lists")

    def test_each_content_that_is_wrong_is_told(self):
        chance, counts = random.Random(35), {0: 0, 1: 0}
        for wrong in given_stores.wrong_contents():
            before, after = ([given_stores.some_content(chance) for _ in range(chance.randrange(3))] for _ in range(2))
            for sets in ([*before, wrong, *after], [*before, wrong, *after, wrong]):
                text, fields = given_stores.laid_out(chance, sets)
                rows = [stores.Content(**it) for it in fields]
                self.told(SAFE, (text, len(text), flat(rows), len(rows)), (len(before),), wrong)
                self.same(stores.safe_text(text, rows)[1][0], len(before), "the other writer", wrong)
            counts[wrong["is_data"]] += 1
        for kind, count in counts.items():
            self.at_least(count, 25, f"contents with is_data {kind}")

    def test_a_range_of_a_content_that_is_not_in_the_input_is_told(self):
        chance, count = random.Random(36), 0
        for _ in range(20):
            sets = [given_stores.some_content(chance) for _ in range(3)]
            text, fields = given_stores.laid_out(chance, sets)
            for index, its in enumerate(fields):
                for wrong in given.wrong_ranges(text, its["octets"]):
                    rows = [stores.Content(**it) for it in fields]
                    rows[index] = rows[index]._replace(octets=wrong)
                    self.told(SAFE, (text, len(text), flat(rows), len(rows)), (index,), wrong)
                    count += 1
        self.at_least(count, 500, "ranges")

    def test_bags_as_another_content_and_another_content_as_bags_are_told(self):
        chance = random.Random(37)
        bags = sequence(), sequence(bare_bag("key bag", NULL))
        for is_data, held in (*((0, it) for it in bags), (1, content_info("1.2.3", NULL))):
            text, [fields] = given_stores.laid_out(chance, [{"is_data": is_data, "octets": held}])
            self.told(SAFE, (text, len(text), stores.Content(**fields).numbers(), 1), (0,), is_data, held)

    def told_of_store(self, part, text, fields, *what):
        row, number = stores.Store(**fields), stores.STORE_PARTS[part]
        self.told(STORE, (text, len(text), row.numbers()), (number,), part, *what)
        self.same(stores.store_text(text, row)[1][:1], [number], "the other writer", part, *what)

    def test_each_part_of_a_store_that_is_wrong_is_told(self):
        chance, names = random.Random(38), set()
        for its in given_stores.store_sets(chance):
            for part, broken in given_stores.broken_stores(its):
                text, [fields] = given_stores.laid_out(chance, [broken])
                self.told_of_store(part, text, fields, broken)
                names.add(part)
            text, [fields] = given_stores.laid_out(chance, [its])
            for name in (name for name in RANGES_OF_STORE if name in its):
                if its["has_mac"] or name == "safe":
                    for wrong in given.wrong_ranges(text, fields[name]):
                        self.told_of_store(name, text, {**fields, name: wrong}, wrong)
                    names.add(name)
        self.same(names, set(stores.STORE_PARTS), "parts")

    def test_of_several_parts_of_a_store_the_first_is_told(self):
        chance, pairs = random.Random(39), set()
        for its in given_stores.store_sets(chance):
            its = {"digest_parameters": NULL, **its, "has_digest_parameters": 1}
            text, [fields] = given_stores.laid_out(chance, [its])
            for first, second in itertools.combinations(stores.OF_STORE, 2) if its["has_mac"] else ():
                wrong = {name: 2**32 if name == "iterations" else (len(text) + 1, 1) for name in (first, second)}
                self.told_of_store(first, text, {**fields, **wrong}, second)
                pairs.add((first, second))
        self.same(pairs, set(itertools.combinations(stores.OF_STORE, 2)), "pairs of parts")

    def test_nothing_is_found_in_an_empty_input(self):
        """But octets of which there may be none."""
        for kind in KINDS:
            self.told_of(0, "identifier" if kind == OTHER else "value", b"", [stores.Bag(kind=kind)], "of nothing")
        for is_data in (0, 1):
            self.told(SAFE, (b"", 0, [is_data, 0, 0], 1), (0,), is_data, "of nothing")
        for has_mac in (0, 1):
            self.told_of_store("safe", b"", {"has_mac": has_mac}, "of nothing")
        text = sequence()
        self.told_of_store("digest_algorithm", text, {"has_mac": 1, "safe": (0, 2)}, "of nothing")


class TestRooms(OfStores):
    """Rooms of many sizes."""

    def in_each_room(self, call, words, wanted, places, *what):
        """Asks that octets are written where they have room, and nothing beyond them. Without any room the call says
        how much it needs."""
        size, zeros = len(wanted), places * [0]
        for room in (0, 1, size // 2, size - 1, size, size + 1, size + 200):
            fits = room >= size
            answer = NORMAL if fits else NO_ROOM, size, *zeros, marked(wanted if fits else b"", room)
            self.same(in_room(call, words, room, 1 + places), answer, call, *what, "in room for", room)

    def test_bags_are_written_where_they_have_room_and_nothing_beyond_them(self):
        chance, sets = random.Random(41), list(given_stores.bag_sets(random.Random(42)))
        for those in (*([it] for it in sets), sets, []):
            text, fields = given_stores.laid_out(chance, those)
            rows = [stores.Bag(**it) for it in fields]
            wanted = self.same_bags(text, rows, len(those))
            self.in_each_room(BAGS, (text, len(text), flat(rows), len(rows)), wanted, 2, len(those))

    def test_contents_are_written_where_they_have_room_and_nothing_beyond_them(self):
        chance = random.Random(43)
        for count in (0, *20 * [1], *10 * [5]):
            text, fields = given_stores.laid_out(chance, [given_stores.some_content(chance) for _ in range(count)])
            rows = [stores.Content(**it) for it in fields]
            wanted = self.same_safe(text, rows, count)
            self.in_each_room(SAFE, (text, len(text), flat(rows), len(rows)), wanted, 1, count)

    def test_a_store_is_written_where_it_has_room_and_nothing_beyond_it(self):
        chance = random.Random(44)
        for its in given_stores.store_sets(chance):
            text, [fields] = given_stores.laid_out(chance, [its])
            row = stores.Store(**fields)
            wanted = self.same_store(text, row, its)
            self.in_each_room(STORE, (text, len(text), row.numbers()), wanted, 1, its)

    def test_what_was_built_before_is_built_again(self):
        """A call leaves nothing behind: refused, in too little room, and built, in any order."""
        chance = random.Random(45)
        sets = [list(given_stores.bag_sets(chance))[nth] for nth in (0, 20, 40)]
        text, fields = given_stores.laid_out(chance, sets)
        rows = [stores.Bag(**it) for it in fields]
        wrong = [rows[0], rows[1]._replace(value=(len(text), 1)), rows[2]]
        for _ in range(3):
            self.same_bags(text, rows, "all")
            self.same_bags(text, wrong, "with one that is wrong")


# Texts

# Characters on both sides of what takes an octet or a unit more.
EDGES = "\0\x01\x7F\x80\u07FF\u0800\uD7FF\uE000\uFFFD\uFFFE\uFFFF\U00010000\U0001F600\U000FFFFF\U00100000\U0010FFFF"
TEXTS = ["", "a", "my key", "ключ", "日本", "ß" * 300, EDGES, *EDGES]
TEXTS += [text for it in EDGES for text in (f"a{it}b", 2 * it)]
# Octets that are no UTF-8: those that no character has, continuations by themselves, characters cut short, or in more
# octets than they take, surrogates, alone and in pairs, and what is past U+10FFFF.
NOT_UTF8 = [
    b"\xFF", b"\xFE", b"\xC0", b"\xC1\x81", b"\xF5\x80\x80\x80", b"\xF8\x88\x80\x80\x80", b"\xFC\x84\x80\x80\x80\x80",
    b"\x80", b"\xBF", b"\x80\x80", b"\xC3", b"\xC3a", b"\xC3\xC3", b"\xE2\x82", b"\xE2", b"\xE2\x82a", b"\xE2a\x82",
    b"\xF0\x9F\x98", b"\xF0\x9F", b"\xF0", b"\xF0\x9F\x98a", b"\xF0\x9Fa\x98",
    b"\xC0\x80", b"\xC1\xBF", b"\xE0\x80\x80", b"\xE0\x9F\xBF", b"\xF0\x80\x80\x80", b"\xF0\x8F\xBF\xBF",
    b"\xED\xA0\x80", b"\xED\xAF\xBF", b"\xED\xB0\x80", b"\xED\xBF\xBF", b"\xED\xA0\xBD\xED\xB8\x80",
    b"\xF4\x90\x80\x80", b"\xF4\xBF\xBF\xBF", b"\xF7\xBF\xBF\xBF", "é".encode("latin-1"), "é".encode("utf-16-be"),
]


class TestTexts(InRooms):
    """Texts in UTF-16."""

    def same_both_ways(self, text):
        """Compares the UTF-16 of a text with what Python encodes and the other writer writes, and the text of that."""
        its, wanted = text.encode(), text.encode("utf-16-be")
        self.same(stores.utf16(its), wanted, "the other writer, of", text)
        self.same_octets(UTF16, (its, len(its)), wanted, text)
        self.same_octets("der_utf16_text", (wanted, len(wanted)), its, text)

    def refused(self, text):
        self.same(stores.utf16(text), None, "the other writer, of", text)
        for room in (0, 2 * len(text), ROOM):
            self.same(in_room(UTF16, (text, len(text)), room), (INVALID, 0, marked(b"", room)), UTF16, text, room)

    def test_texts_are_written_as_python_encodes_them_and_read_back(self):
        chance = random.Random(51)
        for text in TEXTS:
            self.same_both_ways(text)
        for _ in range(500):
            every = [*range(0xD800), *range(0xE000, 0x110000, 257)]
            self.same_both_ways("".join(map(chr, chance.choices(every, k=chance.randrange(40)))))

    def test_what_is_no_utf_8_is_refused(self):
        """Wherever it is in a text."""
        for text in NOT_UTF8:
            self.refused(text)
            for before, after in (("a", ""), ("", "a"), ("日", "ß"), ("\U0001F600", "\U0001F600"), ("\0", "\0")):
                self.refused(before.encode() + text + after.encode())

    def test_two_octets_are_a_text_or_none(self):
        """Each two that there are, and each before two that may follow."""
        counts = {NORMAL: 0, INVALID: 0}
        for first, second in itertools.product(range(256), repeat=2):
            for more in (b"", b"\x80\x80"):
                text = bytes([first, second]) + more
                wanted = stores.utf16(text)
                status = INVALID if wanted is None else NORMAL
                answer = status, len(wanted or b""), marked(wanted or b"", 16)
                self.same(in_room(UTF16, (text, len(text)), 16), answer, UTF16, text)
                counts[status] += 1
        for status, count in counts.items():
            self.at_least(count, 10_000, f"texts with {status}")

    def test_changed_texts_are_written_or_refused(self):
        chance, counts = random.Random(52), {NORMAL: 0, INVALID: 0}
        for _ in range(2000):
            text = inputs.changed(chance, "".join(chance.choices(EDGES + "aß日", k=6)).encode())
            wanted = stores.utf16(text)
            status = INVALID if wanted is None else NORMAL
            answer = status, len(wanted or b""), marked(wanted or b"", ROOM)
            self.same(in_room(UTF16, (text, len(text)), ROOM), answer, UTF16, text)
            counts[status] += 1
        for status, count in counts.items():
            self.at_least(count, 100, f"texts with {status}")

    def test_a_text_ends_where_its_length_says(self):
        """Whatever follows it."""
        text = EDGES.encode()
        for size in range(len(text) + 1):
            wanted = stores.utf16(text[:size])
            answer = INVALID if wanted is None else NORMAL, len(wanted or b""), marked(wanted or b"", ROOM)
            self.same(in_room(UTF16, (text, size), ROOM), answer, UTF16, size)

    def test_it_is_written_where_it_has_room_and_nothing_beyond_it(self):
        for text in (*TEXTS, 70_000 * "a\U0001F600"):
            its, wanted = text.encode(), text.encode("utf-16-be")
            size = len(wanted)
            for room in {0, 1, size // 2, max(size - 1, 0), size, size + 1, size + 9}:
                fits = room >= size
                answer = NORMAL if fits else NO_ROOM, size, marked(wanted if fits else b"", room)
                self.same(in_room(UTF16, (its, len(its)), room), answer, UTF16, text, "in room for", room)

    def test_python_makes_the_same(self):
        built.use_shared()
        for text in TEXTS:
            self.same(built.library().text_utf16(text), text.encode("utf-16-be"), "in Python", text)
            self.same(build.utf16(text), text.encode("utf-16-be"), "by build, of", text)
        for text in ("\uD800", "a\uDFFFb", "\uD83D\uDE00"):
            with self.assertRaises(der.Refused) as refused:
                built.library().text_utf16(text)
            self.same((refused.exception.reason, refused.exception.place), ("invalid", 0), "surrogates")


# Python


class TestPython(OfStores):
    """What Python builds, and what it says of what can't be written."""

    def setUp(self):
        super().setUp()
        built.use_shared()

    def same_in_python(self, bags, wanted, *what):
        self.same(made_in_python(built.library().build_bags, bags), wanted, "built in Python", *what)

    def test_bags_are_written_as_they_are_given(self):
        """An object identifier is text there, so that one with a number that 64 bits don't hold is none."""
        chance, counts, right = random.Random(61), {True: 0, False: 0}, []
        for its in (it for _ in range(ROUNDS) for it in given_stores.bag_sets(chance)):
            text, bag_given = self.same_sets([its], chance), in_python(its)
            is_told = its["kind"] == OTHER and spelt(bag_given.identifier.encode()) is None
            self.same_in_python([bag_given], (0, BagPart.IDENTIFIER) if is_told else text, its)
            counts[is_told] += 1
            if not is_told:
                right.append(its)
                for value in in_other_ways(its["value"]):
                    self.same_in_python([bag_given._replace(value=value)], text, "of other octets", its)
                if its["has_local_key_id"]:
                    for key_id in in_other_ways(its["local_key_id"]):
                        self.same_in_python([bag_given._replace(local_key_id=key_id)], text, "of other octets", its)
                others = [next(in_other_ways(it)) for it in bag_given.attributes]
                self.same_in_python(iter([bag_given._replace(attributes=others)]), text, "of other octets", its)
        for is_told, count in counts.items():
            self.at_least(count, 3, f"bags of which an identifier is told: {is_told}")
        text = self.same_sets(right, chance)
        self.same_in_python(map(in_python, right), text, len(right), "bags")
        self.same(build.bags(map(in_python, right)), text, "by build")
        self.same_in_python([], sequence(), "no bags")

    def test_a_bag_and_its_part_that_are_wrong_are_told(self):
        chance, found = random.Random(62), set()
        right = in_python(plain(KEY, NULL))
        for its in given_stores.bag_sets(chance):
            bag_given = in_python({**its, **({"identifier": contents("1.2.3")} if its["kind"] == OTHER else {})})
            wrong = [("value", it) for it in (*given_stores.wrong_values(its["kind"]), None)]
            wrong += [("friendly_name", it) for it in ("\uD800", "a\uDFFFb", "\uD83D\uDE00")]
            wrong += [("attributes", it) for it in NO_ATTRIBUTES]
            wrong += [("kind", it) for it in (BagKind.UNREAD, BagKind.OTHER_CERTIFICATE, BagKind.OTHER_CRL)]
            if its["kind"] == OTHER:
                names = [ARCS[name] for name in NAMES_OF_KINDS.values()]
                wrong += [("identifier", it) for it in (None, "", "1", "1.2 ", "1.2.\uD800", f"1.2.{2**64}", *names)]
            for name, it in wrong:
                bags = [right, bag_given._replace(**{name: it}), right._replace(value=b"")]
                self.same_in_python(bags, (1, BagPart[name.upper()]), name, it)
                found.add(name)
        self.same(found, {"kind", "identifier", "value", "friendly_name", "attributes"}, "parts that are told")

    def test_attributes_may_be_of_any_length_together(self):
        """Python writes the header of their SET."""
        chance = random.Random(65)
        for size in (*range(270), *range(65536 - 30, 65536 + 2), 70000):
            for those in ([attribute("1.2.3", octet_string(bytes(size)))], size % 300 * [attribute("1.2.3")]):
                text = self.same_sets([plain(KEY, NULL, attributes=set_of(*those))], chance, size)
                self.same_in_python([GivenBag(BagKind.KEY, NULL, attributes=those)], text, size, len(those))

    def test_kinds_may_be_numbers_and_only_those_that_there_are(self):
        self.same_in_python([GivenBag(KEY, NULL)], sequence(bare_bag("key bag", NULL)), "a number")
        for number in (-1, 10, 256):
            with self.assertRaises(ValueError) as raised:
                built.library().build_bags([GivenBag(number, NULL)])
            self.assertNotIsInstance(raised.exception, BadBag)

    def test_an_identifier_is_not_looked_at_where_the_kind_has_one(self):
        for text in (None, "", "1.2.3", "no identifier", ARCS["secret bag"]):
            its = GivenBag(BagKind.KEY, NULL, identifier=text)
            self.same_in_python([its], sequence(bare_bag("key bag", NULL)), text)

    def test_contents_and_stores_are_written_as_they_are_given(self):
        chance, library = random.Random(63), built.library()
        for _ in range(50):
            sets = [given_stores.some_content(chance) for _ in range(chance.randrange(4))]
            text = self.same_contents(sets, chance)
            its = [GivenContent(it["octets"], it["is_data"] == 1) for it in sets]
            self.same(made_in_python(library.build_safe, its), text, "an AuthenticatedSafe in Python", sets)
            its = [GivenContent(bytearray(it.octets), it.is_data) for it in its]
            self.same(made_in_python(library.build_safe, iter(its)), text, "of other octets", sets)
        for its in (it for _ in range(ROUNDS) for it in given_stores.store_sets(chance)):
            text, mac = self.same_store_of(its, chance), None
            if its["has_mac"]:
                parameters = its["digest_parameters"] if its["has_digest_parameters"] else None
                arcs = der.dotted(its["digest_algorithm"])
                mac = GivenMac(arcs, its["digest"], its["salt"], its["iterations"], parameters)
                text = StorePart.DIGEST_ALGORITHM if spelt(arcs.encode()) is None else text
            self.same(made_in_python(library.build_store, its["safe"], mac), text, "a store in Python", its)
            self.same(made_in_python(build.Store(its["safe"]).finish, mac), text, "by build", its)

    def test_a_content_or_a_part_of_a_store_that_is_wrong_is_told(self):
        library, right = built.library(), GivenContent(sequence(), True)
        for wrong in given_stores.wrong_contents():
            its = GivenContent(wrong["octets"], bool(wrong["is_data"]))
            self.same(made_in_python(library.build_safe, [right, its, its]), 1, "a content", wrong)
        mac = GivenMac(der.dotted(octets("SHA-256")), b"digest", b"salt", 2048)
        for wrong in given_stores.wrong_safes():
            for its in (mac, None):
                self.same(made_in_python(library.build_store, wrong, its), StorePart.SAFE, "a safe", wrong)
        wrong = [("digest_algorithm", it) for it in (None, "", "1", "1.2 ", f"1.2.{2**64}")]
        wrong += [("digest_parameters", it) for it in NO_ELEMENTS] + [("digest", None), ("salt", None)]
        wrong += [("iterations", it) for it in (None, -1, 2**32, 2**64, 2**64 + 1)]
        for name, it in wrong:
            said = made_in_python(library.build_store, sequence(), mac._replace(**{name: it}))
            self.same(said, StorePart[name.upper()], name, it)

    def test_what_is_wrong_is_said_and_goes_to_another_process(self):
        for bad, said in (
            (BadBag(3, BagPart.FRIENDLY_NAME), "friendly_name of bag 3 can't be written"),
            (BadBag(0, BagPart.VALUE, 4), "value of bag 0 of content 4 can't be written"),
            (BadContent(2), "content 2 can't be written"),
            (BadStore(StorePart.SAFE), "safe can't be written"),
        ):
            again = pickle.loads(pickle.dumps(bad))
            self.same((str(bad), str(again), type(again)), (said, said, type(bad)), "what is said")
            self.same(vars(again), vars(bad), "what is sent")

    def test_bags_that_were_read_are_given_again_also_with_other_fields(self):
        """Their attributes stay, but for a name or an identifier that is another one, or is to go."""
        chance, count = random.Random(64), 0
        for its in given_stores.bag_sets(chance):
            if its["kind"] == SAFE_CONTENTS:
                its = {**its, "value": nested(3)}
            text = self.same_sets([its], chance)
            found, *_ = built.library().bags(store_around(text))
            self.same_in_python([found], text, "as it was", its)
            self.same_in_python([pickle.loads(pickle.dumps(found))], text, "of a copy", its)
            for name, key_id in itertools.product((None, "", "another", "\U0001F600"), (None, b"", b"another")):
                new = {"has_friendly_name": name is not None, "has_local_key_id": key_id is not None}
                new |= {"friendly_name": (name or "").encode("utf-16-be"), "local_key_id": key_id or b""}
                wanted = self.same_sets([{**its, **new}], chance)
                its_new = found._replace(friendly_name=name, local_key_id=key_id)
                self.same_in_python([its_new], wanted, "with", name, key_id, its)
            count += 1
        self.at_least(count, 50, "bags")

    def test_bags_of_other_types_that_were_read_are_refused_by_their_kinds(self):
        safe = sequence(content_info("data", octet_string(OF_OTHER_TYPES)), content_info("1.2.3", NULL))
        rows = built.library().bags(store("data", octet_string(safe)))
        kinds = [BagKind.OTHER_CERTIFICATE, BagKind.OTHER_CRL, BagKind.UNREAD]
        self.same([row.kind for row in rows], kinds, "kinds")
        for row in rows:
            self.same_in_python([row], (0, BagPart.KIND), row.kind)
        # but in a bag they stay as they are
        its = GivenBag(BagKind.SAFE_CONTENTS, OF_OTHER_TYPES)
        self.same_in_python([its], sequence(bare_bag("safe contents bag", OF_OTHER_TYPES)), "in a bag")

    def test_a_store_is_made_of_lists_and_octets(self):
        its = [GivenBag(BagKind.KEY, NULL, "me"), GivenBag(BagKind.CERTIFICATE, sequence())]
        encrypted = content_info("encrypted data", NULL)
        wanted = sequence(
            content_info("data", octet_string(sequence(bag("key bag", NULL, NAMED)))), encrypted,
            content_info("data", octet_string(sequence())), encrypted, encrypted,
            content_info("data", octet_string(sequence(bare_bag("certificate bag", CERTIFICATE_OF)))),
        )
        others = encrypted, (), bytearray(encrypted), memoryview(encrypted)
        made = build.store([its[:1], *others, iter(its[1:])])
        self.same(made.covered, wanted, "what a MAC covers")
        self.same(made.finish(), store("data", octet_string(wanted)), "without a MAC")
        its_mac = 32 * b"\1", 8 * b"\2", 2048
        whole = store("data", octet_string(wanted), 3, mac_data(*its_mac))
        self.same(made.finish(build.Mac(build.SHA256, *its_mac)), whole, "with one")
        self.same(build.store([]).covered, sequence(), "no contents")
        self.same(made_in_python(build.store, [its, encrypted, sequence()]), 2, "octets that are no content")

    def test_a_bag_of_a_store_is_told_with_its_content(self):
        """Bags before other contents, whichever comes first."""
        right, wrong = GivenBag(BagKind.KEY, NULL), GivenBag(BagKind.KEY, b"")
        held = content_info("encrypted data", NULL)
        for contents_given, content, index in (
            ([[right], [right, wrong]], 1, 1), ([[wrong]], 0, 0), ([held, (), [right, right, wrong], [wrong]], 2, 2),
            ([sequence(), iter([wrong])], 1, 0), ([[right, wrong], sequence()], 0, 1),
        ):
            with self.assertRaises(BadBag) as raised:
                build.store(contents_given)
            bad = raised.exception
            self.same((bad.content, bad.bag, bad.part), (content, index, BagPart.VALUE), "told", content, index)
        with self.assertRaises(BadBag) as raised:
            build.bags([wrong])
        self.same(raised.exception.content, None, "the content of bags alone")


if __name__ == "__main__":
    unittest.main()
