"""tools/maps over texts of specs/ in which a map is turned: two fields of one type, two alternatives, or two components
without names, that change places in the map, a field that is there twice, one that is left out, a map of a struct that
asn1/ doesn't know or of a form that isn't read. Each has to be told; and the texts as they are have nothing wrong."""
import sys
import unittest

from support import built

sys.path.insert(0, str(built.TOP / "tools"))
from loaded import script  # noqa: E402

maps = script(built.TOP / "tools/maps")
DESCRIPTORS = "pkcs7_enveloped", "Descriptors"
# A file of specs/, a text of it, and what is in its place.
TURNED = {
    "two fields": (
        *DESCRIPTORS, "(octets_of_utf8 x.descriptor_type.0, (octets_of_utf8 x.descriptor_value.0",
        "(octets_of_utf8 x.descriptor_value.0, (octets_of_utf8 x.descriptor_type.0"),
    "two optional fields": (
        "rfc5280", "Pkix1Implicit88", "x.not_before, (option_value (λ y. moment_of_generalized y.0.0) x.not_after",
        "x.not_after, (option_value (λ y. moment_of_generalized y.0.0) x.not_before"),
    "a field twice": (*DESCRIPTORS, "x.descriptor_value.0", "x.descriptor_type.0"),
    "a field left out": (*DESCRIPTORS, "(octets_of_utf8 x.descriptor_value.0, tt)", "tt"),
    "two fields in one part": (*DESCRIPTORS, "_utf8 x.descriptor_type.0", "_two x.descriptor_type.0 x.other.0"),
    "two alternatives": (
        "rfc6960", "Ocsp201388",
        "(ResponderIdIs.ByName x) = inl (name_parts x)\nresponder_id_value (ResponderIdIs.ByKey x) = inr x.0.items",
        "(ResponderIdIs.ByKey x) = inl x.0.items\nresponder_id_value (ResponderIdIs.ByName x) = inr (name_parts x)"),
    "an alternative twice": (
        "rfc6960", "Ocsp201388", "(ResponderIdIs.ByKey x) = inr", "(ResponderIdIs.ByName x) = inr"),
    "a struct of another name": (*DESCRIPTORS, "_value : ProtectionDescriptor →", "_value : Protection →"),
    "two components without names": (
        "password_ranges", "HeadValues", "x.0.0, (algorithm_identifier_value x.0.1.0",
        "x.0.1.0, (algorithm_identifier_value x.0.0"),
    "a component without a name left out": ("password_ranges", "HeadValues", "(x.0.1.0, (option", "((option"),
    "another form": (*DESCRIPTORS, "\nprotection_descriptor_value x = (", "\nprotection_descriptor_value = λ x. ("),
}


class Maps(unittest.TestCase):
    types = maps.Types()

    def faults(self, crate, text):
        return maps.faults_in(self.types, crate, text)[0]

    def test_maps_are_as_the_modules(self):
        found = [fault for crate, text in maps.texts() for fault in self.faults(crate, text)]
        self.assertEqual([], found)
        count = sum(maps.faults_in(self.types, crate, text)[1] for crate, text in maps.texts())
        self.assertGreaterEqual(count, 100)

    def test_a_turned_map_is_told(self):
        for what, (crate, name, text, other) in TURNED.items():
            with self.subTest(what=what):
                had = (built.TOP / "crates" / crate / f"specs/{name}.antt").read_text("utf-8")
                self.assertIn(text, had)
                self.assertNotEqual([], self.faults(crate, had.replace(text, other, 1)))

    def test_what_is_not_compared_is_there(self):
        there = {f"{crate} {name}" for crate, text in maps.texts() for name, *_ in maps.definitions(text)}
        self.assertEqual(set(), (maps.LISTED | set(maps.UNNAMED)) - there)


if __name__ == "__main__":
    unittest.main()
