"""tools/theorem over texts of specs/ in which something is turned: a definition that is gone, a name that nothing gives,
one that no file brings; and over pages and a table that are out of date. Each has to be told. A page has each definition
once, and no law but by its type."""
import re
import sys
import unittest

from support import built

sys.path.insert(0, str(built.TOP / "tools"))
from loaded import script  # noqa: E402

theorem = script(built.TOP / "tools/theorem")
PFXS = "Rattle.x509_pkcs12.specs.Pfxs"
OCTETS = "Rattle.x509_pkcs12.specs.MacOctets"
ASN1 = "Rattle.asn1_core_format.specs.Asn1"


def text_of(module):
    _, crate, *rest = module.split(".")
    return (theorem.CRATES / crate / ("/".join(rest) + ".antt")).read_text("utf-8")


def turned(module, text, other):
    """A file of specs/ with another text in place of one that is in it."""
    had = text_of(module)
    assert text in had, text
    return {module: theorem.Source(module, had.replace(text, other, 1))}


class Theorem(unittest.TestCase):
    def missing(self, *words):
        return theorem.made_of("mac", turned(*words))[1].missing

    def test_a_definition_that_is_gone_is_told(self):
        gone = "PfxValue : Type 0 → Type 0\nPfxValue V = ℕ × (AuthSafeValue V × (Option mac_data.Value × Unit {0}))"
        gone = f"abbrev pub {gone}"
        self.assertIn(f"{PFXS}.PfxValue", self.missing(PFXS, gone, ""))

    def test_a_name_that_nothing_gives_is_told(self):
        found = self.missing(OCTETS, "mac_octets (n, (inr p, x)) = None", "mac_octets (n, (inr p, x)) = Nothing")
        self.assertIn(f"{OCTETS}.mac_octets: Nothing", found)

    def test_a_name_in_a_case_of_an_operator_that_nothing_gives_is_told(self):
        had = "a then r = record { Value = a.Value × r.Value; format = part a.format"
        self.assertIn(f"{ASN1}.◌then◌: parts", self.missing(ASN1, had, had.replace("part a", "parts a")))

    def test_a_name_that_no_file_brings_is_told(self):
        self.assertIn(f"{PFXS}.PfxValue: AuthSafeValue", self.missing(PFXS, "{AuthSafeValue, ", "{"))

    def test_a_type_whose_impl_no_page_has_is_told(self):
        had = theorem.ROOTS["mac"]
        theorem.ROOTS["mac"] = had[0], [root for root in had[1] if "AuthenticatedSafeContentInfo" not in root]
        self.addCleanup(theorem.ROOTS.update, mac=had)
        self.assertTrue(any("AuthenticatedSafeContentInfo" in one for one in theorem.made_of("mac")[1].missing))

    def test_nothing_is_missing_and_each_definition_is_there_once(self):
        sources = {}
        for name in theorem.ROOTS:
            with self.subTest(page=name):
                clauses, made = theorem.made_of(name, sources)
                self.assertEqual(set(), made.missing)
                keys = [(item.module, item.name) for item, *_ in made.order]
                self.assertEqual(len(keys), len(set(keys)))
                self.assertTrue(all(text for _, text in clauses))

    def test_a_law_has_its_type_alone(self):
        clauses, made = theorem.made_of("pfx")
        laws = {item.name: lines for item, lines, _ in made.order if item.name in made.laws}
        self.assertTrue(laws)
        for name, lines in laws.items():
            self.assertEqual(1, len(lines), name)
            self.assertTrue(lines[0].startswith(f"-- proved\n{name} : "), name)

    def test_a_type_has_its_asn1_above_it(self):
        text = theorem.page("mac")[0]
        asn1 = "-- MacData ::= SEQUENCE { mac Pkcs12DigestInfo, macSalt OCTET STRING, iterations INTEGER OPTIONAL }\n"
        self.assertIn(asn1, text.partition("abbrev pub mac_data : Contents\n")[0][-300:])
        self.assertNotIn("-- Version ::=", text)

    def test_names_that_are_left_out_are_listed(self):
        clauses, made = theorem.made_of("mac")
        end = theorem.page("mac")[0].partition("## Names that are left out")[2]
        self.assertEqual(made.std | made.rust, {one for one in re.findall(r"`(\S+?)`", end)} - {""})

    def test_any_public_function_has_a_page(self):
        name = "mac_ranges.rt:mac_range"
        text, _, missing = theorem.page(f"x509_pkcs12/src/{name}")
        self.assertEqual(set(), missing)
        self.assertIn("pub fn mac_range(", text)
        self.assertEqual(text.partition("\n")[2], theorem.page("mac_range")[0].partition("\n")[2])
        with self.assertRaises(SystemExit):
            theorem.page("no_such_function")

    def test_pages_out_of_date_and_growth_are_told(self):
        made = {"mac": ("text", 10, set())}
        self.assertEqual([], list(theorem.faults_in(made, {"mac": "text"}, {"mac": 10})))
        for had, lines in (({"mac": "other"}, {"mac": 10}), ({}, {"mac": 10}), ({"mac": "text"}, {"mac": 9}),
                           ({"mac": "text"}, {}), ({"mac": "text", "old": "text"}, {"mac": 10})):
            self.assertEqual(1, len(list(theorem.faults_in(made, had, lines))))
        self.assertEqual(1, len(list(theorem.faults_in({"mac": ("text", 10, {"a"})}, {"mac": "text"}, {"mac": 10}))))


if __name__ == "__main__":
    unittest.main()
