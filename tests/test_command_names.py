"""Names of object identifiers in what the command shows, beside those of openssl."""
import contextlib
import os
import re
import unittest

from support.command import Command
from support.scripts import script

import vuyhanip
from vuyhanip import elements as reader
from vuyhanip import names

oids = script("tools/oids")


def object_identifiers(element):
    """The contents octets of the object identifiers in an element, and in what octet strings in it hold."""
    if element.tag == reader.OBJECT_IDENTIFIER:
        yield element.contents
    parts = element.children() if element.is_constructed else []
    if element.tag == reader.OCTET_STRING:
        with contextlib.suppress(reader.NotThere):
            parts = [reader.whole(element.contents)]
    for part in parts:
        yield from object_identifiers(part)


class Names(Command):
    def test_object_identifiers_have_the_names_that_openssl_has_for_them(self):
        """Those of all files that openssl makes here, of which it prints each by its name or with dots."""
        theirs, named, dotted = oids.openssl_names(), set(), set()
        for name in os.listdir(self.room):
            if not name.endswith((".p12", ".p7s", ".p7m", ".crl", ".tsq", ".tsr", ".tst", ".der")):
                continue
            with contextlib.suppress(reader.NotThere):
                for contents_octets in object_identifiers(reader.whole(self.octets(name))):
                    which = vuyhanip.dotted(contents_octets)
                    (named if which in theirs else dotted).add((which, vuyhanip.library().oid_name(contents_octets)))
        self.assertEqual({which: name for which, name in named}, {which: theirs[which] for which, _ in named})
        self.assertGreater(len(named), 40)

    def test_the_table_here_is_that_of_the_library(self):
        for which, known in names.NAMES.items():
            self.assertEqual(vuyhanip.library().oid_name(bytes(oids.Row(which, "", "").octets())), known.name)

    def test_what_openssl_prints_by_names_show_doesnt_print_with_dots(self):
        for name, *words in (
            ("attributes.p7s", "cms", "-cmsout", "-print", "-inform", "DER"),
            ("ec.p7s", "cms", "-cmsout", "-print", "-inform", "DER"),
            ("enveloped.p7m", "cms", "-cmsout", "-print", "-inform", "DER"),
            ("rsa.der", "x509", "-noout", "-text", "-inform", "DER"),
        ):
            printed = self.openssl(*words, "-in", name).decode("utf-8", "replace")
            shown = self.command("tree", name, more={"VUYHANIP_DERTREE": ""})[1]
            for which in re.findall(r"OBJECT IDENTIFIER \d+: ([0-9.]+)$", shown, re.MULTILINE):
                self.assertIn(f"undefined ({which})", printed, name)


if __name__ == "__main__":
    unittest.main()
