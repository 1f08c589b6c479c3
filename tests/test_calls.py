"""tools/calls over copies of a tree in which something is turned: a number, two fields, the type of a parameter, a call
that is left out, in each of C, Python, Rust and what is proved, or in c/calls.txt, and what an exported function calls.
Each has to be told, with its file, its line and its name; --write makes right what is made, and keeps what is said in
the header."""
import sys
import tempfile
import unittest
from pathlib import Path

from support import built

sys.path.insert(0, str(built.TOP / "tools"))
from loaded import script  # noqa: E402

calls = script(built.TOP / "tools/calls")
C, PYTHON, RUST, FILE = calls.HEADER, calls.PYTHON, calls.RUST, calls.FILE
NAMES, HOLDERS, CHECK = "python/vuyhanip/der.py", "rust/src/passwords.rs", "rust/tests/check.rs"
TEXTS, LIB = calls.proved(built.TOP), f"{calls.LIBRARY}/src/lib.rt"
PARTS, PARTS_IN_SPECS = (path for path, *_ in calls.LISTED)
# What has the calls with their numbers and structs, in src/ and in specs/.
(STATUS, BAGS, LISTS, MACS, SIGNERS, PASSWORDS, BUILT, BUILT_BAGS, BUILT_STORES, BUILT_ATTRIBUTES, BUILT_SIGNED,
 BUILT_INDIRECT, BUILT_RECIPIENT, BUILT_ENVELOPED) = (
    calls.path_of(TEXTS, f"{name}.rt") for name in (
        "status", "bags", "lists", "macs", "signers", "passwords", "built", "built_bags", "built_stores",
        "built_attributes", "built_signed", "built_indirect", "built_recipient", "built_enveloped"))
(BAGS_IN_SPECS, LISTS_IN_SPECS, KINDS_IN_SPECS, PASSWORDS_IN_SPECS, ATTRIBUTES_IN_SPECS, SIGNED_IN_SPECS,
 INDIRECT_IN_SPECS, RECIPIENT_IN_SPECS, ENVELOPED_IN_SPECS) = (
    calls.path_of(TEXTS, f"{name}.antt") for name in (
        "Bags", "Lists", "Kinds", "Passwords", "BuiltAttributes", "BuiltSigned", "BuiltIndirect", "BuiltRecipient",
        "BuiltEnveloped"))
# The functions that are exported.
OF_KINDS, OF_PARTS, OF_PASSWORDS, OF_STORES, OF_MESSAGES = (
    f"{calls.LIBRARY}/src/{name}.rt" for name in ("kinds", "parts", "passwords", "stores", "messages"))
BUILT_IN_RUST, STORES_IN_RUST, SIGNED_IN_RUST, INDIRECT_IN_RUST, ENVELOPED_IN_RUST = (
    f"rust/src/{name}.rs" for name in ("build", "build_stores", "build_signed", "build_indirect", "build_enveloped"))
# What tools/calls reads.
READ = (FILE, C, PYTHON, NAMES, "rust/src/*.rs", CHECK, "crates.txt", *TEXTS)
RANGE_IN_C = """DER_CALL
uint32_t der_mac_range(const uint8_t *input, size_t input_len, size_t *start, size_t *len);
"""
RANGE_IN_PYTHON = '    "der_mac_range": (_OCTETS, _SIZE, _NUMBER, _NUMBER),\n'
RANGE_IN_RUST = """\
    pub fn der_mac_range(input: *const u8, input_len: usize, start: *mut usize, len: *mut usize) -> u32;
"""
KIND_IN_C = "  size_t kind;              /* a der_bag_kind */\n"
LEVEL_IN_C = "  size_t level;             /* in how many bags it is, at most 64 */\n"
LISTS_IN_C = "const der_range *certificates, size_t certificates_len, const der_range *crls,"
DATA_IN_PYTHON = '("is_data", ctypes.c_size_t),\n        ("octets", Range)'
IN_CHECK = "        limit: {},\n        input: *const u8,\n        input_len: usize,\n        out"
# What --write makes right: a file, a text of it, what is in its place, and the name that has to be told.
MADE = {
    "C, a status": (C, "DER_NO_ROOM = 9,", "DER_NO_ROOM = 8,", "DER_NO_ROOM"),
    "C, two fields": (C, KIND_IN_C + LEVEL_IN_C, LEVEL_IN_C + KIND_IN_C, "level"),
    "C, a type": (C, "der_kind_word(size_t index,", "der_kind_word(uint32_t index,", "index"),
    "C, what is returned": (C, "uint32_t der_mac(", "size_t der_mac(", "der_mac"),
    "C, a part": (C, "DER_PART_ISSUER = 3,", "DER_PART_ISSUER = 4,", "DER_PART_ISSUER"),
    "C, a password part": (C, "DER_PASSWORD_SALT = 5,", "DER_PASSWORD_SALT = 6,", "DER_PASSWORD_SALT"),
    "C, a bag part": (C, "DER_BAG_PART_VALUE = 3,", "DER_BAG_PART_VALUE = 4,", "DER_BAG_PART_VALUE"),
    "C, a store part": (C, "DER_STORE_PART_SALT = 5,", "DER_STORE_PART_SALT = 6,", "DER_STORE_PART_SALT"),
    "C, a part of attributes": (
        C, "DER_ATTRIBUTES_PART_SIGNING_TIME = 3,", "DER_ATTRIBUTES_PART_SIGNING_TIME = 4,",
        "DER_ATTRIBUTES_PART_SIGNING_TIME"),
    "C, a part of signed data": (
        C, "DER_SIGNED_PART_SIGNATURE = 9,", "DER_SIGNED_PART_SIGNATURE = 8,", "DER_SIGNED_PART_SIGNATURE"),
    "C, a part of indirect data": (
        C, "DER_INDIRECT_PART_IMAGE_FLAGS = 5,", "DER_INDIRECT_PART_IMAGE_FLAGS = 4,", "DER_INDIRECT_PART_IMAGE_FLAGS"),
    "C, a part of a recipient": (
        C, "DER_RECIPIENT_PART_ALGORITHM = 2,", "DER_RECIPIENT_PART_ALGORITHM = 4,", "DER_RECIPIENT_PART_ALGORITHM"),
    "C, a part of enveloped data": (
        C, "DER_ENVELOPED_PART_CONTENT = 3,", "DER_ENVELOPED_PART_CONTENT = 4,", "DER_ENVELOPED_PART_CONTENT"),
    "C, a struct that is read": (C, "const der_password_parts *given,", "der_password_parts *given,", "given"),
    "C, structs that are read": (C, "const der_bag_given *bags,", "der_bag_given *bags,", "bags"),
    "C, attributes that are read": (C, "const der_attributes_given *given,", "der_attributes_given *given,", "given"),
    "C, indirect data that are read": (C, "const der_indirect_parts *given,", "der_indirect_parts *given,", "given"),
    "C, content that is read": (C, "const der_signed_given *given,", "const der_signer_given *given,", "given"),
    "C, ranges that are read": (C, LISTS_IN_C, LISTS_IN_C.replace("const der_range *crls", "der_range *crls"), "crls"),
    "C, how many signers": (C, "*signers, size_t signers_len,", "*signers, uint8_t signers_len,", "signers_len"),
    "C, a recipient that is read": (C, "const der_recipient_given *given,", "der_recipient_given *given,", "given"),
    "C, enveloped data that is read": (
        C, "const der_enveloped_given *given,", "const der_recipient_given *given,", "given"),
    "C, recipients that are read": (C, "const der_range *recipients,", "der_range *recipients,", "recipients"),
    "C, how many structs": (C, "size_t contents_len,", "uint8_t contents_len,", "contents_len"),
    "C, the type of a field": (C, "  der_range octets;", "  size_t octets;", "octets"),
    "C, levels": (C, "#define DER_MAX_NESTING 64", "#define DER_MAX_NESTING 65", "DER_MAX_NESTING"),
    "C, blanks": (C, "size_t out_len, size_t *written);", "size_t out_len,  size_t *written);", "size_t out_len"),
    "Python, a status": (PYTHON, "NO_ROOM: Final = 9", "NO_ROOM: Final = 8", "DER_NO_ROOM"),
    "Python, two fields": (
        PYTHON, '("kind", ctypes.c_size_t),\n        ("level", ctypes.c_size_t)',
        '("level", ctypes.c_size_t),\n        ("kind", ctypes.c_size_t)', "kind"),
    "Python, a type": (PYTHON, '"der_kind_word": (_SIZE,', '"der_kind_word": (_BYTE,', "der_kind_word"),
    "Python, a password part": (PYTHON, "PASSWORD_SALT: Final = 5", "PASSWORD_SALT: Final = 6", "DER_PASSWORD_SALT"),
    "Python, a bag part": (PYTHON, "BAG_PART_VALUE: Final = 3", "BAG_PART_VALUE: Final = 4", "DER_BAG_PART_VALUE"),
    "Python, a store part": (PYTHON, "STORE_PART_SALT: Final = 5", "STORE_PART_SALT: Final = 6", "DER_STORE_PART_SALT"),
    "Python, a part of attributes": (
        PYTHON, "ATTRIBUTES_PART_SIGNING_TIME: Final = 3", "ATTRIBUTES_PART_SIGNING_TIME: Final = 4",
        "DER_ATTRIBUTES_PART_SIGNING_TIME"),
    "Python, a part of signed data": (
        PYTHON, "SIGNED_PART_SIGNATURE: Final = 9", "SIGNED_PART_SIGNATURE: Final = 8", "DER_SIGNED_PART_SIGNATURE"),
    "Python, a part of indirect data": (
        PYTHON, "INDIRECT_PART_IMAGE_FLAGS: Final = 5", "INDIRECT_PART_IMAGE_FLAGS: Final = 4",
        "DER_INDIRECT_PART_IMAGE_FLAGS"),
    "Python, structs of another kind": (PYTHON, "POINTER(SignerGiven),", "POINTER(SignerParts),", "der_build_signed"),
    "Python, a part of a recipient": (
        PYTHON, "RECIPIENT_PART_KEY: Final = 3", "RECIPIENT_PART_KEY: Final = 4", "DER_RECIPIENT_PART_KEY"),
    "Python, a part of enveloped data": (
        PYTHON, "ENVELOPED_PART_RECIPIENTS: Final = 5", "ENVELOPED_PART_RECIPIENTS: Final = 4",
        "DER_ENVELOPED_PART_RECIPIENTS"),
    "Python, a struct of another kind": (
        PYTHON, "POINTER(RecipientGiven),", "POINTER(EnvelopedGiven),", "der_build_recipient"),
    "Python, how many structs": (PYTHON, "POINTER(BagGiven), _SIZE,", "POINTER(BagGiven),", "der_build_bags"),
    "Python, the type of a field": (
        PYTHON, DATA_IN_PYTHON, DATA_IN_PYTHON.replace("Range", "ctypes.c_size_t"), "octets"),
    "Python, a call": (PYTHON, RANGE_IN_PYTHON, "", "der_mac_range"),
    "Rust, a status": (RUST, "NO_ROOM: u32 = 9;", "NO_ROOM: u32 = 8;", "DER_NO_ROOM"),
    "Rust, two fields": (
        RUST, "pub kind: usize,\n    pub level: usize,", "pub level: usize,\n    pub kind: usize,", "kind"),
    "Rust, a type": (RUST, "der_kind_word(index: usize,", "der_kind_word(index: u32,", "der_kind_word"),
    "Rust, a password part": (RUST, "PASSWORD_SALT: usize = 5;", "PASSWORD_SALT: usize = 6;", "DER_PASSWORD_SALT"),
    "Rust, a bag part": (RUST, "BAG_PART_VALUE: usize = 3;", "BAG_PART_VALUE: usize = 4;", "DER_BAG_PART_VALUE"),
    "Rust, a store part": (RUST, "STORE_PART_SALT: usize = 5;", "STORE_PART_SALT: usize = 6;", "DER_STORE_PART_SALT"),
    "Rust, a part of attributes": (
        RUST, "ATTRIBUTES_PART_SIGNING_TIME: usize = 3;", "ATTRIBUTES_PART_SIGNING_TIME: usize = 4;",
        "DER_ATTRIBUTES_PART_SIGNING_TIME"),
    "Rust, a part of signed data": (
        RUST, "SIGNED_PART_SIGNATURE: usize = 9;", "SIGNED_PART_SIGNATURE: usize = 8;", "DER_SIGNED_PART_SIGNATURE"),
    "Rust, a part of indirect data": (
        RUST, "INDIRECT_PART_IMAGE_FLAGS: usize = 5;", "INDIRECT_PART_IMAGE_FLAGS: usize = 4;",
        "DER_INDIRECT_PART_IMAGE_FLAGS"),
    "Rust, indirect data that are read": (RUST, "given: *const IndirectParts,", "given: *mut IndirectParts,", "given"),
    "Rust, a part of a recipient": (
        RUST, "RECIPIENT_PART_KEY: usize = 3;", "RECIPIENT_PART_KEY: usize = 4;", "DER_RECIPIENT_PART_KEY"),
    "Rust, a part of enveloped data": (
        RUST, "ENVELOPED_PART_RECIPIENTS: usize = 5;", "ENVELOPED_PART_RECIPIENTS: usize = 4;",
        "DER_ENVELOPED_PART_RECIPIENTS"),
    "Rust, a recipient that is read": (RUST, "given: *const RecipientGiven,", "given: *mut RecipientGiven,", "given"),
    "Rust, enveloped data that is read": (
        RUST, "given: *const EnvelopedGiven,", "given: *mut EnvelopedGiven,", "given"),
    "Rust, recipients that are read": (RUST, "recipients: *const Range,", "recipients: *mut Range,", "recipients"),
    "Rust, signers that are read": (RUST, "signers: *const SignerGiven,", "signers: *mut SignerGiven,", "signers"),
    "Rust, ranges that are read": (RUST, "crls: *const Range,", "crls: *mut Range,", "crls"),
    "Rust, a struct that is read": (RUST, "given: *const PasswordParts,", "given: *mut PasswordParts,", "given"),
    "Rust, structs that are read": (RUST, "bags: *const BagGiven,", "bags: *mut BagGiven,", "bags"),
    "Rust, the type of a field": (RUST, "    pub octets: Range,", "    pub octets: usize,", "octets"),
    "Rust, a call": (RUST, RANGE_IN_RUST, "", "der_mac_range"),
}
# What is written by hand. A fifth word is the place that is told, where that isn't the line that is turned.
BY_HAND = {
    "C, a call": (C, RANGE_IN_C, "", "der_mac_range", f"{C}:1"),
    "C, the word of a status": (C, '"no room",', '"no place",', "DER_NO_ROOM", C),
    "C, the last status": (C, "<= DER_BAD_ATTRIBUTES ?", "<= DER_NO_PART ?", "DER_BAD_ATTRIBUTES"),
    "Python, a name": (NAMES, " ISSUER = _calls.PART_ISSUER", " ISSUER = _calls.PART_SIGNATURE", "ISSUER", NAMES),
    "Python, no name": (NAMES, "    OTHER_CRL = _calls.BAG_OTHER_CRL\n", "", "DER_BAG_OTHER_CRL", f"{NAMES}:1"),
    "Python, a holder": (NAMES, " KEY = _calls.HOLDER_KEY", " KEY = _calls.HOLDER_CONTENTS", "KEY", NAMES),
    "Python, no holder": (
        NAMES, "    ALGORITHM = _calls.HOLDER_ALGORITHM\n", "", "DER_HOLDER_ALGORITHM", f"{NAMES}:1"),
    "Python, a password part": (NAMES, " SALT = _calls.PASSWORD_SALT", " SALT = _calls.PASSWORD_PRF", "SALT", NAMES),
    "Python, no password part": (
        NAMES, "    SCHEME = _calls.PASSWORD_SCHEME\n", "", "DER_PASSWORD_SCHEME", f"{NAMES}:1"),
    "Python, a bag part": (NAMES, " VALUE = _calls.BAG_PART_VALUE", " VALUE = _calls.BAG_PART_KIND", "VALUE", NAMES),
    "Python, no bag part": (
        NAMES, "    ATTRIBUTES = _calls.BAG_PART_ATTRIBUTES\n", "", "DER_BAG_PART_ATTRIBUTES", f"{NAMES}:1"),
    "Python, a store part": (
        NAMES, " DIGEST = _calls.STORE_PART_DIGEST\n", " DIGEST = _calls.STORE_PART_SALT\n", "DIGEST", NAMES),
    "Python, a bag part for a store part": (
        NAMES, " SAFE = _calls.STORE_PART_SAFE", " SAFE = _calls.BAG_PART_VALUE", "SAFE", NAMES),
    "Python, no store part": (
        NAMES, "    ITERATIONS = _calls.STORE_PART_ITERATIONS\n", "", "DER_STORE_PART_ITERATIONS", f"{NAMES}:1"),
    "Python, a part of attributes": (
        NAMES, " SIGNING_TIME = _calls.ATTRIBUTES_PART_SIGNING_TIME",
        " SIGNING_TIME = _calls.ATTRIBUTES_PART_CONTENT_TYPE", "SIGNING_TIME", NAMES),
    "Python, no part of attributes": (
        NAMES, "    ATTRIBUTES = _calls.ATTRIBUTES_PART_ATTRIBUTES\n", "", "DER_ATTRIBUTES_PART_ATTRIBUTES",
        f"{NAMES}:1"),
    "Python, a part of signed data": (
        NAMES, " CRL = _calls.SIGNED_PART_CRL", " CRL = _calls.SIGNED_PART_CERTIFICATE", "CRL", NAMES),
    "Python, a part of attributes for one of signed data": (
        NAMES, " CONTENT_TYPE = _calls.SIGNED_PART_CONTENT_TYPE",
        " CONTENT_TYPE = _calls.ATTRIBUTES_PART_CONTENT_TYPE", "CONTENT_TYPE", NAMES),
    "Python, no part of signed data": (
        NAMES, "    IDENTIFIER = _calls.SIGNED_PART_IDENTIFIER\n", "", "DER_SIGNED_PART_IDENTIFIER", f"{NAMES}:1"),
    "Python, a part of indirect data": (
        NAMES, " IMAGE_LINK = _calls.INDIRECT_PART_IMAGE_LINK", " IMAGE_LINK = _calls.INDIRECT_PART_IMAGE_FLAGS",
        "IMAGE_LINK", NAMES),
    "Python, a part of signed data for one of indirect data": (
        NAMES, " DIGEST_ALGORITHM = _calls.INDIRECT_PART_DIGEST_ALGORITHM",
        " DIGEST_ALGORITHM = _calls.SIGNED_PART_DIGEST_ALGORITHM", "DIGEST_ALGORITHM", NAMES),
    "Python, no part of indirect data": (
        NAMES, "    DIGEST = _calls.INDIRECT_PART_DIGEST\n", "", "DER_INDIRECT_PART_DIGEST", f"{NAMES}:1"),
    "Python, a part of a recipient": (
        NAMES, " KEY = _calls.RECIPIENT_PART_KEY", " KEY = _calls.RECIPIENT_PART_ALGORITHM", "KEY", NAMES),
    "Python, no part of a recipient": (
        NAMES, "    IDENTIFIER = _calls.RECIPIENT_PART_IDENTIFIER\n", "", "DER_RECIPIENT_PART_IDENTIFIER",
        f"{NAMES}:1"),
    "Python, a part of enveloped data": (
        NAMES, " RECIPIENTS = _calls.ENVELOPED_PART_RECIPIENTS", " RECIPIENTS = _calls.ENVELOPED_PART_RECIPIENT",
        "RECIPIENTS", NAMES),
    "Python, a part of a recipient for one of enveloped data": (
        NAMES, " ALGORITHM = _calls.ENVELOPED_PART_ALGORITHM", " ALGORITHM = _calls.RECIPIENT_PART_ALGORITHM",
        "ALGORITHM", NAMES),
    "Python, no part of enveloped data": (
        NAMES, "    ATTRIBUTES = _calls.ENVELOPED_PART_ATTRIBUTES\n", "", "DER_ENVELOPED_PART_ATTRIBUTES",
        f"{NAMES}:1"),
    "Rust, a password part": (BUILT_IN_RUST, "Salt = calls::PASSWORD_SALT", "Salt = calls::PASSWORD_PRF", "Salt"),
    "Rust, a bag part": (STORES_IN_RUST, "Value = calls::BAG_PART_VALUE", "Value = calls::BAG_PART_KIND", "Value"),
    "Rust, a store part": (STORES_IN_RUST, "Salt = calls::STORE_PART_SALT", "Salt = calls::STORE_PART_SAFE", "Salt"),
    "Rust, a part of attributes": (
        SIGNED_IN_RUST, "SigningTime = calls::ATTRIBUTES_PART_SIGNING_TIME",
        "SigningTime = calls::ATTRIBUTES_PART_CONTENT_TYPE", "SigningTime"),
    "Rust, a part of signed data": (
        SIGNED_IN_RUST, "Crl = calls::SIGNED_PART_CRL", "Crl = calls::SIGNED_PART_CERTIFICATE", "Crl"),
    "Rust, a part of indirect data": (
        INDIRECT_IN_RUST, "ImageLink = calls::INDIRECT_PART_IMAGE_LINK", "ImageLink = calls::INDIRECT_PART_IMAGE_FLAGS",
        "ImageLink"),
    "Rust, a part of a recipient": (
        ENVELOPED_IN_RUST, "Key = calls::RECIPIENT_PART_KEY", "Key = calls::RECIPIENT_PART_ALGORITHM", "Key"),
    "Rust, a part of enveloped data": (
        ENVELOPED_IN_RUST, "Recipients = calls::ENVELOPED_PART_RECIPIENTS",
        "Recipients = calls::ENVELOPED_PART_RECIPIENT", "Recipients"),
    "Rust, a holder": (HOLDERS, "Key = calls::HOLDER_KEY", "Key = calls::HOLDER_CONTENTS", "Key"),
    "Rust, a name": ("rust/src/lib.rs", "Issuer = calls::PART_ISSUER", "Issuer = calls::PART_SIGNATURE", "Issuer"),
    "Rust, a kind": ("rust/src/bags.rs", "BAG_CRL => BagKind::Crl", "BAG_CRL => BagKind::OtherCrl", "OtherCrl"),
    "Rust, no name": ("rust/src/ranges.rs", "calls::PART_RECIPIENT", "16", "DER_PART_RECIPIENT", "rust/src/bags.rs:1"),
    "Rust, a caller": (CHECK, IN_CHECK.format("u8"), IN_CHECK.format("u32"), "limit"),
    "proved, a status": (STATUS, "NO_ROOM: u32 = 9;", "NO_ROOM: u32 = 8;", "DER_NO_ROOM"),
    "proved, two fields": (
        BAGS, "    pub kind: usize,\n    /// In how many bags it is.\n    pub level: usize,",
        "    pub level: usize,\n    /// In how many bags it is.\n    pub kind: usize,", "level"),
    "proved, the type of a field": (BAGS, "    pub value: Octets,", "    pub value: usize,", "value"),
    "proved, a layout": (SIGNERS, "#[repr(C)]\n", "", "der_signer_parts", SIGNERS),
    "proved, a type": (OF_KINDS, "der_kind_word(index: usize,", "der_kind_word(index: u32,", "index"),
    "proved, a slice": (OF_STORES, "    input: &[u8],", "    input: &mut [u8],", "input"),
    "proved, one struct": (OF_PARTS, "    out: &mut Certificate,", "    out: &mut [Certificate],", "out"),
    "proved, two parameters": (
        OF_PARTS, "    signed: usize,\n    index: usize,", "    index: usize,\n    signed: usize,", "index"),
    "proved, a call": (OF_PARTS, 'pub extern "C" fn der_mac_range(', "fn range_of(", "der_mac_range", f"{LIB}:1"),
    "proved, another call": (OF_PARTS, '"C" fn der_mac(', '"C" fn der_any_mac(', "der_any_mac"),
    "proved, a call of another crate": (MACS, "pub fn der_mac(", 'pub extern "C" fn der_mac(', "der_mac"),
    "proved, a call that isn't there": (
        MACS, "pub fn der_mac_range(", "pub fn der_range_of(", "der_mac_range", OF_PARTS),
    "proved, what is called": (OF_PARTS, "macs::der_mac_ber(alloc,", "macs::der_mac(alloc,", "der_mac_ber"),
    "proved, what is passed": (OF_STORES, "written, bag, part)", "written, part, bag)", "der_build_bags"),
    "proved, what is passed on lines": (
        OF_MESSAGES, "        certificates,\n        crls,", "        crls,\n        certificates,", "der_build_signed",
        OF_MESSAGES),
    "proved, what isn't passed": (OF_KINDS, "input, out, written, place)", "input, out, written)", "der_from_ber"),
    "proved, what a call does besides": (
        OF_KINDS, "    kinds::der_kind_word(", "    *written = 0;\n    kinds::der_kind_word(", "der_kind_word"),
    "proved, a call that is none": (
        OF_KINDS, "kinds::der_kind_word(index, out, written)", "if index > 1 { 2 } else { 0 }", "der_kind_word",
        OF_KINDS),
    "proved, a kind": (BAGS, "BagKind::Crl => 4,", "BagKind::Crl => 5,", "DER_BAG_CRL"),
    "specs, a kind": (BAGS_IN_SPECS, "kind_number Crl = 4", "kind_number Crl = 5", "DER_BAG_CRL"),
    "proved, a holder": (PASSWORDS, "1 => Some(Holder::Key)", "3 => Some(Holder::Key)", "DER_HOLDER_KEY"),
    "specs, a holder": (PASSWORDS_IN_SPECS, "number_of Key = 1", "number_of Key = 3", "DER_HOLDER_KEY"),
    "proved, a part": (LISTS, "16 => Some(", "19 => Some(", "DER_PART_RECIPIENT"),
    "specs, a part": (LISTS_IN_SPECS, "number_of Recipients = 16", "number_of Recipients = 19", "DER_PART_RECIPIENT"),
    "proved, a password part": (BUILT, "const SALT: usize = 5;", "const SALT: usize = 6;", "DER_PASSWORD_SALT"),
    "proved, a bag part": (BUILT_BAGS, "const VALUE: usize = 3;", "const VALUE: usize = 4;", "DER_BAG_PART_VALUE"),
    "proved, a store part": (BUILT_STORES, "const SALT: usize = 5;", "const SALT: usize = 6;", "DER_STORE_PART_SALT"),
    "proved, a part of attributes": (
        BUILT_ATTRIBUTES, "const SIGNING_TIME: usize = 3;", "const SIGNING_TIME: usize = 4;",
        "DER_ATTRIBUTES_PART_SIGNING_TIME"),
    "proved, a part of signed data": (
        BUILT_SIGNED, "const SIGNATURE: usize = 9;", "const SIGNATURE: usize = 8;", "DER_SIGNED_PART_SIGNATURE"),
    "proved, a part of indirect data": (
        BUILT_INDIRECT, "const IMAGE_LINK: usize = 6;", "const IMAGE_LINK: usize = 7;", "DER_INDIRECT_PART_IMAGE_LINK"),
    "proved, a part of a recipient": (
        BUILT_RECIPIENT, "const KEY: usize = 3;", "const KEY: usize = 4;", "DER_RECIPIENT_PART_KEY"),
    "proved, a part of enveloped data": (
        BUILT_ENVELOPED, "const RECIPIENTS: usize = 5;", "const RECIPIENTS: usize = 6;",
        "DER_ENVELOPED_PART_RECIPIENTS"),
    "specs, a part of attributes": (
        ATTRIBUTES_IN_SPECS, "number_of SigningTime = 3", "number_of SigningTime = 4",
        "DER_ATTRIBUTES_PART_SIGNING_TIME"),
    "specs, a part of signed data": (
        SIGNED_IN_SPECS, "number_of (Crl i) = 4", "number_of (Crl i) = 3", "DER_SIGNED_PART_CRL"),
    "specs, a part of a signer": (
        SIGNED_IN_SPECS, "number_of_signer_part Signature = 9", "number_of_signer_part Signature = 8",
        "DER_SIGNED_PART_SIGNATURE"),
    "specs, a part of indirect data": (
        INDIRECT_IN_SPECS, "number_of ImageLink = 6", "number_of ImageLink = 7", "DER_INDIRECT_PART_IMAGE_LINK"),
    "specs, a part of a recipient": (
        RECIPIENT_IN_SPECS, "number_of Wrong.Key = 3", "number_of Wrong.Key = 4", "DER_RECIPIENT_PART_KEY"),
    "specs, a part of enveloped data": (
        ENVELOPED_IN_SPECS, "number_of Wrong.Recipients = 5", "number_of Wrong.Recipients = 6",
        "DER_ENVELOPED_PART_RECIPIENTS"),
    "proved, a recipient that is read": (
        OF_MESSAGES, "    given: &RecipientGiven,", "    given: &mut RecipientGiven,", "given"),
    "proved, enveloped data that is read": (
        OF_MESSAGES, "    given: &EnvelopedGiven,\n    recipients: &[Octets],\n    out",
        "    given: &RecipientGiven,\n    recipients: &[Octets],\n    out", "given"),
    "proved, recipients that are read": (
        OF_MESSAGES, "    recipients: &[Octets],\n    out", "    recipients: &[usize],\n    out", "recipients"),
    "proved, indirect data that are read": (
        OF_MESSAGES, "    given: &Indirect,", "    given: &mut Indirect,", "given"),
    "proved, attributes that are read": (
        OF_MESSAGES, "    given: &AttributesGiven,", "    given: &mut AttributesGiven,", "given"),
    "proved, signers that are read": (
        OF_MESSAGES, "    signers: &[SignerGiven],\n    out", "    signers: &SignerGiven,\n    out", "signers"),
    "proved, ranges that are read": (
        OF_MESSAGES, "    crls: &[Octets],\n    signers: &[SignerGiven],\n    out",
        "    crls: &[usize],\n    signers: &[SignerGiven],\n    out", "crls"),
    "proved, two lists": (
        OF_MESSAGES, "    certificates: &[Octets],\n    crls: &[Octets],\n    signers: &[SignerGiven],\n    out",
        "    crls: &[Octets],\n    certificates: &[Octets],\n    signers: &[SignerGiven],\n    out", "certificates"),
    "proved, a struct that is read": (OF_PASSWORDS, "    given: &Password,", "    given: &mut Password,", "given"),
    "proved, structs that are read": (OF_STORES, "    bags: &[BagGiven],", "    bags: &mut [BagGiven],", "bags"),
    "proved, one struct for several": (
        OF_STORES, "    contents: &[ContentGiven],", "    contents: &ContentGiven,", "contents"),
    "proved, other structs": (OF_STORES, "    bags: &[BagGiven],", "    bags: &[ContentGiven],", "bags"),
    "proved, another struct": (OF_STORES, "    given: &StoreGiven,", "    given: &BagGiven,", "given"),
    "proved, a number": (LISTS, "CERTIFICATES: usize = 1;", "CERTIFICATES: usize = 2;", "DER_PART_CERTIFICATE", LISTS),
    "specs, a number": (
        LISTS_IN_SPECS, "\ncertificates = 1", "\ncertificates = 2", "DER_PART_CERTIFICATE", LISTS_IN_SPECS),
    "proved, two parts": (
        PARTS, "StorePart::Key),\n            ContainerPart::Store(StorePart::EncryptedKey)",
        "StorePart::EncryptedKey),\n            ContainerPart::Store(StorePart::Key)", "DER_PART_STORE_ENCRYPTED_KEY"),
    "specs, two parts": (
        PARTS_IN_SPECS, "OfStore.Key ∷ Store OfStore.EncryptedKey", "OfStore.EncryptedKey ∷ Store OfStore.Key",
        "DER_PART_STORE_ENCRYPTED_KEY"),
    "proved, levels": (calls.LEVELS[1], "MAX_NESTING: u8 = 64;", "MAX_NESTING: u8 = 63;", "DER_MAX_NESTING"),
    "specs, levels": (KINDS_IN_SPECS, "min limit 64", "min limit 63", "DER_MAX_NESTING"),
}
# A text of c/calls.txt, what is in its place, and what is said.
NO_CALLS = {
    "a number twice": ("  DER_LOOSE 1\n", "  DER_LOOSE 0\n", "DER_LOOSE: der_status has the name, or the number"),
    "no number": ("  DER_LOOSE 1\n", "  DER_LOOSE one\n", "DER_LOOSE one: isn't what a line of enum has"),
    "an entry twice": ("struct der_range", "struct der_status", "der_status: is there twice"),
    "no kind of entry": ("struct der_range", "union der_range", "union der_range: isn't a constant"),
    "a name that is needed": ("enum der_status\n", "enum der_state\n", "der_status: isn't there"),
    "no entry": ("constant DER_MAX_NESTING 64\n", "  size_t start\n", "size_t start: belongs to nothing"),
    "an array without a length": ("*word, size_t word_len\n", "*word\n", "word: an array has its length"),
    "another length": ("*word, size_t word_len\n", "*word, size_t word_size\n", "word: an array has its length"),
    "a type of a field": ("  der_range covered\n", "  der_rows covered\n", "covered: has the type der_rows"),
    "a type of a parameter": ("  uint8_t limit\n", "  int limit\n", "limit: has the type int"),
    "what is returned": ("call uint32_t der_mac\n", "call size_t der_mac\n", "der_mac: returns size_t, and not"),
}


class Copy(unittest.TestCase):
    """A copy of what tools/calls reads."""

    def setUp(self):
        room = tempfile.TemporaryDirectory()
        self.addCleanup(room.cleanup)
        self.top = Path(room.name)
        self.had = calls.sources(built.TOP, *READ)
        for path, text in self.had.items():
            (self.top / path).parent.mkdir(parents=True, exist_ok=True)
            self.put(path, text)

    def put(self, path, text):
        (self.top / path).write_text(text, "utf-8")

    def text(self, path):
        return (self.top / path).read_text("utf-8")

    def turn(self, path, text, other):
        """Has another text in place of one that is in a file, and says on which line that begins."""
        had = self.text(path)
        self.assertIn(text, had)
        self.put(path, had.replace(text, other, 1))
        same = next((i for i, (one, two) in enumerate(zip(text, other)) if one != two), 0)
        return calls.line_at(had, had.index(text) + same)

    def faults(self):
        return list(calls.faults(self.top))

    def told(self, path, text, other, name, place=None):
        """Turns a text, and asks that its place and its name are told."""
        line = self.turn(path, text, other)
        begin, found = place or f"{path}:{line}: ", self.faults()
        self.assertTrue(any(fault.startswith(begin) and name in fault for fault in found), (begin, name, found))


class Calls(Copy):
    """What is told, and what is written."""

    def test_nothing_differs(self):
        self.assertEqual([], self.faults())
        calls.write(self.top)
        self.assertEqual(self.had, calls.sources(self.top, *READ))

    def test_what_is_turned_is_told_and_what_is_made_is_made_right(self):
        for what, words in MADE.items():
            with self.subTest(what=what):
                self.told(*words)
                calls.write(self.top)
                self.assertEqual([], self.faults())
                self.assertEqual(self.had[words[0]], self.text(words[0]))
            self.put(words[0], self.had[words[0]])

    def test_what_is_turned_by_hand_is_told(self):
        for what, words in BY_HAND.items():
            with self.subTest(what=what):
                self.told(*words)
            self.put(words[0], self.had[words[0]])

    def test_a_file_of_calls_that_is_none_is_told(self):
        for what, (text, other, said) in NO_CALLS.items():
            with self.subTest(what=what):
                self.turn(FILE, text, other)
                with self.assertRaisesRegex(calls.Unread, rf"^c/calls\.txt:\d+: {said}"):
                    self.faults()
            self.put(FILE, self.had[FILE])

    def test_a_number_of_the_file_is_told_of_each_language(self):
        self.turn(FILE, "  DER_BAD_ATTRIBUTES 12", "  DER_BAD_ATTRIBUTES 13")
        there = {fault.partition(":")[0] for fault in self.faults() if "DER_BAD_ATTRIBUTES" in fault}
        self.assertEqual({C, PYTHON, RUST, STATUS}, there)
        calls.write(self.top)
        # the word of the status is by hand
        self.assertEqual({C, STATUS}, {fault.partition(":")[0] for fault in self.faults()})

    def test_what_is_said_of_a_field_goes_with_it(self):
        self.turn(FILE, "  size_t kind\n  size_t level\n", "  size_t level\n  size_t kind\n")
        calls.write(self.top)
        self.assertIn(LEVEL_IN_C + KIND_IN_C, self.text(C))

    def test_a_new_status_is_written_after_the_last(self):
        self.turn(FILE, "  DER_BAD_ATTRIBUTES 12\n", "  DER_BAD_ATTRIBUTES 12\n  DER_NEW 13\n")
        self.assertTrue(any("DER_NEW: der_status lacks it" in fault for fault in self.faults()))
        calls.write(self.top)
        self.assertIn("  DER_BAD_ATTRIBUTES = 12, /* of a signer", self.text(C))
        self.assertIn("break RFC 5652 */\n  DER_NEW = 13\n} der_status;", self.text(C))
        self.assertIn("\nNEW: Final = 13\n", self.text(PYTHON))

    def test_a_new_call_is_written_where_it_is_declared(self):
        row = "call uint32_t der_new\n  const uint8_t *input, size_t input_len\n  size_t *count\n\n"
        self.turn(FILE, "installed const char *der_version\n", f"{row}installed const char *der_version\n")
        self.assertTrue(any(fault.startswith("c/der.h:1: der_new: the header lacks it") for fault in self.faults()))
        self.turn(C, RANGE_IN_C, f"{RANGE_IN_C}\n/* New. */\nDER_CALL\nuint32_t der_new(void);\n")
        calls.write(self.top)
        made = "DER_CALL\nuint32_t der_new(const uint8_t *input, size_t input_len, size_t *count);\n"
        self.assertIn(f"/* New. */\n{made}", self.text(C))
        self.assertEqual({f"{LIB}:1"}, {fault.split(": ")[0] for fault in self.faults()})

    def test_what_the_file_lacks_stays_in_the_header(self):
        self.turn(FILE, "  size_t level\n", "")
        calls.write(self.top)
        self.assertEqual(self.had[C], self.text(C))
        self.assertTrue(any(": level: der_bag_parts has it, and c/calls.txt lacks it" in one for one in self.faults()))


if __name__ == "__main__":
    unittest.main()
