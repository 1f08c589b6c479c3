"""The numbers and structs of the calls of the library for C, and what the calls take: der.h says what they are.
Made by tools/calls of c/calls.txt."""
import ctypes
from typing import Dict, Final, Tuple

MAX_NESTING: Final = 64

# der_status
NORMAL: Final = 0
LOOSE: Final = 1
UNKNOWN_KIND: Final = 2
MALFORMED: Final = 3
MISSING: Final = 4
INVALID: Final = 5
TOO_DEEP: Final = 6
TOO_LONG: Final = 7
NO_MEMORY: Final = 8
NO_ROOM: Final = 9
NO_RANGE: Final = 10
NO_PART: Final = 11
BAD_ATTRIBUTES: Final = 12

# der_part_number
PART_HASHED_CONTENT: Final = 0
PART_CERTIFICATE: Final = 1
PART_SIGNED_ATTRIBUTES: Final = 2
PART_ISSUER: Final = 3
PART_SERIAL_NUMBER: Final = 4
PART_KEY_IDENTIFIER: Final = 5
PART_DIGEST_ALGORITHM: Final = 6
PART_SIGNATURE_ALGORITHM: Final = 7
PART_SIGNATURE: Final = 8
PART_STORE_CERTIFICATE: Final = 9
PART_STORE_KEY: Final = 10
PART_STORE_ENCRYPTED_KEY: Final = 11
PART_STORE_BAG: Final = 12
PART_MAC_DIGEST_ALGORITHM: Final = 13
PART_MAC_DIGEST: Final = 14
PART_MAC_SALT: Final = 15
PART_RECIPIENT: Final = 16
PART_ENCRYPTION_ALGORITHM: Final = 17
PART_ENCRYPTED_CONTENT: Final = 18

# der_bag_kind
BAG_OTHER: Final = 0
BAG_KEY: Final = 1
BAG_SHROUDED_KEY: Final = 2
BAG_CERTIFICATE: Final = 3
BAG_CRL: Final = 4
BAG_SECRET: Final = 5
BAG_SAFE_CONTENTS: Final = 6
BAG_UNREAD: Final = 7
BAG_OTHER_CERTIFICATE: Final = 8
BAG_OTHER_CRL: Final = 9

# der_password_holder
HOLDER_ALGORITHM: Final = 0
HOLDER_KEY: Final = 1
HOLDER_CONTENTS: Final = 2

# der_password_part
PASSWORD_ALGORITHM: Final = 1
PASSWORD_PARAMETERS: Final = 2
PASSWORD_DERIVATION: Final = 3
PASSWORD_DERIVATION_PARAMETERS: Final = 4
PASSWORD_SALT: Final = 5
PASSWORD_PRF: Final = 6
PASSWORD_ENCRYPTION: Final = 7
PASSWORD_ENCRYPTION_PARAMETERS: Final = 8
PASSWORD_INITIALIZATION_VECTOR: Final = 9
PASSWORD_ENCRYPTED: Final = 10
PASSWORD_ITERATIONS: Final = 11
PASSWORD_KEY_LENGTH: Final = 12
PASSWORD_SCHEME: Final = 13

# der_bag_part
BAG_PART_KIND: Final = 1
BAG_PART_IDENTIFIER: Final = 2
BAG_PART_VALUE: Final = 3
BAG_PART_FRIENDLY_NAME: Final = 4
BAG_PART_LOCAL_KEY_ID: Final = 5
BAG_PART_ATTRIBUTES: Final = 6

# der_store_part
STORE_PART_SAFE: Final = 1
STORE_PART_DIGEST_ALGORITHM: Final = 2
STORE_PART_DIGEST_PARAMETERS: Final = 3
STORE_PART_DIGEST: Final = 4
STORE_PART_SALT: Final = 5
STORE_PART_ITERATIONS: Final = 6

# der_attributes_part
ATTRIBUTES_PART_CONTENT_TYPE: Final = 1
ATTRIBUTES_PART_MESSAGE_DIGEST: Final = 2
ATTRIBUTES_PART_SIGNING_TIME: Final = 3
ATTRIBUTES_PART_ATTRIBUTES: Final = 4

# der_indirect_part
INDIRECT_PART_ATTRIBUTE_TYPE: Final = 1
INDIRECT_PART_ATTRIBUTE_VALUE: Final = 2
INDIRECT_PART_DIGEST_ALGORITHM: Final = 3
INDIRECT_PART_DIGEST: Final = 4
INDIRECT_PART_IMAGE_FLAGS: Final = 5
INDIRECT_PART_IMAGE_LINK: Final = 6

# der_signed_part
SIGNED_PART_CONTENT_TYPE: Final = 1
SIGNED_PART_CONTENT: Final = 2
SIGNED_PART_CERTIFICATE: Final = 3
SIGNED_PART_CRL: Final = 4
SIGNED_PART_IDENTIFIER: Final = 5
SIGNED_PART_DIGEST_ALGORITHM: Final = 6
SIGNED_PART_SIGNED_ATTRIBUTES: Final = 7
SIGNED_PART_SIGNATURE_ALGORITHM: Final = 8
SIGNED_PART_SIGNATURE: Final = 9
SIGNED_PART_UNSIGNED_ATTRIBUTES: Final = 10

# der_recipient_part
RECIPIENT_PART_IDENTIFIER: Final = 1
RECIPIENT_PART_ALGORITHM: Final = 2
RECIPIENT_PART_KEY: Final = 3

# der_enveloped_part
ENVELOPED_PART_CONTENT_TYPE: Final = 1
ENVELOPED_PART_ALGORITHM: Final = 2
ENVELOPED_PART_CONTENT: Final = 3
ENVELOPED_PART_RECIPIENT: Final = 4
ENVELOPED_PART_RECIPIENTS: Final = 5
ENVELOPED_PART_ATTRIBUTES: Final = 6


class Range(ctypes.Structure):
    """A der_range."""

    _fields_ = [
        ("start", ctypes.c_size_t),
        ("len", ctypes.c_size_t),
    ]
    start: int
    len: int


class SignerParts(ctypes.Structure):
    """A der_signer_parts."""

    _fields_ = [
        ("status", ctypes.c_size_t),
        ("over_attributes", ctypes.c_size_t),
        ("has_content", ctypes.c_size_t),
        ("has_certificate", ctypes.c_size_t),
        ("covered", Range),
        ("digest", Range),
        ("content", Range),
        ("digest_algorithm", Range),
        ("signature_algorithm", Range),
        ("signature", Range),
        ("certificate", Range),
    ]
    status: int
    over_attributes: int
    has_content: int
    has_certificate: int
    covered: Range
    digest: Range
    content: Range
    digest_algorithm: Range
    signature_algorithm: Range
    signature: Range
    certificate: Range


class BagParts(ctypes.Structure):
    """A der_bag_parts."""

    _fields_ = [
        ("kind", ctypes.c_size_t),
        ("level", ctypes.c_size_t),
        ("has_friendly_name", ctypes.c_size_t),
        ("has_local_key_id", ctypes.c_size_t),
        ("element", Range),
        ("value", Range),
        ("friendly_name", Range),
        ("local_key_id", Range),
    ]
    kind: int
    level: int
    has_friendly_name: int
    has_local_key_id: int
    element: Range
    value: Range
    friendly_name: Range
    local_key_id: Range


class CertificateParts(ctypes.Structure):
    """A der_certificate_parts."""

    _fields_ = [
        ("has_key", ctypes.c_size_t),
        ("has_key_parameters", ctypes.c_size_t),
        ("has_extensions", ctypes.c_size_t),
        ("has_key_identifier", ctypes.c_size_t),
        ("serial_number", Range),
        ("issuer", Range),
        ("validity", Range),
        ("subject", Range),
        ("subject_public_key_info", Range),
        ("key_algorithm", Range),
        ("key_parameters", Range),
        ("public_key", Range),
        ("extensions", Range),
        ("key_identifier", Range),
    ]
    has_key: int
    has_key_parameters: int
    has_extensions: int
    has_key_identifier: int
    serial_number: Range
    issuer: Range
    validity: Range
    subject: Range
    subject_public_key_info: Range
    key_algorithm: Range
    key_parameters: Range
    public_key: Range
    extensions: Range
    key_identifier: Range


class IndirectParts(ctypes.Structure):
    """A der_indirect_parts."""

    _fields_ = [
        ("has_attribute_value", ctypes.c_size_t),
        ("is_image", ctypes.c_size_t),
        ("has_image_flags", ctypes.c_size_t),
        ("has_image_link", ctypes.c_size_t),
        ("attribute_type", Range),
        ("attribute_value", Range),
        ("digest_algorithm", Range),
        ("digest", Range),
        ("image_flags", Range),
        ("image_link", Range),
    ]
    has_attribute_value: int
    is_image: int
    has_image_flags: int
    has_image_link: int
    attribute_type: Range
    attribute_value: Range
    digest_algorithm: Range
    digest: Range
    image_flags: Range
    image_link: Range


class TrustListParts(ctypes.Structure):
    """A der_trust_list_parts."""

    _fields_ = [
        ("has_version", ctypes.c_size_t),
        ("has_list_identifier", ctypes.c_size_t),
        ("has_sequence_number", ctypes.c_size_t),
        ("has_next_update", ctypes.c_size_t),
        ("has_extensions", ctypes.c_size_t),
        ("version", Range),
        ("usages", Range),
        ("list_identifier", Range),
        ("sequence_number", Range),
        ("this_update", Range),
        ("next_update", Range),
        ("algorithm", Range),
        ("extensions", Range),
    ]
    has_version: int
    has_list_identifier: int
    has_sequence_number: int
    has_next_update: int
    has_extensions: int
    version: Range
    usages: Range
    list_identifier: Range
    sequence_number: Range
    this_update: Range
    next_update: Range
    algorithm: Range
    extensions: Range


class TrustEntryParts(ctypes.Structure):
    """A der_trust_entry_parts."""

    _fields_ = [
        ("has_attributes", ctypes.c_size_t),
        ("identifier", Range),
        ("attributes", Range),
    ]
    has_attributes: int
    identifier: Range
    attributes: Range


class PasswordParts(ctypes.Structure):
    """A der_password_parts."""

    _fields_ = [
        ("has_parameters", ctypes.c_size_t),
        ("is_pbes1", ctypes.c_size_t),
        ("is_pkcs12", ctypes.c_size_t),
        ("is_pbes2", ctypes.c_size_t),
        ("has_derivation_parameters", ctypes.c_size_t),
        ("is_pbkdf2", ctypes.c_size_t),
        ("has_salt", ctypes.c_size_t),
        ("has_key_length", ctypes.c_size_t),
        ("has_prf", ctypes.c_size_t),
        ("has_encryption_parameters", ctypes.c_size_t),
        ("has_initialization_vector", ctypes.c_size_t),
        ("has_encrypted", ctypes.c_size_t),
        ("iterations", ctypes.c_size_t),
        ("key_length", ctypes.c_size_t),
        ("algorithm", Range),
        ("parameters", Range),
        ("derivation", Range),
        ("derivation_parameters", Range),
        ("salt", Range),
        ("prf", Range),
        ("encryption", Range),
        ("encryption_parameters", Range),
        ("initialization_vector", Range),
        ("encrypted", Range),
    ]
    has_parameters: int
    is_pbes1: int
    is_pkcs12: int
    is_pbes2: int
    has_derivation_parameters: int
    is_pbkdf2: int
    has_salt: int
    has_key_length: int
    has_prf: int
    has_encryption_parameters: int
    has_initialization_vector: int
    has_encrypted: int
    iterations: int
    key_length: int
    algorithm: Range
    parameters: Range
    derivation: Range
    derivation_parameters: Range
    salt: Range
    prf: Range
    encryption: Range
    encryption_parameters: Range
    initialization_vector: Range
    encrypted: Range


class BagGiven(ctypes.Structure):
    """A der_bag_given."""

    _fields_ = [
        ("kind", ctypes.c_size_t),
        ("has_friendly_name", ctypes.c_size_t),
        ("has_local_key_id", ctypes.c_size_t),
        ("has_attributes", ctypes.c_size_t),
        ("identifier", Range),
        ("value", Range),
        ("friendly_name", Range),
        ("local_key_id", Range),
        ("attributes", Range),
    ]
    kind: int
    has_friendly_name: int
    has_local_key_id: int
    has_attributes: int
    identifier: Range
    value: Range
    friendly_name: Range
    local_key_id: Range
    attributes: Range


class ContentGiven(ctypes.Structure):
    """A der_content_given."""

    _fields_ = [
        ("is_data", ctypes.c_size_t),
        ("octets", Range),
    ]
    is_data: int
    octets: Range


class StoreGiven(ctypes.Structure):
    """A der_store_given."""

    _fields_ = [
        ("has_mac", ctypes.c_size_t),
        ("has_digest_parameters", ctypes.c_size_t),
        ("iterations", ctypes.c_size_t),
        ("safe", Range),
        ("digest_algorithm", Range),
        ("digest_parameters", Range),
        ("digest", Range),
        ("salt", Range),
    ]
    has_mac: int
    has_digest_parameters: int
    iterations: int
    safe: Range
    digest_algorithm: Range
    digest_parameters: Range
    digest: Range
    salt: Range


class AttributesGiven(ctypes.Structure):
    """A der_attributes_given."""

    _fields_ = [
        ("has_content_type", ctypes.c_size_t),
        ("has_message_digest", ctypes.c_size_t),
        ("has_signing_time", ctypes.c_size_t),
        ("has_attributes", ctypes.c_size_t),
        ("content_type", Range),
        ("message_digest", Range),
        ("signing_time", Range),
        ("attributes", Range),
    ]
    has_content_type: int
    has_message_digest: int
    has_signing_time: int
    has_attributes: int
    content_type: Range
    message_digest: Range
    signing_time: Range
    attributes: Range


class SignedGiven(ctypes.Structure):
    """A der_signed_given."""

    _fields_ = [
        ("has_content", ctypes.c_size_t),
        ("is_element", ctypes.c_size_t),
        ("content_type", Range),
        ("content", Range),
    ]
    has_content: int
    is_element: int
    content_type: Range
    content: Range


class SignerGiven(ctypes.Structure):
    """A der_signer_given."""

    _fields_ = [
        ("has_key_identifier", ctypes.c_size_t),
        ("has_signed_attributes", ctypes.c_size_t),
        ("has_unsigned_attributes", ctypes.c_size_t),
        ("certificate", Range),
        ("key_identifier", Range),
        ("digest_algorithm", Range),
        ("signed_attributes", Range),
        ("signature_algorithm", Range),
        ("signature", Range),
        ("unsigned_attributes", Range),
    ]
    has_key_identifier: int
    has_signed_attributes: int
    has_unsigned_attributes: int
    certificate: Range
    key_identifier: Range
    digest_algorithm: Range
    signed_attributes: Range
    signature_algorithm: Range
    signature: Range
    unsigned_attributes: Range


class RecipientGiven(ctypes.Structure):
    """A der_recipient_given."""

    _fields_ = [
        ("is_kek", ctypes.c_size_t),
        ("has_key_identifier", ctypes.c_size_t),
        ("certificate", Range),
        ("key_identifier", Range),
        ("algorithm", Range),
        ("key", Range),
    ]
    is_kek: int
    has_key_identifier: int
    certificate: Range
    key_identifier: Range
    algorithm: Range
    key: Range


class EnvelopedGiven(ctypes.Structure):
    """A der_enveloped_given."""

    _fields_ = [
        ("has_content", ctypes.c_size_t),
        ("has_attributes", ctypes.c_size_t),
        ("content_type", Range),
        ("algorithm", Range),
        ("content", Range),
        ("attributes", Range),
    ]
    has_content: int
    has_attributes: int
    content_type: Range
    algorithm: Range
    content: Range
    attributes: Range


# What calls answer, and what they take.
STATUS = ctypes.c_uint32
_BYTE, _SIZE = ctypes.c_uint8, ctypes.c_size_t
_OCTETS, _NUMBER = ctypes.c_void_p, ctypes.POINTER(ctypes.c_size_t)
ARGUMENTS: Dict[str, Tuple[object, ...]] = {
    "der_check_word_limited": (_OCTETS, _SIZE, _BYTE, _OCTETS, _SIZE, _NUMBER, _NUMBER),
    "der_rewrite_word_limited": (_OCTETS, _SIZE, _BYTE, _OCTETS, _SIZE, _OCTETS, _SIZE, _NUMBER),
    "der_kind_word": (_SIZE, _OCTETS, _SIZE, _NUMBER),
    "der_part_octets": (_SIZE, _SIZE, _OCTETS, _SIZE, _OCTETS, _SIZE, _NUMBER, _NUMBER),
    "der_part_ranges": (_SIZE, _OCTETS, _SIZE, ctypes.POINTER(Range), _SIZE, _NUMBER, _NUMBER),
    "der_attribute_ranges": (_SIZE, _SIZE, _OCTETS, _SIZE, ctypes.POINTER(Range), _SIZE, _NUMBER, _NUMBER),
    "der_signer_rows": (_OCTETS, _SIZE, _SIZE, ctypes.POINTER(SignerParts), _SIZE, _NUMBER, _NUMBER),
    "der_bag_rows": (_OCTETS, _SIZE, ctypes.POINTER(BagParts), _SIZE, _NUMBER, _NUMBER),
    "der_certificate": (_OCTETS, _SIZE, ctypes.POINTER(CertificateParts), _NUMBER),
    "der_indirect": (_OCTETS, _SIZE, ctypes.POINTER(IndirectParts), _NUMBER),
    "der_trust_list": (_OCTETS, _SIZE, ctypes.POINTER(TrustListParts), _NUMBER),
    "der_trust_rows": (_OCTETS, _SIZE, ctypes.POINTER(TrustEntryParts), _SIZE, _NUMBER, _NUMBER),
    "der_password_parameters": (_SIZE, _OCTETS, _SIZE, ctypes.POINTER(PasswordParts), _NUMBER),
    "der_build_parameters": (_SIZE, _OCTETS, _SIZE, ctypes.POINTER(PasswordParts), _OCTETS, _SIZE, _NUMBER, _NUMBER),
    "der_build_bags": (_OCTETS, _SIZE, ctypes.POINTER(BagGiven), _SIZE, _OCTETS, _SIZE, _NUMBER, _NUMBER, _NUMBER),
    "der_build_safe": (_OCTETS, _SIZE, ctypes.POINTER(ContentGiven), _SIZE, _OCTETS, _SIZE, _NUMBER, _NUMBER),
    "der_build_store": (_OCTETS, _SIZE, ctypes.POINTER(StoreGiven), _OCTETS, _SIZE, _NUMBER, _NUMBER),
    "der_build_attributes": (_OCTETS, _SIZE, ctypes.POINTER(AttributesGiven), _OCTETS, _SIZE, _NUMBER, _NUMBER),
    "der_build_signed": (_OCTETS, _SIZE, ctypes.POINTER(SignedGiven), ctypes.POINTER(Range), _SIZE,
        ctypes.POINTER(Range), _SIZE, ctypes.POINTER(SignerGiven), _SIZE, _OCTETS, _SIZE, _NUMBER, _NUMBER, _NUMBER),
    "der_build_indirect": (_OCTETS, _SIZE, ctypes.POINTER(IndirectParts), _OCTETS, _SIZE, _NUMBER, _NUMBER),
    "der_build_recipient": (_OCTETS, _SIZE, ctypes.POINTER(RecipientGiven), _OCTETS, _SIZE, _NUMBER, _NUMBER),
    "der_build_enveloped": (_OCTETS, _SIZE, ctypes.POINTER(EnvelopedGiven), ctypes.POINTER(Range), _SIZE, _OCTETS,
        _SIZE, _NUMBER, _NUMBER, _NUMBER),
    "der_mac_range": (_OCTETS, _SIZE, _NUMBER, _NUMBER),
    "der_mac": (_OCTETS, _SIZE, _NUMBER, _NUMBER, _NUMBER),
    "der_from_ber": (_OCTETS, _SIZE, _OCTETS, _SIZE, _NUMBER, _NUMBER),
    "der_mac_ber": (_OCTETS, _SIZE, _NUMBER, _NUMBER, _NUMBER),
    "der_mac_part_ber": (_SIZE, _OCTETS, _SIZE, _OCTETS, _SIZE, _NUMBER),
    "der_name_text": (_OCTETS, _SIZE, _OCTETS, _SIZE, _NUMBER),
    "der_oid_text": (_OCTETS, _SIZE, _OCTETS, _SIZE, _NUMBER),
    "der_oid_octets": (_OCTETS, _SIZE, _OCTETS, _SIZE, _NUMBER),
    "der_oid_name": (_OCTETS, _SIZE, _OCTETS, _SIZE, _NUMBER),
    "der_integer_text": (_OCTETS, _SIZE, _OCTETS, _SIZE, _NUMBER),
    "der_utf16_text": (_OCTETS, _SIZE, _OCTETS, _SIZE, _NUMBER),
    "der_text_utf16": (_OCTETS, _SIZE, _OCTETS, _SIZE, _NUMBER),
}
