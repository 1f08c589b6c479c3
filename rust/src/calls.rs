//! The calls, as `der.h` declares them. Made by tools/calls of c/calls.txt.
// not each number is used
#![allow(dead_code)]
use std::os::raw::c_char;

pub const MAX_NESTING: u8 = 64;

// der_status
pub const NORMAL: u32 = 0;
pub const LOOSE: u32 = 1;
pub const UNKNOWN_KIND: u32 = 2;
pub const MALFORMED: u32 = 3;
pub const MISSING: u32 = 4;
pub const INVALID: u32 = 5;
pub const TOO_DEEP: u32 = 6;
pub const TOO_LONG: u32 = 7;
pub const NO_MEMORY: u32 = 8;
pub const NO_ROOM: u32 = 9;
pub const NO_RANGE: u32 = 10;
pub const NO_PART: u32 = 11;
pub const BAD_ATTRIBUTES: u32 = 12;

// der_part_number
pub const PART_HASHED_CONTENT: usize = 0;
pub const PART_CERTIFICATE: usize = 1;
pub const PART_SIGNED_ATTRIBUTES: usize = 2;
pub const PART_ISSUER: usize = 3;
pub const PART_SERIAL_NUMBER: usize = 4;
pub const PART_KEY_IDENTIFIER: usize = 5;
pub const PART_DIGEST_ALGORITHM: usize = 6;
pub const PART_SIGNATURE_ALGORITHM: usize = 7;
pub const PART_SIGNATURE: usize = 8;
pub const PART_STORE_CERTIFICATE: usize = 9;
pub const PART_STORE_KEY: usize = 10;
pub const PART_STORE_ENCRYPTED_KEY: usize = 11;
pub const PART_STORE_BAG: usize = 12;
pub const PART_MAC_DIGEST_ALGORITHM: usize = 13;
pub const PART_MAC_DIGEST: usize = 14;
pub const PART_MAC_SALT: usize = 15;
pub const PART_RECIPIENT: usize = 16;
pub const PART_ENCRYPTION_ALGORITHM: usize = 17;
pub const PART_ENCRYPTED_CONTENT: usize = 18;

// der_bag_kind
pub const BAG_OTHER: usize = 0;
pub const BAG_KEY: usize = 1;
pub const BAG_SHROUDED_KEY: usize = 2;
pub const BAG_CERTIFICATE: usize = 3;
pub const BAG_CRL: usize = 4;
pub const BAG_SECRET: usize = 5;
pub const BAG_SAFE_CONTENTS: usize = 6;
pub const BAG_UNREAD: usize = 7;
pub const BAG_OTHER_CERTIFICATE: usize = 8;
pub const BAG_OTHER_CRL: usize = 9;

// der_password_holder
pub const HOLDER_ALGORITHM: usize = 0;
pub const HOLDER_KEY: usize = 1;
pub const HOLDER_CONTENTS: usize = 2;

// der_password_part
pub const PASSWORD_ALGORITHM: usize = 1;
pub const PASSWORD_PARAMETERS: usize = 2;
pub const PASSWORD_DERIVATION: usize = 3;
pub const PASSWORD_DERIVATION_PARAMETERS: usize = 4;
pub const PASSWORD_SALT: usize = 5;
pub const PASSWORD_PRF: usize = 6;
pub const PASSWORD_ENCRYPTION: usize = 7;
pub const PASSWORD_ENCRYPTION_PARAMETERS: usize = 8;
pub const PASSWORD_INITIALIZATION_VECTOR: usize = 9;
pub const PASSWORD_ENCRYPTED: usize = 10;
pub const PASSWORD_ITERATIONS: usize = 11;
pub const PASSWORD_KEY_LENGTH: usize = 12;
pub const PASSWORD_SCHEME: usize = 13;

// der_bag_part
pub const BAG_PART_KIND: usize = 1;
pub const BAG_PART_IDENTIFIER: usize = 2;
pub const BAG_PART_VALUE: usize = 3;
pub const BAG_PART_FRIENDLY_NAME: usize = 4;
pub const BAG_PART_LOCAL_KEY_ID: usize = 5;
pub const BAG_PART_ATTRIBUTES: usize = 6;

// der_store_part
pub const STORE_PART_SAFE: usize = 1;
pub const STORE_PART_DIGEST_ALGORITHM: usize = 2;
pub const STORE_PART_DIGEST_PARAMETERS: usize = 3;
pub const STORE_PART_DIGEST: usize = 4;
pub const STORE_PART_SALT: usize = 5;
pub const STORE_PART_ITERATIONS: usize = 6;

// der_attributes_part
pub const ATTRIBUTES_PART_CONTENT_TYPE: usize = 1;
pub const ATTRIBUTES_PART_MESSAGE_DIGEST: usize = 2;
pub const ATTRIBUTES_PART_SIGNING_TIME: usize = 3;
pub const ATTRIBUTES_PART_ATTRIBUTES: usize = 4;

// der_indirect_part
pub const INDIRECT_PART_ATTRIBUTE_TYPE: usize = 1;
pub const INDIRECT_PART_ATTRIBUTE_VALUE: usize = 2;
pub const INDIRECT_PART_DIGEST_ALGORITHM: usize = 3;
pub const INDIRECT_PART_DIGEST: usize = 4;
pub const INDIRECT_PART_IMAGE_FLAGS: usize = 5;
pub const INDIRECT_PART_IMAGE_LINK: usize = 6;

// der_signed_part
pub const SIGNED_PART_CONTENT_TYPE: usize = 1;
pub const SIGNED_PART_CONTENT: usize = 2;
pub const SIGNED_PART_CERTIFICATE: usize = 3;
pub const SIGNED_PART_CRL: usize = 4;
pub const SIGNED_PART_IDENTIFIER: usize = 5;
pub const SIGNED_PART_DIGEST_ALGORITHM: usize = 6;
pub const SIGNED_PART_SIGNED_ATTRIBUTES: usize = 7;
pub const SIGNED_PART_SIGNATURE_ALGORITHM: usize = 8;
pub const SIGNED_PART_SIGNATURE: usize = 9;
pub const SIGNED_PART_UNSIGNED_ATTRIBUTES: usize = 10;

// der_recipient_part
pub const RECIPIENT_PART_IDENTIFIER: usize = 1;
pub const RECIPIENT_PART_ALGORITHM: usize = 2;
pub const RECIPIENT_PART_KEY: usize = 3;

// der_enveloped_part
pub const ENVELOPED_PART_CONTENT_TYPE: usize = 1;
pub const ENVELOPED_PART_ALGORITHM: usize = 2;
pub const ENVELOPED_PART_CONTENT: usize = 3;
pub const ENVELOPED_PART_RECIPIENT: usize = 4;
pub const ENVELOPED_PART_RECIPIENTS: usize = 5;
pub const ENVELOPED_PART_ATTRIBUTES: usize = 6;

/// `der_range`
#[repr(C)]
#[derive(Clone, Copy, Default)]
pub struct Range {
    pub start: usize,
    pub len: usize,
}

/// `der_signer_parts`
#[repr(C)]
#[derive(Clone, Copy, Default)]
pub struct SignerParts {
    pub status: usize,
    pub over_attributes: usize,
    pub has_content: usize,
    pub has_certificate: usize,
    pub covered: Range,
    pub digest: Range,
    pub content: Range,
    pub digest_algorithm: Range,
    pub signature_algorithm: Range,
    pub signature: Range,
    pub certificate: Range,
}

/// `der_bag_parts`
#[repr(C)]
#[derive(Clone, Copy, Default)]
pub struct BagParts {
    pub kind: usize,
    pub level: usize,
    pub has_friendly_name: usize,
    pub has_local_key_id: usize,
    pub element: Range,
    pub value: Range,
    pub friendly_name: Range,
    pub local_key_id: Range,
}

/// `der_certificate_parts`
#[repr(C)]
#[derive(Clone, Copy, Default)]
pub struct CertificateParts {
    pub has_key: usize,
    pub has_key_parameters: usize,
    pub has_extensions: usize,
    pub has_key_identifier: usize,
    pub serial_number: Range,
    pub issuer: Range,
    pub validity: Range,
    pub subject: Range,
    pub subject_public_key_info: Range,
    pub key_algorithm: Range,
    pub key_parameters: Range,
    pub public_key: Range,
    pub extensions: Range,
    pub key_identifier: Range,
}

/// `der_indirect_parts`
#[repr(C)]
#[derive(Clone, Copy, Default)]
pub struct IndirectParts {
    pub has_attribute_value: usize,
    pub is_image: usize,
    pub has_image_flags: usize,
    pub has_image_link: usize,
    pub attribute_type: Range,
    pub attribute_value: Range,
    pub digest_algorithm: Range,
    pub digest: Range,
    pub image_flags: Range,
    pub image_link: Range,
}

/// `der_trust_list_parts`
#[repr(C)]
#[derive(Clone, Copy, Default)]
pub struct TrustListParts {
    pub has_version: usize,
    pub has_list_identifier: usize,
    pub has_sequence_number: usize,
    pub has_next_update: usize,
    pub has_extensions: usize,
    pub version: Range,
    pub usages: Range,
    pub list_identifier: Range,
    pub sequence_number: Range,
    pub this_update: Range,
    pub next_update: Range,
    pub algorithm: Range,
    pub extensions: Range,
}

/// `der_trust_entry_parts`
#[repr(C)]
#[derive(Clone, Copy, Default)]
pub struct TrustEntryParts {
    pub has_attributes: usize,
    pub identifier: Range,
    pub attributes: Range,
}

/// `der_password_parts`
#[repr(C)]
#[derive(Clone, Copy, Default)]
pub struct PasswordParts {
    pub has_parameters: usize,
    pub is_pbes1: usize,
    pub is_pkcs12: usize,
    pub is_pbes2: usize,
    pub has_derivation_parameters: usize,
    pub is_pbkdf2: usize,
    pub has_salt: usize,
    pub has_key_length: usize,
    pub has_prf: usize,
    pub has_encryption_parameters: usize,
    pub has_initialization_vector: usize,
    pub has_encrypted: usize,
    pub iterations: usize,
    pub key_length: usize,
    pub algorithm: Range,
    pub parameters: Range,
    pub derivation: Range,
    pub derivation_parameters: Range,
    pub salt: Range,
    pub prf: Range,
    pub encryption: Range,
    pub encryption_parameters: Range,
    pub initialization_vector: Range,
    pub encrypted: Range,
}

/// `der_bag_given`
#[repr(C)]
#[derive(Clone, Copy, Default)]
pub struct BagGiven {
    pub kind: usize,
    pub has_friendly_name: usize,
    pub has_local_key_id: usize,
    pub has_attributes: usize,
    pub identifier: Range,
    pub value: Range,
    pub friendly_name: Range,
    pub local_key_id: Range,
    pub attributes: Range,
}

/// `der_content_given`
#[repr(C)]
#[derive(Clone, Copy, Default)]
pub struct ContentGiven {
    pub is_data: usize,
    pub octets: Range,
}

/// `der_store_given`
#[repr(C)]
#[derive(Clone, Copy, Default)]
pub struct StoreGiven {
    pub has_mac: usize,
    pub has_digest_parameters: usize,
    pub iterations: usize,
    pub safe: Range,
    pub digest_algorithm: Range,
    pub digest_parameters: Range,
    pub digest: Range,
    pub salt: Range,
}

/// `der_attributes_given`
#[repr(C)]
#[derive(Clone, Copy, Default)]
pub struct AttributesGiven {
    pub has_content_type: usize,
    pub has_message_digest: usize,
    pub has_signing_time: usize,
    pub has_attributes: usize,
    pub content_type: Range,
    pub message_digest: Range,
    pub signing_time: Range,
    pub attributes: Range,
}

/// `der_signed_given`
#[repr(C)]
#[derive(Clone, Copy, Default)]
pub struct SignedGiven {
    pub has_content: usize,
    pub is_element: usize,
    pub content_type: Range,
    pub content: Range,
}

/// `der_signer_given`
#[repr(C)]
#[derive(Clone, Copy, Default)]
pub struct SignerGiven {
    pub has_key_identifier: usize,
    pub has_signed_attributes: usize,
    pub has_unsigned_attributes: usize,
    pub certificate: Range,
    pub key_identifier: Range,
    pub digest_algorithm: Range,
    pub signed_attributes: Range,
    pub signature_algorithm: Range,
    pub signature: Range,
    pub unsigned_attributes: Range,
}

/// `der_recipient_given`
#[repr(C)]
#[derive(Clone, Copy, Default)]
pub struct RecipientGiven {
    pub is_kek: usize,
    pub has_key_identifier: usize,
    pub certificate: Range,
    pub key_identifier: Range,
    pub algorithm: Range,
    pub key: Range,
}

/// `der_enveloped_given`
#[repr(C)]
#[derive(Clone, Copy, Default)]
pub struct EnvelopedGiven {
    pub has_content: usize,
    pub has_attributes: usize,
    pub content_type: Range,
    pub algorithm: Range,
    pub content: Range,
    pub attributes: Range,
}

extern "C" {
    pub fn der_check_word_limited(
        word: *const u8,
        word_len: usize,
        limit: u8,
        input: *const u8,
        input_len: usize,
        normal_len: *mut usize,
        place: *mut usize,
    ) -> u32;
    pub fn der_rewrite_word_limited(
        word: *const u8,
        word_len: usize,
        limit: u8,
        input: *const u8,
        input_len: usize,
        out: *mut u8,
        out_len: usize,
        written: *mut usize,
    ) -> u32;
    pub fn der_kind_word(index: usize, out: *mut u8, out_len: usize, written: *mut usize) -> u32;
    pub fn der_part_octets(
        number: usize,
        index: usize,
        input: *const u8,
        input_len: usize,
        out: *mut u8,
        out_len: usize,
        written: *mut usize,
        place: *mut usize,
    ) -> u32;
    pub fn der_part_ranges(
        number: usize,
        input: *const u8,
        input_len: usize,
        out: *mut Range,
        out_len: usize,
        count: *mut usize,
        place: *mut usize,
    ) -> u32;
    pub fn der_attribute_ranges(
        is_signed: usize,
        index: usize,
        input: *const u8,
        input_len: usize,
        out: *mut Range,
        out_len: usize,
        count: *mut usize,
        place: *mut usize,
    ) -> u32;
    pub fn der_signer_rows(
        input: *const u8,
        input_len: usize,
        first: usize,
        out: *mut SignerParts,
        out_len: usize,
        count: *mut usize,
        place: *mut usize,
    ) -> u32;
    pub fn der_bag_rows(
        input: *const u8,
        input_len: usize,
        out: *mut BagParts,
        out_len: usize,
        count: *mut usize,
        place: *mut usize,
    ) -> u32;
    pub fn der_certificate(input: *const u8, input_len: usize, out: *mut CertificateParts, place: *mut usize) -> u32;
    pub fn der_indirect(input: *const u8, input_len: usize, out: *mut IndirectParts, place: *mut usize) -> u32;
    pub fn der_trust_list(input: *const u8, input_len: usize, out: *mut TrustListParts, place: *mut usize) -> u32;
    pub fn der_trust_rows(
        input: *const u8,
        input_len: usize,
        out: *mut TrustEntryParts,
        out_len: usize,
        count: *mut usize,
        place: *mut usize,
    ) -> u32;
    pub fn der_password_parameters(
        holder: usize,
        input: *const u8,
        input_len: usize,
        out: *mut PasswordParts,
        place: *mut usize,
    ) -> u32;
    pub fn der_build_parameters(
        holder: usize,
        input: *const u8,
        input_len: usize,
        given: *const PasswordParts,
        out: *mut u8,
        out_len: usize,
        written: *mut usize,
        part: *mut usize,
    ) -> u32;
    pub fn der_build_bags(
        input: *const u8,
        input_len: usize,
        bags: *const BagGiven,
        bags_len: usize,
        out: *mut u8,
        out_len: usize,
        written: *mut usize,
        bag: *mut usize,
        part: *mut usize,
    ) -> u32;
    pub fn der_build_safe(
        input: *const u8,
        input_len: usize,
        contents: *const ContentGiven,
        contents_len: usize,
        out: *mut u8,
        out_len: usize,
        written: *mut usize,
        content: *mut usize,
    ) -> u32;
    pub fn der_build_store(
        input: *const u8,
        input_len: usize,
        given: *const StoreGiven,
        out: *mut u8,
        out_len: usize,
        written: *mut usize,
        part: *mut usize,
    ) -> u32;
    pub fn der_build_attributes(
        input: *const u8,
        input_len: usize,
        given: *const AttributesGiven,
        out: *mut u8,
        out_len: usize,
        written: *mut usize,
        part: *mut usize,
    ) -> u32;
    pub fn der_build_signed(
        input: *const u8,
        input_len: usize,
        given: *const SignedGiven,
        certificates: *const Range,
        certificates_len: usize,
        crls: *const Range,
        crls_len: usize,
        signers: *const SignerGiven,
        signers_len: usize,
        out: *mut u8,
        out_len: usize,
        written: *mut usize,
        index: *mut usize,
        part: *mut usize,
    ) -> u32;
    pub fn der_build_indirect(
        input: *const u8,
        input_len: usize,
        given: *const IndirectParts,
        out: *mut u8,
        out_len: usize,
        written: *mut usize,
        part: *mut usize,
    ) -> u32;
    pub fn der_build_recipient(
        input: *const u8,
        input_len: usize,
        given: *const RecipientGiven,
        out: *mut u8,
        out_len: usize,
        written: *mut usize,
        part: *mut usize,
    ) -> u32;
    pub fn der_build_enveloped(
        input: *const u8,
        input_len: usize,
        given: *const EnvelopedGiven,
        recipients: *const Range,
        recipients_len: usize,
        out: *mut u8,
        out_len: usize,
        written: *mut usize,
        index: *mut usize,
        part: *mut usize,
    ) -> u32;
    pub fn der_mac_range(input: *const u8, input_len: usize, start: *mut usize, len: *mut usize) -> u32;
    pub fn der_mac(
        input: *const u8,
        input_len: usize,
        start: *mut usize,
        len: *mut usize,
        iterations: *mut usize,
    ) -> u32;
    pub fn der_from_ber(
        input: *const u8,
        input_len: usize,
        out: *mut u8,
        out_len: usize,
        written: *mut usize,
        place: *mut usize,
    ) -> u32;
    pub fn der_mac_ber(
        input: *const u8,
        input_len: usize,
        start: *mut usize,
        len: *mut usize,
        iterations: *mut usize,
    ) -> u32;
    pub fn der_mac_part_ber(
        number: usize,
        input: *const u8,
        input_len: usize,
        out: *mut u8,
        out_len: usize,
        written: *mut usize,
    ) -> u32;
    pub fn der_name_text(input: *const u8, input_len: usize, out: *mut u8, out_len: usize, written: *mut usize) -> u32;
    pub fn der_oid_text(octets: *const u8, octets_len: usize, out: *mut u8, out_len: usize, written: *mut usize) -> u32;
    pub fn der_oid_octets(text: *const u8, text_len: usize, out: *mut u8, out_len: usize, written: *mut usize) -> u32;
    pub fn der_oid_name(octets: *const u8, octets_len: usize, out: *mut u8, out_len: usize, written: *mut usize) -> u32;
    pub fn der_integer_text(
        octets: *const u8,
        octets_len: usize,
        out: *mut u8,
        out_len: usize,
        written: *mut usize,
    ) -> u32;
    pub fn der_utf16_text(
        octets: *const u8,
        octets_len: usize,
        out: *mut u8,
        out_len: usize,
        written: *mut usize,
    ) -> u32;
    pub fn der_text_utf16(text: *const u8, text_len: usize, out: *mut u8, out_len: usize, written: *mut usize) -> u32;
    pub fn der_version() -> *const c_char;
    pub fn der_processor() -> *const c_char;
}
