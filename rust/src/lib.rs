//! Safe calls of the library for C: checks and rewritings of DER, the parts of containers that a verifier needs, as
//! octets, the certificates and signers of signed data, the bags of stores, the parts of certificates, of what
//! Authenticode signs and of trust lists, the parameters of encryption with a password, and conversions of BER to DER.
//! Bags, stores, signed and enveloped data, what Authenticode signs and such parameters are built too.
//!
//! ```
//! // the shortest PKCS #12 file
//! let file = b"\x30\x16\x02\x01\x03\x30\x11\x06\x09\x2A\x86\x48\x86\xF7\x0D\x01\x07\x01\xA0\x04\x04\x02\x30\x00";
//! let verdict = vuyhanip::check("rawpfx", file)?;
//! assert!(verdict.is_normal && verdict.len == 24);
//! # Ok::<(), vuyhanip::Error>(())
//! ```
//!
//! A kind is the name of a type in lower case. Only [`from_ber`] takes BER: pass every other call what it returned, and
//! [`mac_ber`] where the MAC of a PKCS #12 file is to be verified.
//! What is proved of the library is said in `der.h`; this crate isn't proved. Calls share nothing, so threads may make
//! them side by side.
#![warn(missing_docs)]

mod bags;
mod build;
mod build_enveloped;
mod build_indirect;
mod build_signed;
mod build_stores;
mod calls;
mod certificates;
mod contents;
mod passwords;
mod ranges;
mod signers;
mod trust_lists;

pub use bags::{bags, Bag, BagKind};
pub use build::{build_parameters, BuildError, PasswordPart};
pub use build_enveloped::{
    build_recipient, BuildEnvelopedError, BuildRecipientError, Enveloped, EnvelopedPart, Recipient, RecipientName,
    RecipientPart,
};
pub use build_indirect::{
    build_indirect, hashed_octets, BuildIndirectError, IndirectAttribute, IndirectGiven, IndirectPart,
};
pub use build_signed::{
    build_attributes, AttributesGiven, AttributesPart, BuildAttributesError, BuildSignedError, Signed, SignedPart,
    SignerGiven, SignerName,
};
pub use build_stores::{
    build_bags, build_safe, build_store, BagGiven, BagPart, BuildBagsError, BuildSafeError, BuildStoreError,
    ContentGiven, MacGiven, Store, StorePart,
};
pub use certificates::{certificate, Certificate, Key};
pub use contents::{indirect, Image, Indirect};
pub use passwords::{password_parameters, PasswordHolder, PasswordParameters};
pub use ranges::{attributes, certificates, encrypted_content, encryption_algorithm, recipients};
pub use signers::{signers, BadAttributes, Signer};
pub use trust_lists::{trust_entries, trust_list, TrustEntry, TrustList};

use calls::{LOOSE, NORMAL, NO_PART, NO_RANGE, NO_ROOM};
use std::ffi::CStr;
use std::fmt;
use std::ops::Range;

/// The most levels of nesting that an input may have.
pub const MAX_NESTING: u8 = calls::MAX_NESTING;

/// Why an input is refused.
#[derive(Debug, Clone, Copy, PartialEq, Eq)]
pub enum Reason {
    /// No element begins at the place, or bytes are left over from there on.
    Malformed,
    /// The contents end at the place without an element.
    Missing,
    /// The element that begins there has a tag or contents that are refused.
    Invalid,
    /// The element that begins there is nested too deep.
    TooDeep,
}

/// What a call returns in place of an answer.
#[derive(Debug, Clone, Copy, PartialEq, Eq)]
#[non_exhaustive]
pub enum Error {
    /// No kind has that word.
    UnknownKind,
    /// The input is no encoding of its kind, or for [`from_ber`] has no DER. `place` is an offset in it.
    Refused {
        /// Why it is refused.
        reason: Reason,
        /// Where it is refused.
        place: usize,
    },
    /// What is to be written has 2^64 bytes or more. Of a part of a store, no clause says so.
    TooLong,
    /// The library's request for memory was refused, which says nothing of the input.
    NoMemory,
    /// No call of this version returns it: each part has its place.
    NoRange,
    /// A status that a library of another version may return.
    Unknown(u32),
}

impl fmt::Display for Error {
    fn fmt(&self, f: &mut fmt::Formatter<'_>) -> fmt::Result {
        match self {
            Error::UnknownKind => f.write_str("unknown kind"),
            Error::Refused { reason, place } => {
                let word = match reason {
                    Reason::Malformed => "malformed",
                    Reason::Missing => "missing",
                    Reason::Invalid => "invalid",
                    Reason::TooDeep => "too deep",
                };
                write!(f, "refused: {word} at {place}")
            }
            Error::TooLong => f.write_str("too long"),
            Error::NoMemory => f.write_str("no memory"),
            Error::NoRange => f.write_str("no range"),
            Error::Unknown(status) => write!(f, "unknown status {status}"),
        }
    }
}

impl std::error::Error for Error {}

fn error(status: u32, place: usize) -> Error {
    let reason = match status {
        calls::UNKNOWN_KIND => return Error::UnknownKind,
        calls::MALFORMED => Reason::Malformed,
        calls::MISSING => Reason::Missing,
        calls::INVALID => Reason::Invalid,
        calls::TOO_DEEP => Reason::TooDeep,
        calls::TOO_LONG => return Error::TooLong,
        calls::NO_MEMORY => return Error::NoMemory,
        NO_RANGE => return Error::NoRange,
        _ => return Error::Unknown(status),
    };
    Error::Refused { reason, place }
}

/// What an accepted input is.
#[derive(Debug, Clone, Copy, PartialEq, Eq)]
pub struct Verdict {
    /// Whether it is the normal encoding of its value.
    pub is_normal: bool,
    /// How many bytes that encoding has.
    pub len: usize,
    /// In a loose input, the offset from which on it ends as that encoding does.
    pub loose_end: Option<usize>,
}

/// What an input of a kind is.
pub fn check(kind: &str, input: &[u8]) -> Result<Verdict, Error> {
    check_limited(kind, MAX_NESTING, input)
}

/// The same with at most `limit` levels of nesting. A limit above [`MAX_NESTING`] counts as that.
pub fn check_limited(kind: &str, limit: u8, input: &[u8]) -> Result<Verdict, Error> {
    let (mut len, mut place) = (0, 0);
    let (word, word_len) = (kind.as_ptr(), kind.len());
    // SAFETY: the pointers of slices aren't null and have their lengths; the numbers are borrowed for the call
    let status = unsafe {
        calls::der_check_word_limited(word, word_len, limit, input.as_ptr(), input.len(), &mut len, &mut place)
    };
    match status {
        NORMAL => Ok(Verdict { is_normal: true, len, loose_end: None }),
        LOOSE => Ok(Verdict { is_normal: false, len, loose_end: Some(place) }),
        _ => Err(error(status, place)),
    }
}

/// The normal encoding of an input of a kind.
pub fn rewrite(kind: &str, input: &[u8]) -> Result<Vec<u8>, Error> {
    rewrite_limited(kind, MAX_NESTING, input)
}

/// The same with at most `limit` levels of nesting.
pub fn rewrite_limited(kind: &str, limit: u8, input: &[u8]) -> Result<Vec<u8>, Error> {
    let len = check_limited(kind, limit, input)?.len;
    let (word, word_len) = (kind.as_ptr(), kind.len());
    let (status, out) = written(len, |out, out_len, written| {
        // SAFETY: as above; `out` has `out_len` bytes, and is borrowed for the call
        unsafe {
            calls::der_rewrite_word_limited(
                word, word_len, limit, input.as_ptr(), input.len(), out, out_len, written,
            )
        }
    });
    if status == NORMAL { Ok(out) } else { Err(error(status, 0)) }
}

/// What a call writes into room, first of so many bytes, and then of as many as it asks for.
fn written(room: usize, mut call: impl FnMut(*mut u8, usize, &mut usize) -> u32) -> (u32, Vec<u8>) {
    let mut out = vec![0; room];
    loop {
        let mut len = 0;
        let status = call(out.as_mut_ptr(), out.len(), &mut len);
        if status != NO_ROOM || len <= out.len() {
            out.truncate(if status == NORMAL { len } else { 0 });
            // a part is often much shorter than its room
            out.shrink_to_fit();
            return (status, out);
        }
        out.resize(len, 0);
    }
}

/// The DER of an input in BER, with at most [`MAX_NESTING`] levels. DER that isn't refused comes back as it is.
pub fn from_ber(input: &[u8]) -> Result<Vec<u8>, Error> {
    let mut place = 0;
    let (status, out) = written(input.len(), |out, out_len, written| {
        // SAFETY: as above
        unsafe { calls::der_from_ber(input.as_ptr(), input.len(), out, out_len, written, &mut place) }
    });
    if status == NORMAL { Ok(out) } else { Err(error(status, place)) }
}

/// A part of a container. What each is, `der.h` says: up to [`Part::Signature`] of signed data, of any CMSVersion and over
/// content of any type, and then of a PKCS #12 store, and of its MAC.
#[derive(Debug, Clone, Copy, PartialEq, Eq)]
#[allow(missing_docs)]
pub enum Part {
    HashedContent = calls::PART_HASHED_CONTENT as isize,
    Certificate = calls::PART_CERTIFICATE as isize,
    SignedAttributes = calls::PART_SIGNED_ATTRIBUTES as isize,
    Issuer = calls::PART_ISSUER as isize,
    SerialNumber = calls::PART_SERIAL_NUMBER as isize,
    KeyIdentifier = calls::PART_KEY_IDENTIFIER as isize,
    DigestAlgorithm = calls::PART_DIGEST_ALGORITHM as isize,
    SignatureAlgorithm = calls::PART_SIGNATURE_ALGORITHM as isize,
    Signature = calls::PART_SIGNATURE as isize,
    StoreCertificate = calls::PART_STORE_CERTIFICATE as isize,
    StoreKey = calls::PART_STORE_KEY as isize,
    StoreEncryptedKey = calls::PART_STORE_ENCRYPTED_KEY as isize,
    StoreBag = calls::PART_STORE_BAG as isize,
    MacDigestAlgorithm = calls::PART_MAC_DIGEST_ALGORITHM as isize,
    MacDigest = calls::PART_MAC_DIGEST as isize,
    MacSalt = calls::PART_MAC_SALT as isize,
}

/// A part of a container, as octets: of certificates, signers, keys and bags that with the index, from 0 on. `None`
/// where the container has no such part, or not so many. Each call reads the input anew: [`certificates`], [`bags`] and
/// [`signers`] borrow all of them from it.
///
/// ```
/// use vuyhanip::{part, Error, Part, Reason};
/// let file = std::fs::read("tests/by_key.p7m")?;
/// assert_eq!(part(Part::HashedContent, 0, &file)?.as_deref(), Some(&b"hello, world"[..]));
/// // the signer is named by its key
/// assert_eq!(part(Part::Issuer, 0, &file)?, None);
/// // what isn't a store is refused, and where
/// let refused = Error::Refused { reason: Reason::Invalid, place: 4 };
/// assert_eq!(part(Part::StoreKey, 0, &file), Err(refused));
/// # Ok::<(), Box<dyn std::error::Error>>(())
/// ```
pub fn part(part: Part, index: usize, input: &[u8]) -> Result<Option<Vec<u8>>, Error> {
    let mut place = 0;
    let (status, out) = written(input.len() + 64, |out, out_len, written| {
        let number = part as usize;
        // SAFETY: as above
        unsafe {
            calls::der_part_octets(number, index, input.as_ptr(), input.len(), out, out_len, written, &mut place)
        }
    });
    match status {
        NORMAL => Ok(Some(out)),
        NO_PART => Ok(None),
        _ => Err(error(status, place)),
    }
}

/// A part of the MAC of a file that [`from_ber`] returned. `None` where it has none.
fn mac_part_ber(part: Part, input: &[u8]) -> Result<Option<Vec<u8>>, Error> {
    let (status, out) = written(input.len() + 64, |out, out_len, written| {
        // SAFETY: as above
        unsafe { calls::der_mac_part_ber(part as usize, input.as_ptr(), input.len(), out, out_len, written) }
    });
    match status {
        NORMAL => Ok(Some(out)),
        NO_PART => Ok(None),
        _ => Err(located(status, "rawpfx", input)),
    }
}

/// An error with the place at which a check refuses the input too.
fn located(status: u32, kind: &str, input: &[u8]) -> Error {
    match error(status, 0) {
        Error::Refused { .. } => check(kind, input).err().unwrap_or(Error::Unknown(status)),
        other => other,
    }
}

/// Where a PKCS #12 file has the octets that a MAC covers, whether it has one or not. `None` where its authSafe isn't
/// data.
pub fn mac_range(input: &[u8]) -> Result<Option<Range<usize>>, Error> {
    let (mut start, mut len) = (0, 0);
    // SAFETY: as above
    match unsafe { calls::der_mac_range(input.as_ptr(), input.len(), &mut start, &mut len) } {
        NORMAL => Ok(Some(start..start + len)),
        NO_RANGE => Ok(None),
        status => Err(located(status, "rawpfx", input)),
    }
}

/// What a verifier of a PKCS #12 file's MAC needs beside the password. Nothing says that the MAC is right: the caller makes
/// it and compares, first the lengths. Limit the count before a key is derived.
#[derive(Debug, Clone, PartialEq, Eq)]
pub struct Mac {
    /// Where the file has the octets that the MAC covers.
    pub covered: Range<usize>,
    /// The contents octets of the digest algorithm's object identifier.
    pub digest_algorithm: Vec<u8>,
    /// The MAC that the file has, of any length, also 0.
    pub digest: Vec<u8>,
    /// Its salt.
    pub salt: Vec<u8>,
    /// How often the key derivation hashes: what the file says, from 0 to 4294967295.
    pub iterations: usize,
}

/// What the file's MAC is made of. `None` where it has no MAC, or its authSafe isn't data.
pub fn mac(input: &[u8]) -> Result<Option<Mac>, Error> {
    mac_said(input, calls::der_mac, |it| part(it, 0, input))
}

/// The same of a file that [`from_ber`] returned, whose MAC may cover BER. The range is in what [`from_ber`] returned.
/// What is no PKCS #12 file is refused as a check as `rawpfx` refuses it.
pub fn mac_ber(input: &[u8]) -> Result<Option<Mac>, Error> {
    mac_said(input, calls::der_mac_ber, |it| mac_part_ber(it, input))
}

/// What a call says of a MAC, with the parts of it that another one gives.
fn mac_said(
    input: &[u8],
    call: unsafe extern "C" fn(*const u8, usize, *mut usize, *mut usize, *mut usize) -> u32,
    part: impl Fn(Part) -> Result<Option<Vec<u8>>, Error>,
) -> Result<Option<Mac>, Error> {
    let (mut start, mut len, mut iterations) = (0, 0, 0);
    // SAFETY: as above
    match unsafe { call(input.as_ptr(), input.len(), &mut start, &mut len, &mut iterations) } {
        NORMAL => Ok(Some(Mac {
            covered: start..start + len,
            digest_algorithm: part(Part::MacDigestAlgorithm)?.unwrap_or_default(),
            digest: part(Part::MacDigest)?.unwrap_or_default(),
            salt: part(Part::MacSalt)?.unwrap_or_default(),
            iterations,
        })),
        NO_RANGE | NO_PART => Ok(None),
        status => Err(located(status, "rawpfx", input)),
    }
}

/// A Name (RFC 5280, 4.1.2.4), by its encoding, as a subject or an issuer, as text by RFC 4514. `der.h` says which
/// types have short names. Where it is refused, the place is 0, whatever the reason is.
pub fn name_text(encoding: &[u8]) -> Result<String, Error> {
    text_written(encoding, calls::der_name_text)
}

/// An object identifier, by its contents octets, as `1.2.840.113549.1.1.11`. Where it is refused, the place is 0.
pub fn oid_text(octets: &[u8]) -> Result<String, Error> {
    text_written(octets, calls::der_oid_text)
}

/// The contents octets of an object identifier, by its text, as [`oid_text`] writes it: numbers in decimal without
/// leading zeros, joined by dots. Where it is refused, the place is 0: the text spells none, or a number in the octets
/// would be one that 64 bits don't hold.
///
/// ```
/// let octets = vuyhanip::oid_octets("2.16.840.1.101.3.4.1.42")?;
/// assert_eq!(vuyhanip::oid_name(&octets).as_deref(), Some("aes-256-cbc"));
/// # Ok::<(), vuyhanip::Error>(())
/// ```
pub fn oid_octets(text: &str) -> Result<Vec<u8>, Error> {
    let (status, out) = written(text.len(), |out, out_len, written| {
        // SAFETY: as above
        unsafe { calls::der_oid_octets(text.as_ptr(), text.len(), out, out_len, written) }
    });
    if status == NORMAL { Ok(out) } else { Err(error(status, 0)) }
}

/// The name of an object identifier, as `sha256`, by its contents octets: the long name that openssl 3.0 prints, or where
/// it has none that of the document that defines it. `None` where the library knows none.
pub fn oid_name(octets: &[u8]) -> Option<String> {
    let (status, name) = written(64, |out, out_len, written| {
        // SAFETY: as above
        unsafe { calls::der_oid_name(octets.as_ptr(), octets.len(), out, out_len, written) }
    });
    (status == NORMAL).then(|| String::from_utf8_lossy(&name).into_owned())
}

/// The number that the contents octets of an INTEGER hold, in decimal, as `-1`. Where there are none, or more than
/// 1,024, they are refused, and the place is 0.
pub fn integer_text(contents: &[u8]) -> Result<String, Error> {
    text_written(contents, calls::der_integer_text)
}

/// The text of UTF-16, two octets for each unit, the high one first, as [`Bag::friendly_name`] is. Where the octets are
/// none, an odd number of them or half a surrogate, they are refused, and the place is 0.
pub fn utf16_text(octets: &[u8]) -> Result<String, Error> {
    text_written(octets, calls::der_utf16_text)
}

/// A text in UTF-16, two octets for each unit, the high one first, as [`BagGiven::friendly_name`] has it: what
/// [`utf16_text`] takes. Zero characters are characters like others, and none is added. Nothing of a text is refused.
///
/// ```
/// let octets = vuyhanip::text_utf16("a 😀")?;
/// assert_eq!(octets, [0, 0x61, 0, 0x20, 0xD8, 0x3D, 0xDE, 0]);
/// assert_eq!(vuyhanip::utf16_text(&octets)?, "a 😀");
/// # Ok::<(), vuyhanip::Error>(())
/// ```
pub fn text_utf16(text: &str) -> Result<Vec<u8>, Error> {
    let (status, out) = written(2 * text.len(), |out, out_len, written| {
        // SAFETY: as above
        unsafe { calls::der_text_utf16(text.as_ptr(), text.len(), out, out_len, written) }
    });
    if status == NORMAL { Ok(out) } else { Err(error(status, 0)) }
}

/// What a call writes as text in UTF-8.
fn text_written(
    input: &[u8],
    call: unsafe extern "C" fn(*const u8, usize, *mut u8, usize, *mut usize) -> u32,
) -> Result<String, Error> {
    let (status, out) = written(4 * input.len() + 16, |out, out_len, written| {
        // SAFETY: as above
        unsafe { call(input.as_ptr(), input.len(), out, out_len, written) }
    });
    match status {
        NORMAL => Ok(String::from_utf8_lossy(&out).into_owned()),
        _ => Err(error(status, 0)),
    }
}

/// The words of all kinds.
pub fn kinds() -> Vec<String> {
    let mut words = Vec::new();
    loop {
        // SAFETY: as above
        let (status, word) = written(64, |out, out_len, written| unsafe {
            calls::der_kind_word(words.len(), out, out_len, written)
        });
        if status != NORMAL {
            return words;
        }
        words.push(String::from_utf8_lossy(&word).into_owned());
    }
}

/// The version of the library that is linked, which is that of this crate where they were installed together.
pub fn version() -> &'static str {
    // SAFETY: it takes nothing and returns a constant string
    text(unsafe { CStr::from_ptr(calls::der_version()) })
}

/// The processors that it was built for: `x86-64` or `x86-64-v2`.
pub fn processor() -> &'static str {
    // SAFETY: as of the version
    text(unsafe { CStr::from_ptr(calls::der_processor()) })
}

fn text(word: &'static CStr) -> &'static str {
    word.to_str().unwrap_or("unknown")
}
