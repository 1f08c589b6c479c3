//! PKCS #12 stores, built from their bags.
use crate::build::{build_error, is_there, place};
use crate::calls;
use crate::{written, Bag, BagKind, NORMAL};
use std::fmt;

/// A bag for [`build_bags`]. What the constructor doesn't take is `None`, and may be set.
#[derive(Debug, Clone, Copy, PartialEq, Eq)]
#[non_exhaustive]
pub struct BagGiven<'a> {
    /// What it holds: any kind but [`OtherCertificate`](BagKind::OtherCertificate), [`OtherCrl`](BagKind::OtherCrl) and
    /// [`Unread`](BagKind::Unread).
    pub kind: BagKind,
    /// What that is, as [`Bag::value`] has it.
    pub value: &'a [u8],
    /// Of [`BagKind::Other`]: the contents octets of its object identifier. Of other kinds it isn't looked at.
    pub identifier: Option<&'a [u8]>,
    /// The friendly name, in UTF-16, as [`text_utf16`](crate::text_utf16) writes it.
    pub friendly_name: Option<&'a [u8]>,
    /// The octets of the local key identifier, which a key and its certificate have in common.
    pub local_key_id: Option<&'a [u8]>,
    /// Further attributes: the element of a SET OF Attribute. In it, those of the types friendlyName and localKeyId
    /// aren't written.
    pub attributes: Option<&'a [u8]>,
}

impl<'a> BagGiven<'a> {
    /// A bag without a name and attributes.
    pub fn new(kind: BagKind, value: &'a [u8]) -> Self {
        Self { kind, value, identifier: None, friendly_name: None, local_key_id: None, attributes: None }
    }

    /// The same as the call takes it, with its octets in the input.
    fn placed(&self, input: &mut Vec<u8>) -> calls::BagGiven {
        let mut place = |part| place(input, part);
        calls::BagGiven {
            kind: self.kind as usize,
            has_friendly_name: is_there(self.friendly_name),
            has_local_key_id: is_there(self.local_key_id),
            has_attributes: is_there(self.attributes),
            identifier: place(self.identifier),
            value: place(Some(self.value)),
            friendly_name: place(self.friendly_name),
            local_key_id: place(self.local_key_id),
            attributes: place(self.attributes),
        }
    }
}

/// A bag that was listed, with all attributes that it has, so that its name can be changed. One that holds bags has
/// them in its value: only bags of [`Bag::level`] 0 are given.
impl<'a> From<&Bag<'a>> for BagGiven<'a> {
    fn from(bag: &Bag<'a>) -> Self {
        let (identifier, attributes) = bag.identifier_and_attributes().unwrap_or_default();
        Self {
            identifier: (bag.kind == BagKind::Other).then_some(identifier),
            friendly_name: bag.friendly_name,
            local_key_id: bag.local_key_id,
            attributes,
            ..Self::new(bag.kind, bag.value)
        }
    }
}

/// The part of a bag that [`build_bags`] doesn't take.
#[derive(Debug, Clone, Copy, PartialEq, Eq)]
#[non_exhaustive]
pub enum BagPart {
    /// [`BagGiven::kind`] is one that isn't written.
    Kind = calls::BAG_PART_KIND as isize,
    /// [`BagGiven::identifier`] is `None`, no object identifier, or one of the six that the other kinds have.
    Identifier = calls::BAG_PART_IDENTIFIER as isize,
    /// [`BagGiven::value`] isn't exactly one element, or not what the kind holds: see [`build_bags`].
    Value = calls::BAG_PART_VALUE as isize,
    /// [`BagGiven::friendly_name`] is no UTF-16.
    FriendlyName = calls::BAG_PART_FRIENDLY_NAME as isize,
    /// No call of this version returns it: [`BagGiven::local_key_id`] may be any octets, or `None`.
    LocalKeyId = calls::BAG_PART_LOCAL_KEY_ID as isize,
    /// [`BagGiven::attributes`] is no SET OF Attribute.
    Attributes = calls::BAG_PART_ATTRIBUTES as isize,
}

const BAG_PARTS: [BagPart; 6] = [
    BagPart::Kind,
    BagPart::Identifier,
    BagPart::Value,
    BagPart::FriendlyName,
    BagPart::LocalKeyId,
    BagPart::Attributes,
];

impl fmt::Display for BagPart {
    fn fmt(&self, f: &mut fmt::Formatter<'_>) -> fmt::Result {
        f.write_str(match self {
            BagPart::Kind => "kind",
            BagPart::Identifier => "identifier",
            BagPart::Value => "value",
            BagPart::FriendlyName => "friendly name",
            BagPart::LocalKeyId => "local key identifier",
            BagPart::Attributes => "attributes",
        })
    }
}

/// Why [`build_bags`] builds nothing.
#[derive(Debug, Clone, Copy, PartialEq, Eq)]
#[non_exhaustive]
pub enum BuildBagsError {
    /// A bag can't be written: where there are several, the first one.
    Refused {
        /// Its index, from 0 on.
        bag: usize,
        /// The part of it that is wrong: of several the first, in the order of [`BagPart`].
        part: BagPart,
    },
    /// What is to be written has 2^64 bytes or more.
    TooLong,
    /// The library's request for memory was refused, which says nothing of the bags.
    NoMemory,
    /// A status that a library of another version may return, also that of a refusal for a part that this one hasn't.
    Unknown(u32),
}

build_error!(BuildBagsError, Self::Refused { bag, part } => "refused: {part} of bag {bag}");

/// Builds the SafeContents (RFC 7292, 4.2) of bags, in their order: octets for [`ContentGiven::Data`], or to be
/// encrypted, or as the value of a bag of kind [`SafeContents`](BagKind::SafeContents). Nothing is encrypted, and what
/// is in a key or a certificate isn't looked at. By its kind, a bag's value is
///  - `Key`: a PrivateKeyInfo; any element is taken.
///  - `ShroudedKey`: an EncryptedPrivateKeyInfo (RFC 5958, 3) that [`bags`](crate::bags) reads.
///    [`build_parameters`](crate::build_parameters) builds it for [`PasswordHolder::Key`](crate::PasswordHolder::Key),
///    but also others, where an algorithm that `bags` knows, as PBES2, is given parameters that aren't its own.
///  - `Certificate`, `Crl`: the DER of one of X.509; any element is taken.
///  - `Secret`: a SecretBag (RFC 7292, 4.2.5).
///  - `SafeContents`: what this call builds. Its bags are read, and those in bags of it, and so on; at most 64
///    SafeContents, with this one, may be in one another. What its other bags hold, and the values of attributes in it,
///    isn't looked at, so `bags` may refuse a store around it.
///  - `Other`: any element, under [`BagGiven::identifier`].
///
/// Attributes are written in the order of DER (X.690, 11.6). A name with characters past U+FFFF is written with
/// surrogates, as keytool does: [`check`](crate::check) refuses such a store as `pfx`, and takes it as `rawpfx`.
///
/// ```
/// use vuyhanip::{bags, build_bags, text_utf16, BagGiven, BagKind, ContentGiven, Store};
/// let file = std::fs::read("tests/signed.p7m")?;
/// let name = text_utf16("root 1")?;
/// let mut root = BagGiven::new(BagKind::Certificate, vuyhanip::certificates(&file)?[0]);
/// root.friendly_name = Some(&name);
/// // a bag of a store, with another name, and with the attributes that it has
/// let file = std::fs::read("tests/store.p12")?;
/// let name = text_utf16("key 1")?;
/// let mut key = BagGiven::from(&bags(&file)?[1]);
/// key.friendly_name = Some(&name);
/// let built = Store::new(&[ContentGiven::Data(&build_bags(&[root, key])?)])?.finish(None)?;
/// let found = bags(&built)?;
/// assert_eq!((found[0].value, found[0].name().as_deref()), (root.value, Some("root 1")));
/// assert_eq!((found[1].kind, found[1].name().as_deref()), (BagKind::ShroudedKey, Some("key 1")));
/// assert_eq!(found[1].local_key_id, key.local_key_id);
/// # Ok::<(), Box<dyn std::error::Error>>(())
/// ```
pub fn build_bags(given: &[BagGiven<'_>]) -> Result<Vec<u8>, BuildBagsError> {
    let mut input = Vec::new();
    let bags: Vec<_> = given.iter().map(|bag| bag.placed(&mut input)).collect();
    let (mut bag, mut part) = (0, 0);
    // headers and the object identifiers that are known add less than 128 octets to a bag
    let (status, out) = written(input.len() + 128 * bags.len() + 16, |out, out_len, written| {
        // SAFETY: the pointers of slices aren't null and have their lengths; all is borrowed for the call
        unsafe {
            calls::der_build_bags(
                input.as_ptr(), input.len(), bags.as_ptr(), bags.len(), out, out_len, written, &mut bag, &mut part,
            )
        }
    });
    if status == NORMAL { Ok(out) } else { Err(refused_bag(status, bag, part)) }
}

fn refused_bag(status: u32, bag: usize, part: usize) -> BuildBagsError {
    match BAG_PARTS.into_iter().find(|it| *it as usize == part) {
        Some(part) if status == calls::INVALID => BuildBagsError::Refused { bag, part },
        _ => BuildBagsError::other(status),
    }
}

/// An item of an AuthenticatedSafe, for [`build_safe`].
#[derive(Debug, Clone, Copy, PartialEq, Eq)]
#[non_exhaustive]
pub enum ContentGiven<'a> {
    /// Bags in clear: a SafeContents, as [`build_bags`] writes it.
    Data(&'a [u8]),
    /// A ContentInfo of another type than data, which is written as it is: encrypted bags, as
    /// [`build_parameters`](crate::build_parameters) builds it for
    /// [`PasswordHolder::Contents`](crate::PasswordHolder::Contents).
    Info(&'a [u8]),
}

impl ContentGiven<'_> {
    /// The same as the call takes it, with its octets in the input.
    fn placed(&self, input: &mut Vec<u8>) -> calls::ContentGiven {
        let (is_data, octets) = match self {
            ContentGiven::Data(octets) => (true, octets),
            ContentGiven::Info(octets) => (false, octets),
        };
        calls::ContentGiven { is_data: is_data.into(), octets: place(input, Some(octets)) }
    }
}

/// Why [`build_safe`] builds nothing.
#[derive(Debug, Clone, Copy, PartialEq, Eq)]
#[non_exhaustive]
pub enum BuildSafeError {
    /// A content isn't what its variant says: where there are several, the first one.
    Refused {
        /// Its index, from 0 on.
        content: usize,
    },
    /// What is to be written has 2^64 bytes or more.
    TooLong,
    /// The library's request for memory was refused, which says nothing of the contents.
    NoMemory,
    /// A status that a library of another version may return.
    Unknown(u32),
}

build_error!(BuildSafeError, Self::Refused { content } => "refused: content {content}");

/// Builds the AuthenticatedSafe (RFC 7292, 4.1) of contents, in their order: its octets are what a MAC covers.
/// [`Store`] builds it, and then the file around it.
pub fn build_safe(given: &[ContentGiven<'_>]) -> Result<Vec<u8>, BuildSafeError> {
    let mut input = Vec::new();
    let contents: Vec<_> = given.iter().map(|content| content.placed(&mut input)).collect();
    let mut content = 0;
    // headers and an object identifier add less than 64 octets to a content
    let (status, out) = written(input.len() + 64 * contents.len() + 16, |out, out_len, written| {
        let (at, count) = (contents.as_ptr(), contents.len());
        // SAFETY: as above
        unsafe { calls::der_build_safe(input.as_ptr(), input.len(), at, count, out, out_len, written, &mut content) }
    });
    match status {
        NORMAL => Ok(out),
        calls::INVALID => Err(BuildSafeError::Refused { content }),
        _ => Err(BuildSafeError::other(status)),
    }
}

/// The MAC of a file, for [`build_store`]. The caller makes it, over the octets that [`Store::covered`] returns: by
/// HMAC with a key that RFC 7292, B, derives from the password, or by PBMAC1 (RFC 9579). Take a new random salt for
/// each file, and a count that is high enough.
#[derive(Debug, Clone, Copy, PartialEq, Eq)]
#[non_exhaustive]
pub struct MacGiven<'a> {
    /// The contents octets of the digest algorithm's object identifier.
    pub digest_algorithm: &'a [u8],
    /// The element of its parameters, as those of PBMAC1. NULL is written where it is `None`, and always of SHA-1,
    /// SHA-224, SHA-256, SHA-384 and SHA-512.
    pub digest_parameters: Option<&'a [u8]>,
    /// The MAC.
    pub digest: &'a [u8],
    /// Its salt.
    pub salt: &'a [u8],
    /// How often the key derivation hashes. 1 is left out, as the default.
    pub iterations: usize,
}

impl<'a> MacGiven<'a> {
    /// A MAC whose digest algorithm has no parameters but NULL.
    pub fn new(digest_algorithm: &'a [u8], digest: &'a [u8], salt: &'a [u8], iterations: usize) -> Self {
        Self { digest_algorithm, digest_parameters: None, digest, salt, iterations }
    }
}

/// The part that [`build_store`] doesn't take.
#[derive(Debug, Clone, Copy, PartialEq, Eq)]
#[non_exhaustive]
pub enum StorePart {
    /// What the MAC covers is no AuthenticatedSafe.
    Safe = calls::STORE_PART_SAFE as isize,
    /// [`MacGiven::digest_algorithm`] is no object identifier.
    DigestAlgorithm = calls::STORE_PART_DIGEST_ALGORITHM as isize,
    /// [`MacGiven::digest_parameters`] is no element.
    DigestParameters = calls::STORE_PART_DIGEST_PARAMETERS as isize,
    /// No call of this version returns it: [`MacGiven::digest`] may be any octets.
    Digest = calls::STORE_PART_DIGEST as isize,
    /// No call of this version returns it: [`MacGiven::salt`] may be any octets.
    Salt = calls::STORE_PART_SALT as isize,
    /// [`MacGiven::iterations`] is 2^32 or more.
    Iterations = calls::STORE_PART_ITERATIONS as isize,
}

const STORE_PARTS: [StorePart; 6] = [
    StorePart::Safe,
    StorePart::DigestAlgorithm,
    StorePart::DigestParameters,
    StorePart::Digest,
    StorePart::Salt,
    StorePart::Iterations,
];

impl fmt::Display for StorePart {
    fn fmt(&self, f: &mut fmt::Formatter<'_>) -> fmt::Result {
        f.write_str(match self {
            StorePart::Safe => "safe",
            StorePart::DigestAlgorithm => "digest algorithm",
            StorePart::DigestParameters => "digest parameters",
            StorePart::Digest => "digest",
            StorePart::Salt => "salt",
            StorePart::Iterations => "iterations",
        })
    }
}

/// Why [`build_store`] builds nothing.
#[derive(Debug, Clone, Copy, PartialEq, Eq)]
#[non_exhaustive]
pub enum BuildStoreError {
    /// The part can't be written: where there are several such parts, the first one that was found.
    Refused(StorePart),
    /// What is to be written has 2^64 bytes or more.
    TooLong,
    /// The library's request for memory was refused, which says nothing of the parts.
    NoMemory,
    /// A status that a library of another version may return, also that of a refusal for a part that this one hasn't.
    Unknown(u32),
}

build_error!(BuildStoreError, Self::Refused(part) => "refused: {part}");

/// Builds a PKCS #12 file (RFC 7292, 4) around an AuthenticatedSafe, as [`build_safe`] builds it, with a MAC or none.
/// Nothing is judged: a MAC that is wrong, a count of 0, and salts of any length are written too. Of the file,
/// [`mac`](crate::mac) gives them again.
pub fn build_store(safe: &[u8], mac: Option<&MacGiven<'_>>) -> Result<Vec<u8>, BuildStoreError> {
    let mut input = Vec::new();
    let mut place = |part| place(&mut input, part);
    let given = calls::StoreGiven {
        has_mac: mac.is_some().into(),
        has_digest_parameters: is_there(mac.and_then(|it| it.digest_parameters)),
        iterations: mac.map_or(0, |it| it.iterations),
        safe: place(Some(safe)),
        digest_algorithm: place(mac.map(|it| it.digest_algorithm)),
        digest_parameters: place(mac.and_then(|it| it.digest_parameters)),
        digest: place(mac.map(|it| it.digest)),
        salt: place(mac.map(|it| it.salt)),
    };
    let mut part = 0;
    // headers, numbers and the object identifier of data add less than 256 octets
    let (status, out) = written(input.len() + 256, |out, out_len, written| {
        // SAFETY: as above
        unsafe { calls::der_build_store(input.as_ptr(), input.len(), &given, out, out_len, written, &mut part) }
    });
    if status == NORMAL { Ok(out) } else { Err(refused_store(status, part)) }
}

fn refused_store(status: u32, part: usize) -> BuildStoreError {
    match STORE_PARTS.into_iter().find(|it| *it as usize == part) {
        Some(part) if status == calls::INVALID => BuildStoreError::Refused(part),
        _ => BuildStoreError::other(status),
    }
}

/// A PKCS #12 file that is built in two steps: first what a MAC covers, then the file with that MAC, or with none.
///
/// ```
/// use vuyhanip::{build_bags, oid_octets, BagGiven, BagKind, ContentGiven, MacGiven, Store};
/// // encrypted contents and an encrypted key, which another store has
/// let file = std::fs::read("tests/store.p12")?;
/// let found = vuyhanip::bags(&file)?;
/// let key = build_bags(&[BagGiven::from(&found[1])])?;
/// let store = Store::new(&[ContentGiven::Info(found[0].element), ContentGiven::Data(&key)])?;
/// # let hmac = |_: &[u8], _: &[u8]| [7; 32];
/// // a MAC, by a key that is derived from the password, the salt and the count
/// # let salt = [1, 2, 3, 4, 5, 6, 7, 8];
/// let digest = hmac(&salt, store.covered());
/// let sha256 = oid_octets("2.16.840.1.101.3.4.2.1")?;
/// let built = store.finish(Some(&MacGiven::new(&sha256, &digest, &salt, 100_000)))?;
/// let mac = vuyhanip::mac(&built)?.ok_or("no MAC")?;
/// assert_eq!((&built[mac.covered], mac.iterations), (store.covered(), 100_000));
/// assert_eq!(vuyhanip::bags(&built)?.len(), 2);
/// # Ok::<(), Box<dyn std::error::Error>>(())
/// ```
#[derive(Debug, Clone, PartialEq, Eq)]
pub struct Store {
    safe: Vec<u8>,
}

impl Store {
    /// A file with these contents: bags in clear, or encrypted ones.
    pub fn new(contents: &[ContentGiven<'_>]) -> Result<Self, BuildSafeError> {
        Ok(Self { safe: build_safe(contents)? })
    }

    /// The octets that a MAC covers.
    pub fn covered(&self) -> &[u8] {
        &self.safe
    }

    /// The file, with the MAC over [`covered`](Store::covered), or with none.
    pub fn finish(&self, mac: Option<&MacGiven<'_>>) -> Result<Vec<u8>, BuildStoreError> {
        build_store(&self.safe, mac)
    }
}
