//! Enveloped data, built from its parts, around keys and content that the caller encrypted.
use crate::build::{all_placed, build_error, is_there, place};
use crate::calls;
use crate::{written, NORMAL};
use std::fmt;

/// What names a recipient (RFC 5652, 6.2.1 and 6.2.3).
#[derive(Debug, Clone, Copy, PartialEq, Eq)]
#[non_exhaustive]
pub enum RecipientName<'a> {
    /// Its certificate, out of which issuer and serial number are read. The recipient is a KeyTransRecipientInfo of
    /// version 0. The certificate isn't in the file.
    Certificate(&'a [u8]),
    /// The octets of its certificate's subjectKeyIdentifier, as
    /// [`Certificate::key_identifier`](crate::Certificate::key_identifier) has them. The recipient is a
    /// KeyTransRecipientInfo of version 2.
    KeyIdentifier(&'a [u8]),
    /// The octets that name a key-encryption key, which both sides have already. The recipient is a KEKRecipientInfo of
    /// version 4, without a date and another attribute of the key.
    Kek(&'a [u8]),
}

/// A recipient for [`build_recipient`].
#[derive(Debug, Clone, Copy, PartialEq, Eq)]
#[non_exhaustive]
pub struct Recipient<'a> {
    /// What names it.
    pub identifier: RecipientName<'a>,
    /// The AlgorithmIdentifier by which the key is encrypted, with its parameters: of rsaEncryption NULL (RFC 3370,
    /// 4.2.1), of AES key wrap none (RFC 3565, 2.3.2). [`build_parameters`](crate::build_parameters) builds one for
    /// [`PasswordHolder::Algorithm`](crate::PasswordHolder::Algorithm), of what
    /// [`PasswordParameters::other`](crate::PasswordParameters::other) makes.
    pub algorithm: &'a [u8],
    /// The octets of the encrypted content-encryption key, which may be any.
    pub key: &'a [u8],
}

impl<'a> Recipient<'a> {
    /// A recipient of these parts.
    pub fn new(identifier: RecipientName<'a>, algorithm: &'a [u8], key: &'a [u8]) -> Self {
        Self { identifier, algorithm, key }
    }

    /// The same as the call takes it, with its octets in the input.
    fn placed(&self, input: &mut Vec<u8>) -> calls::RecipientGiven {
        let (is_kek, certificate, key_identifier) = match self.identifier {
            RecipientName::Certificate(octets) => (false, Some(octets), None),
            RecipientName::KeyIdentifier(octets) => (false, None, Some(octets)),
            RecipientName::Kek(octets) => (true, None, Some(octets)),
        };
        let mut place = |part| place(input, part);
        calls::RecipientGiven {
            is_kek: is_kek.into(),
            has_key_identifier: is_there(key_identifier),
            certificate: place(certificate),
            key_identifier: place(key_identifier),
            algorithm: place(Some(self.algorithm)),
            key: place(Some(self.key)),
        }
    }
}

/// The part that [`build_recipient`] doesn't take.
#[derive(Debug, Clone, Copy, PartialEq, Eq)]
#[non_exhaustive]
pub enum RecipientPart {
    /// What [`RecipientName::Certificate`] holds is no certificate.
    Identifier = calls::RECIPIENT_PART_IDENTIFIER as isize,
    /// [`Recipient::algorithm`] is no AlgorithmIdentifier.
    Algorithm = calls::RECIPIENT_PART_ALGORITHM as isize,
    /// No call of this version returns it: [`Recipient::key`] may be any octets.
    Key = calls::RECIPIENT_PART_KEY as isize,
}

const RECIPIENT_PARTS: [RecipientPart; 3] = [RecipientPart::Identifier, RecipientPart::Algorithm, RecipientPart::Key];

impl fmt::Display for RecipientPart {
    fn fmt(&self, f: &mut fmt::Formatter<'_>) -> fmt::Result {
        f.write_str(match self {
            RecipientPart::Identifier => "identifier",
            RecipientPart::Algorithm => "algorithm",
            RecipientPart::Key => "key",
        })
    }
}

/// Why [`build_recipient`] builds nothing.
#[derive(Debug, Clone, Copy, PartialEq, Eq)]
#[non_exhaustive]
pub enum BuildRecipientError {
    /// The part can't be written: where there are several such parts, one of them.
    Refused(RecipientPart),
    /// What is to be written has 2^64 bytes or more.
    TooLong,
    /// The library's request for memory was refused, which says nothing of the parts.
    NoMemory,
    /// A status that a library of another version may return, also that of a refusal for a part that this one hasn't.
    Unknown(u32),
}

build_error!(BuildRecipientError, Self::Refused(part) => "refused: {part}");

/// Builds a recipient of enveloped data, a RecipientInfo (RFC 5652, 6.2), for [`Enveloped::recipient`]. No key is
/// encrypted: the caller encrypts that of the content, by the public key of the certificate or by the key-encryption
/// key, and says how. That key and algorithm fit isn't looked at. Recipients of other kinds, by key agreement, with a
/// password or of a type of their own, are to come from elsewhere.
///
/// ```
/// use vuyhanip::{build_recipient, Recipient, RecipientName};
/// // the recipient of a file, whose certificate is the second of another
/// let (file, other) = (std::fs::read("tests/enveloped.der")?, std::fs::read("tests/lists.p7m")?);
/// let certificate = vuyhanip::certificates(&other)?[1];
/// # let (algorithm, key) = (&file[75..90], &file[93..221]);
/// let built = build_recipient(&Recipient::new(RecipientName::Certificate(certificate), algorithm, key))?;
/// assert_eq!(vuyhanip::recipients(&file)?, [built]);
/// # Ok::<(), Box<dyn std::error::Error>>(())
/// ```
pub fn build_recipient(given: &Recipient<'_>) -> Result<Vec<u8>, BuildRecipientError> {
    let mut input = Vec::new();
    let given = given.placed(&mut input);
    let mut part = 0;
    // headers and a version add less than 128 octets
    let (status, out) = written(input.len() + 128, |out, out_len, written| {
        // SAFETY: the pointers of slices aren't null and have their lengths; all is borrowed for the call
        unsafe { calls::der_build_recipient(input.as_ptr(), input.len(), &given, out, out_len, written, &mut part) }
    });
    if status == NORMAL { Ok(out) } else { Err(refused_recipient(status, part)) }
}

fn refused_recipient(status: u32, part: usize) -> BuildRecipientError {
    match RECIPIENT_PARTS.into_iter().find(|it| *it as usize == part) {
        Some(part) if status == calls::INVALID => BuildRecipientError::Refused(part),
        _ => BuildRecipientError::other(status),
    }
}

/// The part that [`Enveloped::finish`] doesn't take.
#[derive(Debug, Clone, Copy, PartialEq, Eq)]
#[non_exhaustive]
pub enum EnvelopedPart {
    /// The content type is no object identifier.
    ContentType = calls::ENVELOPED_PART_CONTENT_TYPE as isize,
    /// The algorithm is no AlgorithmIdentifier.
    Algorithm = calls::ENVELOPED_PART_ALGORITHM as isize,
    /// No call of this version returns it: what [`Enveloped::content`] takes may be any octets.
    Content = calls::ENVELOPED_PART_CONTENT as isize,
    /// A recipient isn't exactly one element, or hasn't the tag of a RecipientInfo: `30`, `A1`, `A2`, `A3` or `A4` (RFC
    /// 5652, 6.2); or it has the tag `30`, and its contents don't begin with the version 0 or 2 (6.2.1).
    Recipient = calls::ENVELOPED_PART_RECIPIENT as isize,
    /// There is no recipient (6.1).
    Recipients = calls::ENVELOPED_PART_RECIPIENTS as isize,
    /// What [`Enveloped::attributes`] took is no SET OF Attribute, or an empty one (6.1).
    Attributes = calls::ENVELOPED_PART_ATTRIBUTES as isize,
}

const ENVELOPED_PARTS: [EnvelopedPart; 6] = [
    EnvelopedPart::ContentType,
    EnvelopedPart::Algorithm,
    EnvelopedPart::Content,
    EnvelopedPart::Recipient,
    EnvelopedPart::Recipients,
    EnvelopedPart::Attributes,
];

impl fmt::Display for EnvelopedPart {
    fn fmt(&self, f: &mut fmt::Formatter<'_>) -> fmt::Result {
        f.write_str(match self {
            EnvelopedPart::ContentType => "content type",
            EnvelopedPart::Algorithm => "algorithm",
            EnvelopedPart::Content => "content",
            EnvelopedPart::Recipient => "recipient",
            EnvelopedPart::Recipients => "recipients",
            EnvelopedPart::Attributes => "attributes",
        })
    }
}

/// Why [`Enveloped::finish`] builds nothing.
#[derive(Debug, Clone, Copy, PartialEq, Eq)]
#[non_exhaustive]
pub enum BuildEnvelopedError {
    /// A part can't be written: where there are several such parts, one of them.
    Refused {
        /// The part that is wrong.
        part: EnvelopedPart,
        /// The index of the recipient, in the order in which they were added, from 0 on. `None` of all other parts.
        index: Option<usize>,
    },
    /// What is to be written has 2^64 bytes or more.
    TooLong,
    /// The library's request for memory was refused, which says nothing of the parts.
    NoMemory,
    /// A status that a library of another version may return, also that of a refusal for a part that this one hasn't.
    Unknown(u32),
}

build_error!(BuildEnvelopedError, Self::Refused { part, index } => "refused: {}", in_words(*part, *index));

/// A part, with the index that it has.
fn in_words(part: EnvelopedPart, index: Option<usize>) -> String {
    index.map_or_else(|| part.to_string(), |index| format!("{part} {index}"))
}

fn refused_enveloped(status: u32, index: usize, part: usize) -> BuildEnvelopedError {
    match ENVELOPED_PARTS.into_iter().find(|it| *it as usize == part) {
        Some(part) if status == calls::INVALID => {
            let index = (part == EnvelopedPart::Recipient).then_some(index);
            BuildEnvelopedError::Refused { part, index }
        }
        _ => BuildEnvelopedError::other(status),
    }
}

/// Enveloped data under its content type, a ContentInfo (RFC 5652, 3 and 6), that is built from its parts. Nothing is
/// encrypted: the caller makes a key, encrypts the content by it, and the key for each recipient. Enveloped data says
/// neither who made it, nor that nobody changed it.
///  - Where [`content`](Enveloped::content) isn't called, the encrypted octets are elsewhere.
///  - There is at least one recipient. Recipients are written as they are, and as often as they are added. They are in
///    the order of DER (X.690, 11.6), so they may be in another order than here. The attributes stay in theirs.
///  - The version is that of 6.1: 3 with a recipient whose tag is `A3` (a password) or `A4` (another kind); otherwise 0
///    where there are no unprotected attributes, and each recipient has the tag `30` and version 0; otherwise 2.
///  - There is no originatorInfo.
///
/// What is in a recipient isn't looked at, but for the version under the tag `30`, nor are the values of an attribute.
/// Of a file that was read, what [`recipients`](crate::recipients),
/// [`encryption_algorithm`](crate::encryption_algorithm) and [`encrypted_content`](crate::encrypted_content) return can
/// be given as it is. With the content type of the file this makes the same file again if five things hold: the file is
/// normal; its recipients are in the order of DER, and `Enveloped` takes each of them; it has no originatorInfo; it has
/// no unprotected attributes; and its version is that of 6.1. No call finds the content type or the unprotected
/// attributes: the caller has to give them.
///
/// ```
/// use vuyhanip::{build_recipient, Enveloped, Recipient, RecipientName};
/// // the content of a file, with another recipient beside that of the file, who has a key-encryption key
/// let file = std::fs::read("tests/enveloped.der")?;
/// let recipient = vuyhanip::recipients(&file)?[0];
/// let algorithm = vuyhanip::encryption_algorithm(&file)?.ok_or("no algorithm")?;
/// let content = vuyhanip::encrypted_content(&file)?.ok_or("content elsewhere")?;
/// # use vuyhanip::{build_parameters, oid_octets, PasswordHolder, PasswordParameters};
/// # let wrap = oid_octets("2.16.840.1.101.3.4.1.5")?;
/// # let wrap = build_parameters(PasswordHolder::Algorithm, &PasswordParameters::other(&wrap, None))?;
/// # let wrapped = [7; 24];
/// let other = build_recipient(&Recipient::new(RecipientName::Kek(b"KEK"), &wrap, &wrapped))?;
/// let data = vuyhanip::oid_octets("1.2.840.113549.1.7.1")?;
/// let mut enveloped = Enveloped::new(&data, algorithm);
/// enveloped.content(content).recipient(recipient);
/// assert_eq!(enveloped.finish()?, file);
/// let built = enveloped.recipient(&other).finish()?;
/// assert_eq!(vuyhanip::recipients(&built)?, [recipient, &other]);
/// # Ok::<(), Box<dyn std::error::Error>>(())
/// ```
#[derive(Debug, Clone, PartialEq, Eq)]
pub struct Enveloped<'a> {
    content_type: &'a [u8],
    algorithm: &'a [u8],
    content: Option<&'a [u8]>,
    recipients: Vec<&'a [u8]>,
    attributes: Option<&'a [u8]>,
}

impl<'a> Enveloped<'a> {
    /// Without content, recipients and unprotected attributes. The content type is that of the content before it was
    /// encrypted, and given as the contents octets of an object identifier, as [`oid_octets`](crate::oid_octets) writes
    /// them. The algorithm is the AlgorithmIdentifier by which the content is encrypted, with its parameters: of AES in
    /// CBC mode the initialization vector, an OCTET STRING (RFC 3565, 4.1).
    pub fn new(content_type: &'a [u8], algorithm: &'a [u8]) -> Self {
        Self { content_type, algorithm, content: None, recipients: Vec::new(), attributes: None }
    }

    /// Sets the encrypted octets of the content, which are written under `[0]` (RFC 5652, 6.1).
    pub fn content(&mut self, octets: &'a [u8]) -> &mut Self {
        self.content = Some(octets);
        self
    }

    /// Adds a recipient: a RecipientInfo of any kind (RFC 5652, 6.2), as [`build_recipient`] builds one, or as
    /// [`recipients`](crate::recipients) finds it in a file; that may also find elements which are refused here.
    pub fn recipient(&mut self, octets: &'a [u8]) -> &mut Self {
        self.recipients.push(octets);
        self
    }

    /// Sets the unprotected attributes (RFC 5652, 6.1): the element of a SET OF Attribute that isn't empty, as
    /// [`build_attributes`](crate::build_attributes) writes it.
    pub fn attributes(&mut self, octets: &'a [u8]) -> &mut Self {
        self.attributes = Some(octets);
        self
    }

    /// The file.
    pub fn finish(&self) -> Result<Vec<u8>, BuildEnvelopedError> {
        let mut input = Vec::new();
        let given = calls::EnvelopedGiven {
            has_content: is_there(self.content),
            has_attributes: is_there(self.attributes),
            content_type: place(&mut input, Some(self.content_type)),
            algorithm: place(&mut input, Some(self.algorithm)),
            content: place(&mut input, self.content),
            attributes: place(&mut input, self.attributes),
        };
        let recipients = all_placed(&mut input, &self.recipients);
        let (mut index, mut part) = (0, 0);
        // headers, a version and the content type add less than 128 octets
        let (status, out) = written(input.len() + 128, |out, out_len, written| {
            // SAFETY: as above
            unsafe {
                calls::der_build_enveloped(
                    input.as_ptr(), input.len(), &given, recipients.as_ptr(), recipients.len(), out, out_len, written,
                    &mut index, &mut part,
                )
            }
        });
        if status == NORMAL { Ok(out) } else { Err(refused_enveloped(status, index, part)) }
    }
}
