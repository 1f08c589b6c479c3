//! Signed data, built from its parts, around signatures that the caller made.
use crate::build::{all_placed, build_error, is_there, place};
use crate::calls;
use crate::{written, NORMAL};
use std::fmt;

/// Attributes of a signer for [`build_attributes`]. What is `None` isn't written.
#[derive(Debug, Clone, Copy, PartialEq, Eq, Default)]
#[non_exhaustive]
pub struct AttributesGiven<'a> {
    /// The type of the content (RFC 5652, 11.1): the contents octets of an object identifier, as
    /// [`oid_octets`](crate::oid_octets) writes them.
    pub content_type: Option<&'a [u8]>,
    /// The digest of the content's octets (11.2).
    pub message_digest: Option<&'a [u8]>,
    /// When the signer signs (11.3), as `YYYYMMDDHHMMSSZ`: 15 characters, in UTC. It is written as UTCTime in the years
    /// 1950 to 2049, and otherwise as GeneralizedTime.
    pub signing_time: Option<&'a str>,
    /// Further attributes: the element of a SET OF Attribute. In it, those of the types contentType, messageDigest and
    /// signingTime aren't written.
    pub attributes: Option<&'a [u8]>,
}

impl<'a> AttributesGiven<'a> {
    /// The two that signed attributes have to have (RFC 5652, 5.3). What it doesn't take is `None`, and may be set.
    pub fn new(content_type: &'a [u8], message_digest: &'a [u8]) -> Self {
        Self { content_type: Some(content_type), message_digest: Some(message_digest), ..Self::default() }
    }

    /// The same as the call takes it, with its octets in the input.
    fn placed(&self, input: &mut Vec<u8>) -> calls::AttributesGiven {
        let signing_time = self.signing_time.map(str::as_bytes);
        let mut place = |part| place(input, part);
        calls::AttributesGiven {
            has_content_type: is_there(self.content_type),
            has_message_digest: is_there(self.message_digest),
            has_signing_time: is_there(signing_time),
            has_attributes: is_there(self.attributes),
            content_type: place(self.content_type),
            message_digest: place(self.message_digest),
            signing_time: place(signing_time),
            attributes: place(self.attributes),
        }
    }
}

/// The part that [`build_attributes`] doesn't take.
#[derive(Debug, Clone, Copy, PartialEq, Eq)]
#[non_exhaustive]
pub enum AttributesPart {
    /// [`AttributesGiven::content_type`] is no object identifier.
    ContentType = calls::ATTRIBUTES_PART_CONTENT_TYPE as isize,
    /// No call of this version returns it: [`AttributesGiven::message_digest`] may be any octets, or `None`.
    MessageDigest = calls::ATTRIBUTES_PART_MESSAGE_DIGEST as isize,
    /// [`AttributesGiven::signing_time`] has another form, or the calendar has no such second.
    SigningTime = calls::ATTRIBUTES_PART_SIGNING_TIME as isize,
    /// [`AttributesGiven::attributes`] is no SET OF Attribute.
    Attributes = calls::ATTRIBUTES_PART_ATTRIBUTES as isize,
}

const ATTRIBUTES_PARTS: [AttributesPart; 4] = [
    AttributesPart::ContentType,
    AttributesPart::MessageDigest,
    AttributesPart::SigningTime,
    AttributesPart::Attributes,
];

impl fmt::Display for AttributesPart {
    fn fmt(&self, f: &mut fmt::Formatter<'_>) -> fmt::Result {
        f.write_str(match self {
            AttributesPart::ContentType => "content type",
            AttributesPart::MessageDigest => "message digest",
            AttributesPart::SigningTime => "signing time",
            AttributesPart::Attributes => "attributes",
        })
    }
}

/// Why [`build_attributes`] builds nothing.
#[derive(Debug, Clone, Copy, PartialEq, Eq)]
#[non_exhaustive]
pub enum BuildAttributesError {
    /// The part can't be written: where there are several such parts, one of them.
    Refused(AttributesPart),
    /// What is to be written, or an attribute, has 2^64 bytes or more.
    TooLong,
    /// The library's request for memory was refused, which says nothing of the parts.
    NoMemory,
    /// A status that a library of another version may return, also that of a refusal for a part that this one hasn't.
    Unknown(u32),
}

build_error!(BuildAttributesError, Self::Refused(part) => "refused: {part}");

/// Builds the attributes of a signer (RFC 5652, 5.3 and 11), a SET OF Attribute, in the order of DER (X.690, 11.6). A
/// signature covers these octets (5.4), and [`SignerGiven::signed_attributes`] takes them. With
/// [`AttributesGiven::attributes`] alone it puts those in order, for [`SignerGiven::unsigned_attributes`]. A further
/// attribute that is given twice is written twice, and the values of one stay in their order: where they are given out
/// of order, what is written isn't the DER that 5.3 asks for. No digest is made. Without any attribute the set is
/// empty, which no signer may have.
///
/// ```
/// use vuyhanip::{build_attributes, oid_octets, AttributesGiven, Part};
/// let data = oid_octets("1.2.840.113549.1.7.1")?;
/// // the attributes of a file, whose content has this digest
/// let file = std::fs::read("tests/by_key.p7m")?;
/// let signer = vuyhanip::signers(&file)?[0]?;
/// let digest = signer.message_digest.ok_or("no attributes")?;
/// let mut given = AttributesGiven::new(&data, digest);
/// given.signing_time = Some("20261127151847Z");
/// let covered = build_attributes(&given)?;
/// assert_eq!(vuyhanip::part(Part::SignedAttributes, 0, &file)?.as_ref(), Some(&covered));
/// # Ok::<(), Box<dyn std::error::Error>>(())
/// ```
pub fn build_attributes(given: &AttributesGiven<'_>) -> Result<Vec<u8>, BuildAttributesError> {
    let mut input = Vec::new();
    let given = given.placed(&mut input);
    let mut part = 0;
    // headers and the object identifiers of the three types add less than 128 octets
    let (status, out) = written(input.len() + 128, |out, out_len, written| {
        // SAFETY: the pointers of slices aren't null and have their lengths; all is borrowed for the call
        unsafe { calls::der_build_attributes(input.as_ptr(), input.len(), &given, out, out_len, written, &mut part) }
    });
    if status == NORMAL { Ok(out) } else { Err(refused_attributes(status, part)) }
}

fn refused_attributes(status: u32, part: usize) -> BuildAttributesError {
    match ATTRIBUTES_PARTS.into_iter().find(|it| *it as usize == part) {
        Some(part) if status == calls::INVALID => BuildAttributesError::Refused(part),
        _ => BuildAttributesError::other(status),
    }
}

/// What names a signer (RFC 5652, 5.3).
#[derive(Debug, Clone, Copy, PartialEq, Eq)]
#[non_exhaustive]
pub enum SignerName<'a> {
    /// Its certificate, out of which issuer and serial number are read. The signer has version 1, and the certificate
    /// is in the file only where [`Signed::certificate`] adds it.
    Certificate(&'a [u8]),
    /// The octets of the certificate's subjectKeyIdentifier, as
    /// [`Certificate::key_identifier`](crate::Certificate::key_identifier) has them. The signer has version 3.
    KeyIdentifier(&'a [u8]),
}

/// A signer for [`Signed::signer`]. What the constructor doesn't take is `None`, and may be set.
///
/// Of a [`Signer`](crate::Signer) that was listed, both algorithms, the signature and the certificate can be given as
/// they are, and, where it has a [`message_digest`](crate::Signer::message_digest), what
/// [`covered`](crate::Signer::covered) returns as its signed attributes. Where it has no certificate, and issuer and
/// serial number name it, give its certificate from elsewhere. A key identifier that names it is to be given too, as
/// [`Part::KeyIdentifier`](crate::Part::KeyIdentifier) finds it, and so are unsigned attributes:
/// [`attributes`](crate::attributes) finds each Attribute; put them after one another under a header, `31` and their
/// length. [`signers`](crate::signers) also takes signers with two signing times, or with one that isn't as [`Signed`]
/// asks, which are refused here.
#[derive(Debug, Clone, Copy, PartialEq, Eq)]
#[non_exhaustive]
pub struct SignerGiven<'a> {
    /// What names it.
    pub identifier: SignerName<'a>,
    /// An AlgorithmIdentifier, with its parameters. [`build_parameters`](crate::build_parameters) builds one for
    /// [`PasswordHolder::Algorithm`](crate::PasswordHolder::Algorithm), of what
    /// [`PasswordParameters::other`](crate::PasswordParameters::other) makes.
    pub digest_algorithm: &'a [u8],
    /// What the signature covers: the element of a SET OF Attribute that isn't empty, as [`build_attributes`] writes
    /// it. It stays in its order, which RFC 5652, 5.3, asks to be that of DER. `None` where the signature covers the
    /// octets of the content, whose type has to be id-data then (5.3): a signature over attributes doesn't verify
    /// without them.
    pub signed_attributes: Option<&'a [u8]>,
    /// The same as of the digest.
    pub signature_algorithm: &'a [u8],
    /// The octets of the signature, which may be any.
    pub signature: &'a [u8],
    /// The element of a SET OF Attribute that isn't empty. It stays in its order.
    pub unsigned_attributes: Option<&'a [u8]>,
}

impl<'a> SignerGiven<'a> {
    /// A signer without attributes, whose signature covers the content's octets.
    pub fn new(
        identifier: SignerName<'a>,
        digest_algorithm: &'a [u8],
        signature_algorithm: &'a [u8],
        signature: &'a [u8],
    ) -> Self {
        Self {
            identifier,
            digest_algorithm,
            signed_attributes: None,
            signature_algorithm,
            signature,
            unsigned_attributes: None,
        }
    }

    /// The same as the call takes it, with its octets in the input.
    fn placed(&self, input: &mut Vec<u8>) -> calls::SignerGiven {
        let (certificate, key_identifier) = match self.identifier {
            SignerName::Certificate(octets) => (Some(octets), None),
            SignerName::KeyIdentifier(octets) => (None, Some(octets)),
        };
        let mut place = |part| place(input, part);
        calls::SignerGiven {
            has_key_identifier: is_there(key_identifier),
            has_signed_attributes: is_there(self.signed_attributes),
            has_unsigned_attributes: is_there(self.unsigned_attributes),
            certificate: place(certificate),
            key_identifier: place(key_identifier),
            digest_algorithm: place(Some(self.digest_algorithm)),
            signed_attributes: place(self.signed_attributes),
            signature_algorithm: place(Some(self.signature_algorithm)),
            signature: place(Some(self.signature)),
            unsigned_attributes: place(self.unsigned_attributes),
        }
    }
}

/// The part that [`Signed::finish`] doesn't take. From [`Identifier`](SignedPart::Identifier) on they are of a signer.
#[derive(Debug, Clone, Copy, PartialEq, Eq)]
#[non_exhaustive]
pub enum SignedPart {
    /// The content type is no object identifier.
    ContentType = calls::SIGNED_PART_CONTENT_TYPE as isize,
    /// What [`Signed::element`] took isn't exactly one element, with a tag of one octet; or there are no signers, and
    /// there is content, or its type isn't id-data (RFC 5652, 5.2).
    Content = calls::SIGNED_PART_CONTENT as isize,
    /// A certificate isn't exactly one element, or hasn't the tag of a certificate or of another choice: `30`, `A0`,
    /// `A1`, `A2` or `A3` (10.2.2).
    Certificate = calls::SIGNED_PART_CERTIFICATE as isize,
    /// A revocation list isn't exactly one element, or hasn't the tag of one or of the other choice: `30` or `A1`
    /// (10.2.1).
    Crl = calls::SIGNED_PART_CRL as isize,
    /// What [`SignerName::Certificate`] holds is no certificate.
    Identifier = calls::SIGNED_PART_IDENTIFIER as isize,
    /// [`SignerGiven::digest_algorithm`] is no AlgorithmIdentifier.
    DigestAlgorithm = calls::SIGNED_PART_DIGEST_ALGORITHM as isize,
    /// [`SignerGiven::signed_attributes`] is no SET OF Attribute, or an empty one; or they, or their absence, break RFC
    /// 5652: see [`Signed`].
    SignedAttributes = calls::SIGNED_PART_SIGNED_ATTRIBUTES as isize,
    /// [`SignerGiven::signature_algorithm`] is no AlgorithmIdentifier.
    SignatureAlgorithm = calls::SIGNED_PART_SIGNATURE_ALGORITHM as isize,
    /// No call of this version returns it: [`SignerGiven::signature`] may be any octets.
    Signature = calls::SIGNED_PART_SIGNATURE as isize,
    /// [`SignerGiven::unsigned_attributes`] is no SET OF Attribute, or an empty one.
    UnsignedAttributes = calls::SIGNED_PART_UNSIGNED_ATTRIBUTES as isize,
}

const SIGNED_PARTS: [SignedPart; 10] = [
    SignedPart::ContentType,
    SignedPart::Content,
    SignedPart::Certificate,
    SignedPart::Crl,
    SignedPart::Identifier,
    SignedPart::DigestAlgorithm,
    SignedPart::SignedAttributes,
    SignedPart::SignatureAlgorithm,
    SignedPart::Signature,
    SignedPart::UnsignedAttributes,
];

impl fmt::Display for SignedPart {
    fn fmt(&self, f: &mut fmt::Formatter<'_>) -> fmt::Result {
        f.write_str(match self {
            SignedPart::ContentType => "content type",
            SignedPart::Content => "content",
            SignedPart::Certificate => "certificate",
            SignedPart::Crl => "revocation list",
            SignedPart::Identifier => "identifier",
            SignedPart::DigestAlgorithm => "digest algorithm",
            SignedPart::SignedAttributes => "signed attributes",
            SignedPart::SignatureAlgorithm => "signature algorithm",
            SignedPart::Signature => "signature",
            SignedPart::UnsignedAttributes => "unsigned attributes",
        })
    }
}

/// Why [`Signed::finish`] builds nothing.
#[derive(Debug, Clone, Copy, PartialEq, Eq)]
#[non_exhaustive]
pub enum BuildSignedError {
    /// A part can't be written: where there are several such parts, one of them.
    Refused {
        /// The part that is wrong.
        part: SignedPart,
        /// The index of the certificate, the revocation list or the signer, in the order in which they were added, from
        /// 0 on. `None` of the content type and of the content.
        index: Option<usize>,
    },
    /// What is to be written, or a signer in it, has 2^64 bytes or more.
    TooLong,
    /// The library's request for memory was refused, which says nothing of the parts.
    NoMemory,
    /// A status that a library of another version may return, also that of a refusal for a part that this one hasn't.
    Unknown(u32),
}

build_error!(BuildSignedError, Self::Refused { part, index } => "refused: {}", in_words(*part, *index));

/// A part, with what it is, or is a part of.
fn in_words(part: SignedPart, index: Option<usize>) -> String {
    match (part, index) {
        (_, None) => part.to_string(),
        (SignedPart::Certificate | SignedPart::Crl, Some(index)) => format!("{part} {index}"),
        (_, Some(index)) => format!("{part} of signer {index}"),
    }
}

fn refused_signed(status: u32, index: usize, part: usize) -> BuildSignedError {
    match SIGNED_PARTS.into_iter().find(|it| *it as usize == part) {
        Some(part) if status == calls::INVALID => {
            let has_index = !matches!(part, SignedPart::ContentType | SignedPart::Content);
            BuildSignedError::Refused { part, index: has_index.then_some(index) }
        }
        _ => BuildSignedError::other(status),
    }
}

/// Signed data under its content type, a ContentInfo (RFC 5652, 3 and 5), that is built from its parts. No digest and
/// no signature is made or verified: the caller signs what [`build_attributes`] wrote, or the content's octets where a
/// signer has no signed attributes.
///  - Where neither [`content`](Signed::content) nor [`element`](Signed::element) is called, the signature is detached.
///  - Without signers, the file has certificates and revocation lists alone, no content, and the type id-data (5.2).
///  - The signed attributes of a signer have to have one contentType that is the content's, one messageDigest, and at
///    most one signingTime, each with one value: an OBJECT IDENTIFIER, an OCTET STRING, and a UTCTime or
///    GeneralizedTime in whole seconds that ends in Z (RFC 5652, 11.1 to 11.3). Content of another type than id-data
///    needs them (5.3). That the digest is the content's isn't looked at, nor that a signingTime is UTCTime in the
///    years 1950 to 2049, as [`build_attributes`] writes it, that none is a countersignature (11.4), nor their order
///    and that of the values in one.
///  - The version is that of 5.1. But what [`element`](Signed::element) takes is content of PKCS #7 unless it is an
///    OCTET STRING, and its type doesn't raise the version (RFC 2315, 9.1). Content that isn't in the file counts as
///    that of CMS.
///  - digestAlgorithms are those of the signers, each encoding once: absent parameters and NULL are two. Certificates,
///    revocation lists and signers are written as often as they are added. All four are in the order of DER (X.690,
///    11.6), so signers may be in another order than here. The attributes of a signer stay in theirs.
///
/// What is in a certificate, but for a signer's, in a revocation list, in an element or in unsigned attributes isn't
/// looked at.
///
/// ```
/// use vuyhanip::{Signed, SignerGiven, SignerName};
/// // the content of a file, with another signature beside that of the file, by the same certificate
/// let file = std::fs::read("tests/signed.p7m")?;
/// let signer = vuyhanip::signers(&file)?[0]?;
/// let (content, certificate) = (signer.content.ok_or("detached")?, signer.certificate.ok_or("no certificate")?);
/// let covered = signer.covered(content);
/// # let sign = |_: &[u8]| [7; 70];
/// let signature = sign(&covered);
/// let algorithms = (signer.digest_algorithm, signer.signature_algorithm);
/// let named = SignerName::Certificate(certificate);
/// let mut first = SignerGiven::new(named, algorithms.0, algorithms.1, signer.signature);
/// first.signed_attributes = Some(&covered);
/// let mut second = SignerGiven::new(named, algorithms.0, algorithms.1, &signature);
/// second.signed_attributes = Some(&covered);
/// let data = vuyhanip::oid_octets("1.2.840.113549.1.7.1")?;
/// let built = Signed::new(&data).content(content).certificate(certificate).signer(first).signer(second).finish()?;
/// let found = vuyhanip::signers(&built)?;
/// assert_eq!((found.len(), vuyhanip::certificates(&built)?), (2, vec![certificate]));
/// assert!(found.contains(&Ok(signer)));
/// # Ok::<(), Box<dyn std::error::Error>>(())
/// ```
#[derive(Debug, Clone, PartialEq, Eq)]
pub struct Signed<'a> {
    content_type: &'a [u8],
    content: Option<&'a [u8]>,
    is_element: bool,
    certificates: Vec<&'a [u8]>,
    crls: Vec<&'a [u8]>,
    signers: Vec<SignerGiven<'a>>,
}

impl<'a> Signed<'a> {
    /// Without content, certificates, revocation lists and signers. The content type is given as the contents octets of
    /// an object identifier, as [`oid_octets`](crate::oid_octets) writes them.
    pub fn new(content_type: &'a [u8]) -> Self {
        Self {
            content_type,
            content: None,
            is_element: false,
            certificates: Vec::new(),
            crls: Vec::new(),
            signers: Vec::new(),
        }
    }

    /// Sets the content: octets, which are written into an OCTET STRING (RFC 5652, 5.2).
    pub fn content(&mut self, octets: &'a [u8]) -> &mut Self {
        (self.content, self.is_element) = (Some(octets), false);
        self
    }

    /// Sets the content: an element, which is written as it is (PKCS #7: RFC 2315, 7), as the indirect data of
    /// Authenticode. Its digest is that of its contents octets (RFC 2315, 9.3).
    pub fn element(&mut self, octets: &'a [u8]) -> &mut Self {
        (self.content, self.is_element) = (Some(octets), true);
        self
    }

    /// Adds a certificate, or another choice of CertificateChoices (RFC 5652, 10.2.2).
    pub fn certificate(&mut self, octets: &'a [u8]) -> &mut Self {
        self.certificates.push(octets);
        self
    }

    /// Adds a revocation list, or the other choice of RevocationInfoChoice (RFC 5652, 10.2.1).
    pub fn crl(&mut self, octets: &'a [u8]) -> &mut Self {
        self.crls.push(octets);
        self
    }

    /// Adds a signer.
    pub fn signer(&mut self, signer: SignerGiven<'a>) -> &mut Self {
        self.signers.push(signer);
        self
    }

    /// The file.
    pub fn finish(&self) -> Result<Vec<u8>, BuildSignedError> {
        let mut input = Vec::new();
        let given = calls::SignedGiven {
            has_content: is_there(self.content),
            is_element: self.is_element.into(),
            content_type: place(&mut input, Some(self.content_type)),
            content: place(&mut input, self.content),
        };
        let certificates = all_placed(&mut input, &self.certificates);
        let crls = all_placed(&mut input, &self.crls);
        let signers: Vec<_> = self.signers.iter().map(|signer| signer.placed(&mut input)).collect();
        let (mut index, mut part) = (0, 0);
        // headers, a version and the digest algorithm once more add less than 128 octets to a signer, unless its
        // parameters are long: then the call may ask for more
        let (status, out) = written(input.len() + 128 * signers.len() + 128, |out, out_len, written| {
            // SAFETY: as above
            unsafe {
                calls::der_build_signed(
                    input.as_ptr(), input.len(), &given, certificates.as_ptr(), certificates.len(), crls.as_ptr(),
                    crls.len(), signers.as_ptr(), signers.len(), out, out_len, written, &mut index, &mut part,
                )
            }
        });
        if status == NORMAL { Ok(out) } else { Err(refused_signed(status, index, part)) }
    }
}
