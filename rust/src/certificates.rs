//! The parts of an X.509 certificate, borrowed from it.
use crate::calls::{self, CertificateParts, Range};
use crate::{error, Error, NORMAL};

/// The parts of an X.509 certificate (RFC 5280, 4.1). Nothing of it is judged, neither its signature nor its times.
#[derive(Debug, Clone, Copy, PartialEq, Eq)]
#[non_exhaustive]
pub struct Certificate<'a> {
    /// The contents octets of the serial number, which [`integer_text`](crate::integer_text) takes.
    pub serial_number: &'a [u8],
    /// The element of the Name, which [`name_text`](crate::name_text) takes.
    pub issuer: &'a [u8],
    /// The element with both times, whatever is in it.
    pub validity: &'a [u8],
    /// The element of the Name.
    pub subject: &'a [u8],
    /// The whole element of the key, whatever is in it.
    pub subject_public_key_info: &'a [u8],
    /// The parts of the key. `None` where it doesn't read as SubjectPublicKeyInfo.
    pub key: Option<Key<'a>>,
    /// What is in the first `[3]` after the key: the element of Extensions, where it is one.
    pub extensions: Option<&'a [u8]>,
    /// The octets of the first subjectKeyIdentifier that reads as one, in extensions that do.
    pub key_identifier: Option<&'a [u8]>,
}

/// The parts of a certificate's key.
#[derive(Debug, Clone, Copy, PartialEq, Eq)]
#[non_exhaustive]
pub struct Key<'a> {
    /// The contents octets of the algorithm's object identifier, which [`oid_text`](crate::oid_text) takes.
    pub algorithm: &'a [u8],
    /// The element of the algorithm's parameters.
    pub parameters: Option<&'a [u8]>,
    /// The octets of subjectPublicKey, a BIT STRING, after the count of unused bits.
    pub octets: &'a [u8],
}

/// The parts of an X.509 certificate of any version, in one reading.
///
/// ```
/// let file = std::fs::read("tests/signed.p7m")?;
/// let certificate = vuyhanip::certificate(vuyhanip::certificates(&file)?[0])?;
/// assert_eq!(vuyhanip::integer_text(certificate.serial_number)?, "2");
/// assert_eq!(vuyhanip::name_text(certificate.subject)?, "CN=A");
/// assert_eq!(certificate.key_identifier, Some(&[6, 7, 8][..]));
/// # Ok::<(), Box<dyn std::error::Error>>(())
/// ```
pub fn certificate(input: &[u8]) -> Result<Certificate<'_>, Error> {
    let (mut parts, mut place) = (CertificateParts::default(), 0);
    // SAFETY: the pointer of a slice isn't null and has its length; all is borrowed for the call
    match unsafe { calls::der_certificate(input.as_ptr(), input.len(), &mut parts, &mut place) } {
        NORMAL => Ok(found(input, &parts)),
        status => Err(error(status, place)),
    }
}

fn found<'a>(input: &'a [u8], parts: &CertificateParts) -> Certificate<'a> {
    let of = |it: Range| &input[it.start..][..it.len];
    let optional = |is_there: usize, it: Range| (is_there != 0).then(|| of(it));
    Certificate {
        serial_number: of(parts.serial_number),
        issuer: of(parts.issuer),
        validity: of(parts.validity),
        subject: of(parts.subject),
        subject_public_key_info: of(parts.subject_public_key_info),
        key: (parts.has_key != 0).then(|| Key {
            algorithm: of(parts.key_algorithm),
            parameters: optional(parts.has_key_parameters, parts.key_parameters),
            octets: of(parts.public_key),
        }),
        extensions: optional(parts.has_extensions, parts.extensions),
        key_identifier: optional(parts.has_key_identifier, parts.key_identifier),
    }
}
