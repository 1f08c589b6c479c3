//! What a verification of signers needs, borrowed from the file.
use crate::calls::{self, SignerParts};
use crate::{error, Error, NORMAL};
use std::borrow::Cow;
use std::fmt;

/// What a verification of one signer needs (RFC 5652, 5.3 to 5.6). A verifier
///  1. takes the content: [`Signer::content`], or where that is `None` what the signature was detached from;
///  2. where there is a [`Signer::message_digest`], hashes the content by the digest algorithm, and compares;
///  3. verifies the signature over what [`Signer::covered`] returns, by the signature algorithm and the key of the
///     certificate.
///
/// That the certificate is to be trusted, and may sign, isn't looked at.
#[derive(Debug, Clone, Copy, PartialEq, Eq)]
#[non_exhaustive]
pub struct Signer<'a> {
    /// The signed attributes as they are in the file, under `[0]`.
    attributes: Option<&'a [u8]>,
    /// The digest that the content has to have. `None` where there are no signed attributes.
    pub message_digest: Option<&'a [u8]>,
    /// The contents octets of the content, which are hashed. `None` where the signature is detached.
    pub content: Option<&'a [u8]>,
    /// An AlgorithmIdentifier, with its parameters.
    pub digest_algorithm: &'a [u8],
    /// The same.
    pub signature_algorithm: &'a [u8],
    /// The octets of the signature.
    pub signature: &'a [u8],
    /// The first certificate of the file that the signer names, by issuer and serial number, or by its key identifier.
    pub certificate: Option<&'a [u8]>,
}

impl<'a> Signer<'a> {
    /// What the signature covers, of this content: the signed attributes under the tag of a SET OF, or, where there are
    /// none, the content itself. Pass [`Signer::content`], or what the signature was detached from.
    pub fn covered(&self, content: &'a [u8]) -> Cow<'a, [u8]> {
        match self.attributes {
            Some(attributes) => Cow::Owned([&[0x31], &attributes[1..]].concat()),
            None => Cow::Borrowed(content),
        }
    }
}

/// A signer whose signed attributes break RFC 5652 (5.3, 11.1, 11.2): they are an empty set, lack messageDigest or
/// contentType, have one of them several times, with no value or with several, or name another type than the content's;
/// or there are none, and the content's type isn't id-data. There is nothing to verify.
#[derive(Debug, Clone, Copy, PartialEq, Eq)]
pub struct BadAttributes;

impl fmt::Display for BadAttributes {
    fn fmt(&self, f: &mut fmt::Formatter<'_>) -> fmt::Result {
        f.write_str("bad attributes")
    }
}

impl std::error::Error for BadAttributes {}

/// The signers of signed data, of any CMSVersion and over content of any type. Where there are none, the list is empty,
/// and nothing is signed: ask for that too. Up to 16 are found in one reading, more in two.
///
/// ```
/// let file = std::fs::read("tests/by_key.p7m")?;
/// let mut count = 0;
/// for signer in vuyhanip::signers(&file)? {
///     // an error where the attributes are bad
///     let signer = signer?;
///     let content = signer.content.ok_or("detached")?;
///     assert_eq!((content, signer.message_digest.map(<[u8]>::len)), (&b"hello, world"[..], Some(32)));
///     // the signature is over these octets
///     let covered = signer.covered(content);
///     assert_eq!((covered.len(), covered[0]), (107, 0x31));
///     count += 1;
/// }
/// assert_eq!(count, 1);
/// # Ok::<(), Box<dyn std::error::Error>>(())
/// ```
pub fn signers(input: &[u8]) -> Result<Vec<Result<Signer<'_>, BadAttributes>>, Error> {
    let (mut rows, mut count, mut place) = (vec![SignerParts::default(); 16], 0, 0);
    loop {
        let (out, out_len) = (rows.as_mut_ptr(), rows.len());
        // SAFETY: the pointers of slices aren't null and have their lengths; all is borrowed for the call
        let status = unsafe {
            calls::der_signer_rows(input.as_ptr(), input.len(), 0, out, out_len, &mut count, &mut place)
        };
        if status != NORMAL {
            return Err(error(status, place));
        }
        if count <= rows.len() {
            return Ok(rows[..count].iter().map(|row| signer(input, row)).collect());
        }
        rows.resize(count, SignerParts::default());
    }
}

fn signer<'a>(input: &'a [u8], row: &SignerParts) -> Result<Signer<'a>, BadAttributes> {
    let slice = |range: calls::Range| &input[range.start..][..range.len];
    let optional = |is_there: usize, range| if is_there == 1 { Some(slice(range)) } else { None };
    if row.status != NORMAL as usize {
        return Err(BadAttributes);
    }
    Ok(Signer {
        attributes: optional(row.over_attributes, row.covered),
        message_digest: optional(row.over_attributes, row.digest),
        content: optional(row.has_content, row.content),
        digest_algorithm: slice(row.digest_algorithm),
        signature_algorithm: slice(row.signature_algorithm),
        signature: slice(row.signature),
        certificate: optional(row.has_certificate, row.certificate),
    })
}
