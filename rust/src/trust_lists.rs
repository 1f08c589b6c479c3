//! The trust list of signed data, borrowed from it.
use crate::calls::{self, Range, TrustEntryParts, TrustListParts};
use crate::{error, Error, NORMAL, NO_PART, NO_ROOM};

/// The parts of a trust list (CertificateTrustList) but its entries, which [`trust_entries`] has. Nothing of it is
/// judged: no signature and no time is looked at.
#[derive(Debug, Clone, Copy, PartialEq, Eq)]
#[non_exhaustive]
pub struct TrustList<'a> {
    /// The contents octets of the version, an INTEGER. `None` means v1.
    pub version: Option<&'a [u8]>,
    /// The element of subjectUsage, a SEQUENCE OF OBJECT IDENTIFIER: what the list is for.
    pub usages: &'a [u8],
    /// The octets of listIdentifier.
    pub list_identifier: Option<&'a [u8]>,
    /// The contents octets of the sequence number, which [`integer_text`](crate::integer_text) takes.
    pub sequence_number: Option<&'a [u8]>,
    /// The element of ctlThisUpdate, a UTCTime or a GeneralizedTime.
    pub this_update: &'a [u8],
    /// The element of ctlNextUpdate, one of these too. `None` where the list doesn't say when the next one comes.
    pub next_update: Option<&'a [u8]>,
    /// The element of the AlgorithmIdentifier by which the entries are named.
    pub algorithm: &'a [u8],
    /// The element in ctlExtensions, without the `[0]` around it, whatever is in it.
    pub extensions: Option<&'a [u8]>,
}

/// An entry of a trust list (TrustedSubject).
#[derive(Debug, Clone, Copy, PartialEq, Eq)]
#[non_exhaustive]
pub struct TrustEntry<'a> {
    /// The octets of subjectIdentifier: of a certificate its digest, by the list's algorithm.
    pub identifier: &'a [u8],
    /// The element of subjectAttributes, a SET OF Attribute.
    pub attributes: Option<&'a [u8]>,
}

/// The parts of the content of signed data, with signers of every version, where that is a trust list. The file is read
/// once, and the list once more. `None` where the content is of another type, or there is none.
///
/// ```
/// // a list of roots, with two entries, of which the second has an empty set of attributes, and without signers
/// let file = b"\x30\x61\x06\x09\x2A\x86\x48\x86\xF7\x0D\x01\x07\x02\xA0\x54\x30\x52\x02\x01\x01\x31\x00\
///     \x30\x49\x06\x09\x2B\x06\x01\x04\x01\x82\x37\x0A\x01\xA0\x3C\x30\x3A\
///     \x30\x0C\x06\x0A\x2B\x06\x01\x04\x01\x82\x37\x0A\x03\x09\x02\x01\x07\x17\x0D260102030405Z\
///     \x30\x09\x06\x05\x2B\x0E\x03\x02\x1A\x05\x00\
///     \x30\x0D\x30\x04\x04\x02\x07\x08\x30\x05\x04\x01\x09\x31\x00\x31\x00";
/// let list = vuyhanip::trust_list(file)?.ok_or("other content")?;
/// assert_eq!(list.sequence_number.map(vuyhanip::integer_text), Some(Ok("7".to_owned())));
/// assert_eq!((list.this_update, list.next_update), (&b"\x17\x0D260102030405Z"[..], None));
/// let entries = vuyhanip::trust_entries(file)?.ok_or("other content")?;
/// assert_eq!((entries[0].identifier, entries[0].attributes), (&[7, 8][..], None));
/// assert_eq!((entries[1].identifier, entries[1].attributes), (&[9][..], Some(&[0x31, 0][..])));
/// // the content of this file is of another type
/// let file = std::fs::read("tests/signed.p7m")?;
/// assert_eq!(vuyhanip::trust_list(&file)?, None);
/// # Ok::<(), Box<dyn std::error::Error>>(())
/// ```
pub fn trust_list(input: &[u8]) -> Result<Option<TrustList<'_>>, Error> {
    let (mut parts, mut place) = (TrustListParts::default(), 0);
    // SAFETY: the pointer of a slice isn't null and has its length; all is borrowed for the call
    match unsafe { calls::der_trust_list(input.as_ptr(), input.len(), &mut parts, &mut place) } {
        NORMAL => Ok(Some(found(input, &parts))),
        NO_PART => Ok(None),
        status => Err(error(status, place)),
    }
}

fn found<'a>(input: &'a [u8], parts: &TrustListParts) -> TrustList<'a> {
    let of = |it: Range| &input[it.start..][..it.len];
    let optional = |is_there: usize, it: Range| (is_there != 0).then(|| of(it));
    TrustList {
        version: optional(parts.has_version, parts.version),
        usages: of(parts.usages),
        list_identifier: optional(parts.has_list_identifier, parts.list_identifier),
        sequence_number: optional(parts.has_sequence_number, parts.sequence_number),
        this_update: of(parts.this_update),
        next_update: optional(parts.has_next_update, parts.next_update),
        algorithm: of(parts.algorithm),
        extensions: optional(parts.has_extensions, parts.extensions),
    }
}

/// The entries of the trust list, in their order: none of a list without trustedSubjects. Up to 64 are found in one
/// reading of the file and one of the list, more in two of each. `None`, and refused, as [`trust_list`] is.
pub fn trust_entries(input: &[u8]) -> Result<Option<Vec<TrustEntry<'_>>>, Error> {
    let (mut rows, mut count, mut place) = (vec![TrustEntryParts::default(); 64], 0, 0);
    loop {
        let (out, out_len) = (rows.as_mut_ptr(), rows.len());
        // SAFETY: the pointers of slices aren't null and have their lengths; all is borrowed for the call
        let status =
            unsafe { calls::der_trust_rows(input.as_ptr(), input.len(), out, out_len, &mut count, &mut place) };
        match status {
            NORMAL => return Ok(Some(rows[..count].iter().map(|row| entry(input, row)).collect())),
            NO_ROOM => rows.resize(count, TrustEntryParts::default()),
            NO_PART => return Ok(None),
            status => return Err(error(status, place)),
        }
    }
}

fn entry<'a>(input: &'a [u8], row: &TrustEntryParts) -> TrustEntry<'a> {
    let of = |it: Range| &input[it.start..][..it.len];
    TrustEntry { identifier: of(row.identifier), attributes: (row.has_attributes != 0).then(|| of(row.attributes)) }
}
