//! The bags of a PKCS #12 store, borrowed from the file.
use crate::calls::{self, BagParts, Range};
use crate::{error, Error, NORMAL, NO_ROOM};

/// What a bag holds, by its object identifier (RFC 7292, 4.2). [`build_bags`](crate::build_bags) writes each kind but
/// `OtherCertificate`, `OtherCrl` and `Unread`.
#[derive(Debug, Clone, Copy, PartialEq, Eq)]
#[non_exhaustive]
pub enum BagKind {
    /// A key that isn't encrypted.
    Key = calls::BAG_KEY as isize,
    /// An encrypted key.
    ShroudedKey = calls::BAG_SHROUDED_KEY as isize,
    /// An X.509 certificate.
    Certificate = calls::BAG_CERTIFICATE as isize,
    /// An X.509 revocation list.
    Crl = calls::BAG_CRL as isize,
    /// A certificate of another type, as SDSI.
    OtherCertificate = calls::BAG_OTHER_CERTIFICATE as isize,
    /// A revocation list of another type.
    OtherCrl = calls::BAG_OTHER_CRL as isize,
    /// A secret of any type.
    Secret = calls::BAG_SECRET as isize,
    /// Bags, which follow it one level down.
    SafeContents = calls::BAG_SAFE_CONTENTS as isize,
    /// Something that RFC 7292 doesn't know.
    Other = calls::BAG_OTHER as isize,
    /// No bag, but a whole ContentInfo that isn't data: encrypted bags, say.
    Unread = calls::BAG_UNREAD as isize,
}

/// A bag that isn't encrypted.
#[derive(Debug, Clone, Copy, PartialEq, Eq)]
#[non_exhaustive]
pub struct Bag<'a> {
    /// What it holds.
    pub kind: BagKind,
    /// In how many bags it is.
    pub level: usize,
    /// The whole bag.
    pub element: &'a [u8],
    /// The octets that should be the DER of an X.509 certificate or revocation list: any, or none, which aren't looked
    /// at; of other kinds the element that the bag holds.
    pub value: &'a [u8],
    /// The friendly name, in UTF-16, two octets for each unit, the high one first.
    pub friendly_name: Option<&'a [u8]>,
    /// The local key identifier, which a key and its certificate have in common.
    pub local_key_id: Option<&'a [u8]>,
}

impl<'a> Bag<'a> {
    /// The friendly name as text, which is that of [`utf16_text`](crate::utf16_text).
    pub fn name(&self) -> Option<String> {
        let units = self.friendly_name?.chunks_exact(2).map(|it| u16::from_be_bytes([it[0], it[1]]));
        Some(char::decode_utf16(units).map(|it| it.unwrap_or(char::REPLACEMENT_CHARACTER)).collect())
    }

    /// The contents octets of its object identifier, and the element of its attributes, if it has a set of them.
    pub(crate) fn identifier_and_attributes(&self) -> Option<(&'a [u8], Option<&'a [u8]>)> {
        let (parts, _) = opened(self.element)?;
        let (identifier, after) = opened(parts)?;
        let (_, attributes) = opened(after)?;
        Some((identifier, Some(attributes).filter(|it| !it.is_empty())))
    }
}

/// The contents of the element that octets begin with, and what follows it. Its tag has one octet, and its length is
/// definite, as in what the library has read.
pub(crate) fn opened(octets: &[u8]) -> Option<(&[u8], &[u8])> {
    let (first, after) = (*octets.get(1)?, octets.get(2..)?);
    let (len, after) = if first < 0x80 {
        (usize::from(first), after)
    } else {
        let count = usize::from(first - 0x80);
        let digits = after.get(..count)?;
        (digits.iter().fold(0, |len, digit| len << 8 | usize::from(*digit)), &after[count..])
    };
    Some((after.get(..len)?, &after[len..]))
}

/// The bags of a PKCS #12 store that aren't encrypted, in their order, those in a bag after it. Up to 64 are found in one
/// reading, more in two. Neither is the MAC looked at nor anything decrypted.
///
/// ```
/// // the shortest PKCS #12 file
/// let file = b"\x30\x16\x02\x01\x03\x30\x11\x06\x09\x2A\x86\x48\x86\xF7\x0D\x01\x07\x01\xA0\x04\x04\x02\x30\x00";
/// assert!(vuyhanip::bags(file)?.is_empty());
/// # Ok::<(), vuyhanip::Error>(())
/// ```
pub fn bags(input: &[u8]) -> Result<Vec<Bag<'_>>, Error> {
    let (mut rows, mut count, mut place) = (vec![BagParts::default(); 64], 0, 0);
    loop {
        let (out, out_len) = (rows.as_mut_ptr(), rows.len());
        // SAFETY: the pointers of slices aren't null and have their lengths; all is borrowed for the call
        let status = unsafe { calls::der_bag_rows(input.as_ptr(), input.len(), out, out_len, &mut count, &mut place) };
        match status {
            NORMAL => return Ok(rows[..count].iter().map(|row| bag(input, row)).collect()),
            NO_ROOM => rows.resize(count, BagParts::default()),
            status => return Err(error(status, place)),
        }
    }
}

fn bag<'a>(input: &'a [u8], row: &BagParts) -> Bag<'a> {
    let of = |it: Range| &input[it.start..][..it.len];
    Bag {
        kind: match row.kind {
            calls::BAG_KEY => BagKind::Key,
            calls::BAG_SHROUDED_KEY => BagKind::ShroudedKey,
            calls::BAG_CERTIFICATE => BagKind::Certificate,
            calls::BAG_CRL => BagKind::Crl,
            calls::BAG_SECRET => BagKind::Secret,
            calls::BAG_SAFE_CONTENTS => BagKind::SafeContents,
            calls::BAG_UNREAD => BagKind::Unread,
            calls::BAG_OTHER_CERTIFICATE => BagKind::OtherCertificate,
            calls::BAG_OTHER_CRL => BagKind::OtherCrl,
            _ => BagKind::Other,
        },
        level: row.level,
        element: of(row.element),
        value: of(row.value),
        friendly_name: (row.has_friendly_name != 0).then(|| of(row.friendly_name)),
        local_key_id: (row.has_local_key_id != 0).then(|| of(row.local_key_id)),
    }
}
