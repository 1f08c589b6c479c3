//! What Authenticode signs, borrowed from the signature.
use crate::calls::{self, IndirectParts, Range};
use crate::{error, Error, NORMAL, NO_PART};

/// The parts of indirect data (SpcIndirectDataContent): which digest an Authenticode signature has, and of what.
/// Nothing of it is judged: no signature is looked at, and no digest is compared with a file.
#[derive(Debug, Clone, Copy, PartialEq, Eq)]
#[non_exhaustive]
pub struct Indirect<'a> {
    /// The contents octets of the object identifier that says what was hashed, a program, a cabinet, a script, which
    /// [`oid_text`](crate::oid_text) takes.
    pub attribute_type: &'a [u8],
    /// The element of its value, whatever is in it.
    pub attribute_value: Option<&'a [u8]>,
    /// The element of the digest's AlgorithmIdentifier.
    pub digest_algorithm: &'a [u8],
    /// The octets of the digest.
    pub digest: &'a [u8],
    /// The parts of the value. `None` where the type isn't SPC_PE_IMAGE_DATA_OBJID, or the value isn't a SEQUENCE of a
    /// BIT STRING and of any element in `[0]`, each of which may be absent.
    pub image: Option<Image<'a>>,
}

/// The parts of image data (SpcPeImageData), which a program's signature has.
#[derive(Debug, Clone, Copy, PartialEq, Eq)]
#[non_exhaustive]
pub struct Image<'a> {
    /// The contents octets of the flags, a BIT STRING: first the count of unused bits. `None` means the bits 1 0 0.
    pub flags: Option<&'a [u8]>,
    /// The element in file, in signatures an SpcLink, without the `[0]` around it.
    pub link: Option<&'a [u8]>,
}

/// The parts of the content of signed data, with signers of every version, where that is indirect data. The file is
/// read once, its content once more, and image data in that once more. `None` where the content is of another type, or
/// there is none.
///
/// ```
/// // of a program, with a digest of two octets, and without signers
/// let file = b"\x30\x57\x06\x09\x2A\x86\x48\x86\xF7\x0D\x01\x07\x02\xA0\x4A\x30\x48\x02\x01\x01\x31\x00\
///     \x30\x3F\x06\x0A\x2B\x06\x01\x04\x01\x82\x37\x02\x01\x04\xA0\x31\x30\x2F\x30\x18\
///     \x06\x0A\x2B\x06\x01\x04\x01\x82\x37\x02\x01\x0F\x30\x0A\x03\x02\x05\x80\xA0\x04\xA2\x02\x80\x00\
///     \x30\x13\x30\x0D\x06\x09\x60\x86\x48\x01\x65\x03\x04\x02\x01\x05\x00\x04\x02\x07\x08\x31\x00";
/// let indirect = vuyhanip::indirect(file)?.ok_or("other content")?;
/// assert_eq!(vuyhanip::oid_text(indirect.attribute_type)?, "1.3.6.1.4.1.311.2.1.15");
/// assert_eq!(indirect.digest, [7, 8]);
/// // the content of this file is of another type
/// let file = std::fs::read("tests/signed.p7m")?;
/// assert_eq!(vuyhanip::indirect(&file)?, None);
/// # Ok::<(), Box<dyn std::error::Error>>(())
/// ```
pub fn indirect(input: &[u8]) -> Result<Option<Indirect<'_>>, Error> {
    let (mut parts, mut place) = (IndirectParts::default(), 0);
    // SAFETY: the pointer of a slice isn't null and has its length; all is borrowed for the call
    match unsafe { calls::der_indirect(input.as_ptr(), input.len(), &mut parts, &mut place) } {
        NORMAL => Ok(Some(found(input, &parts))),
        NO_PART => Ok(None),
        status => Err(error(status, place)),
    }
}

fn found<'a>(input: &'a [u8], parts: &IndirectParts) -> Indirect<'a> {
    let of = |it: Range| &input[it.start..][..it.len];
    let optional = |is_there: usize, it: Range| (is_there != 0).then(|| of(it));
    Indirect {
        attribute_type: of(parts.attribute_type),
        attribute_value: optional(parts.has_attribute_value, parts.attribute_value),
        digest_algorithm: of(parts.digest_algorithm),
        digest: of(parts.digest),
        image: (parts.is_image != 0).then(|| Image {
            flags: optional(parts.has_image_flags, parts.image_flags),
            link: optional(parts.has_image_link, parts.image_link),
        }),
    }
}
