//! What Authenticode signs, built from its parts.
use crate::bags::opened;
use crate::build::{build_error, is_there, place};
use crate::calls;
use crate::{written, Indirect, NORMAL};
use std::fmt;

/// What osslsigncode writes of a program: flags of which one bit is set, includeResources, and an SpcLink whose file is
/// the text `<<<Obsolete>>>` in UTF-16.
const INCLUDE_RESOURCES: &[u8] = &[7, 0x80];
const OBSOLETE_LINK: &[u8] = b"\xA2\x1E\x80\x1C\0<\0<\0<\0O\0b\0s\0o\0l\0e\0t\0e\0>\0>\0>";

/// The attribute of indirect data, for [`IndirectGiven`]: what was hashed.
#[derive(Debug, Clone, Copy, PartialEq, Eq)]
#[non_exhaustive]
pub enum IndirectAttribute<'a> {
    /// A program: SPC_PE_IMAGE_DATA_OBJID, and image data (SpcPeImageData) of these parts as its value.
    Image {
        /// The contents octets of the flags, a BIT STRING: first the count of unused bits. Left out, by `None`, they
        /// mean includeResources. DER leaves out that default (X.690, 11.5), whether as `07 80` or `05 80`; flags that
        /// are given are written as they are, also with unused bits that aren't 0, which 11.2.1 forbids.
        flags: Option<&'a [u8]>,
        /// The element in file, in signatures an SpcLink, without the `[0]` around it.
        link: Option<&'a [u8]>,
    },
    /// Any attribute: that of a cabinet or of a script, say.
    Other {
        /// The contents octets of the object identifier of its type, as [`oid_octets`](crate::oid_octets) writes them.
        attribute_type: &'a [u8],
        /// The element of its value, whatever is in it.
        attribute_value: Option<&'a [u8]>,
    },
}

/// Indirect data for [`build_indirect`].
#[derive(Debug, Clone, Copy, PartialEq, Eq)]
#[non_exhaustive]
pub struct IndirectGiven<'a> {
    /// What was hashed.
    pub attribute: IndirectAttribute<'a>,
    /// The AlgorithmIdentifier of the digest, with its parameters, for which osslsigncode writes NULL.
    pub digest_algorithm: &'a [u8],
    /// The octets of the digest of what was hashed. It isn't made here.
    pub digest: &'a [u8],
}

impl<'a> IndirectGiven<'a> {
    /// Indirect data with any attribute.
    pub fn new(attribute: IndirectAttribute<'a>, digest_algorithm: &'a [u8], digest: &'a [u8]) -> Self {
        Self { attribute, digest_algorithm, digest }
    }

    /// Those of a program, as osslsigncode writes them: with the flags `07 80`, which are the first bit,
    /// includeResources, and with a link to the text `<<<Obsolete>>>`. The digest is that of the program without its
    /// checksum, its signatures, and the entry of the data directory that says where these are; an unsigned program is
    /// hashed as if zeros filled it up to a multiple of 8 octets.
    pub fn program(digest_algorithm: &'a [u8], digest: &'a [u8]) -> Self {
        let attribute = IndirectAttribute::Image { flags: Some(INCLUDE_RESOURCES), link: Some(OBSOLETE_LINK) };
        Self::new(attribute, digest_algorithm, digest)
    }

    /// The same as the call takes it, with its octets in the input.
    fn placed(&self, input: &mut Vec<u8>) -> calls::IndirectParts {
        let mut place = |part| place(input, part);
        let parts = calls::IndirectParts {
            digest_algorithm: place(Some(self.digest_algorithm)),
            digest: place(Some(self.digest)),
            ..Default::default()
        };
        match self.attribute {
            IndirectAttribute::Image { flags, link } => calls::IndirectParts {
                is_image: 1,
                has_image_flags: is_there(flags),
                has_image_link: is_there(link),
                image_flags: place(flags),
                image_link: place(link),
                ..parts
            },
            IndirectAttribute::Other { attribute_type, attribute_value } => calls::IndirectParts {
                has_attribute_value: is_there(attribute_value),
                attribute_type: place(Some(attribute_type)),
                attribute_value: place(attribute_value),
                ..parts
            },
        }
    }
}

/// Indirect data that were read, so that a part of them can be changed. A value that has an
/// [`Image`](crate::Image) is given by its parts.
impl<'a> From<&Indirect<'a>> for IndirectGiven<'a> {
    fn from(its: &Indirect<'a>) -> Self {
        let (attribute_type, attribute_value) = (its.attribute_type, its.attribute_value);
        let other = IndirectAttribute::Other { attribute_type, attribute_value };
        let attribute = its.image.map_or(other, |it| IndirectAttribute::Image { flags: it.flags, link: it.link });
        Self::new(attribute, its.digest_algorithm, its.digest)
    }
}

/// The part that [`build_indirect`] doesn't take.
#[derive(Debug, Clone, Copy, PartialEq, Eq)]
#[non_exhaustive]
pub enum IndirectPart {
    /// The type of [`IndirectAttribute::Other`] is no object identifier.
    AttributeType = calls::INDIRECT_PART_ATTRIBUTE_TYPE as isize,
    /// The value of [`IndirectAttribute::Other`] isn't exactly one element, with a tag of one octet.
    AttributeValue = calls::INDIRECT_PART_ATTRIBUTE_VALUE as isize,
    /// [`IndirectGiven::digest_algorithm`] is no AlgorithmIdentifier.
    DigestAlgorithm = calls::INDIRECT_PART_DIGEST_ALGORITHM as isize,
    /// No call of this version returns it: [`IndirectGiven::digest`] may be any octets.
    Digest = calls::INDIRECT_PART_DIGEST as isize,
    /// The flags of [`IndirectAttribute::Image`] aren't the contents octets of a BIT STRING.
    ImageFlags = calls::INDIRECT_PART_IMAGE_FLAGS as isize,
    /// The link of [`IndirectAttribute::Image`] isn't exactly one element, with a tag of one octet.
    ImageLink = calls::INDIRECT_PART_IMAGE_LINK as isize,
}

const INDIRECT_PARTS: [IndirectPart; 6] = [
    IndirectPart::AttributeType,
    IndirectPart::AttributeValue,
    IndirectPart::DigestAlgorithm,
    IndirectPart::Digest,
    IndirectPart::ImageFlags,
    IndirectPart::ImageLink,
];

impl fmt::Display for IndirectPart {
    fn fmt(&self, f: &mut fmt::Formatter<'_>) -> fmt::Result {
        f.write_str(match self {
            IndirectPart::AttributeType => "attribute type",
            IndirectPart::AttributeValue => "attribute value",
            IndirectPart::DigestAlgorithm => "digest algorithm",
            IndirectPart::Digest => "digest",
            IndirectPart::ImageFlags => "image flags",
            IndirectPart::ImageLink => "image link",
        })
    }
}

/// Why [`build_indirect`] builds nothing.
#[derive(Debug, Clone, Copy, PartialEq, Eq)]
#[non_exhaustive]
pub enum BuildIndirectError {
    /// The part can't be written: where there are several such parts, one of them.
    Refused(IndirectPart),
    /// What is to be written has 2^64 bytes or more.
    TooLong,
    /// The library's request for memory was refused, which says nothing of the parts.
    NoMemory,
    /// A status that a library of another version may return, also that of a refusal for a part that this one hasn't.
    Unknown(u32),
}

build_error!(BuildIndirectError, Self::Refused(part) => "refused: {part}");

/// Builds what a signature of Authenticode signs (SpcIndirectDataContent), as [`indirect`](crate::indirect) reads it in
/// signed data: the element that [`Signed::element`](crate::Signed::element) takes, under the type
/// SPC_INDIRECT_DATA_OBJID. The digest that its signers have is that of its [`hashed_octets`]. No file is hashed, and
/// no digest is judged.
///
/// ```
/// use vuyhanip::{build_indirect, hashed_octets, IndirectGiven, Part};
/// // what a signature of a program signs
/// let file = std::fs::read("tests/program.p7m")?;
/// let indirect = vuyhanip::indirect(&file)?.ok_or("other content")?;
/// let mut given = IndirectGiven::program(indirect.digest_algorithm, indirect.digest);
/// assert_eq!(given, IndirectGiven::from(&indirect));
/// let content = build_indirect(&given)?;
/// assert_eq!(hashed_octets(&content), vuyhanip::part(Part::HashedContent, 0, &file)?.as_deref());
/// // of another program
/// # let digest = [7; 32];
/// given.digest = &digest;
/// assert!(build_indirect(&given)?.ends_with(&digest));
/// # Ok::<(), Box<dyn std::error::Error>>(())
/// ```
pub fn build_indirect(given: &IndirectGiven<'_>) -> Result<Vec<u8>, BuildIndirectError> {
    let mut input = Vec::new();
    let given = given.placed(&mut input);
    let mut part = 0;
    // headers and the object identifier of a program add less than 128 octets
    let (status, out) = written(input.len() + 128, |out, out_len, written| {
        // SAFETY: the pointers of slices aren't null and have their lengths; all is borrowed for the call
        unsafe { calls::der_build_indirect(input.as_ptr(), input.len(), &given, out, out_len, written, &mut part) }
    });
    if status == NORMAL { Ok(out) } else { Err(refused_indirect(status, part)) }
}

fn refused_indirect(status: u32, part: usize) -> BuildIndirectError {
    match INDIRECT_PARTS.into_iter().find(|it| *it as usize == part) {
        Some(part) if status == calls::INVALID => BuildIndirectError::Refused(part),
        _ => BuildIndirectError::other(status),
    }
}

/// The contents octets of an element, without its tag and length: what the digest of content is over that
/// [`Signed::element`](crate::Signed::element) takes (RFC 2315, 9.3). `None` where octets aren't exactly one element,
/// with a tag of one octet and a length as DER has it.
pub fn hashed_octets(element: &[u8]) -> Option<&[u8]> {
    let (contents, _) = opened(element)?;
    let count = (usize::BITS - contents.len().leading_zeros() + 7) / 8;
    let header = if contents.len() < 0x80 { 2 } else { 2 + count as usize };
    let is_one = element[0] & 0x1F != 0x1F && element[1] != 0x80 && element.len() == header + contents.len();
    is_one.then_some(contents)
}
