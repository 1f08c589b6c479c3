//! All items of a part, borrowed from the file.
use crate::calls::{self, Range};
use crate::{error, Error, Part, NORMAL, NO_PART, NO_ROOM};

/// The certificates of signed data, or other choices, in their order, each as it is in the file. Signed data are of any
/// CMSVersion, with signers of any version and over content of any type. Up to 64 certificates are found in one reading,
/// more in two.
///
/// ```
/// let file = std::fs::read("tests/signed.p7m")?;
/// let certificates = vuyhanip::certificates(&file)?;
/// assert_eq!(certificates.len(), 2);
/// // each is a part of the file, and the second follows the first
/// assert_eq!(certificates[0].as_ptr_range().end, certificates[1].as_ptr());
/// # Ok::<(), Box<dyn std::error::Error>>(())
/// ```
pub fn certificates(input: &[u8]) -> Result<Vec<&[u8]>, Error> {
    items(Part::Certificate as usize, input)
}

/// The recipients of enveloped data under its content type, a `ContentInfo`, in their order, each as it is in the file.
pub fn recipients(input: &[u8]) -> Result<Vec<&[u8]>, Error> {
    items(calls::PART_RECIPIENT, input)
}

/// The algorithm by which the content of enveloped data is encrypted, with its parameters.
pub fn encryption_algorithm(input: &[u8]) -> Result<Option<&[u8]>, Error> {
    Ok(items(calls::PART_ENCRYPTION_ALGORITHM, input)?.pop())
}

/// The octets of the encrypted content. `None` where they aren't in the file.
pub fn encrypted_content(input: &[u8]) -> Result<Option<&[u8]>, Error> {
    Ok(items(calls::PART_ENCRYPTED_CONTENT, input)?.pop())
}

/// Each `Attribute` of the signer with an index, with its type and values: signed ones, or unsigned ones, as time stamps.
/// `None` where there are fewer signers.
pub fn attributes(input: &[u8], index: usize, is_signed: bool) -> Result<Option<Vec<&[u8]>>, Error> {
    listed(input, |out, out_len, count, place| {
        let signed = usize::from(is_signed);
        // SAFETY: as below
        unsafe { calls::der_attribute_ranges(signed, index, input.as_ptr(), input.len(), out, out_len, count, place) }
    })
}

/// All items of a part.
fn items(number: usize, input: &[u8]) -> Result<Vec<&[u8]>, Error> {
    let found = listed(input, |out, out_len, count, place| {
        // SAFETY: as below
        unsafe { calls::der_part_ranges(number, input.as_ptr(), input.len(), out, out_len, count, place) }
    });
    Ok(found?.unwrap_or_default())
}

/// What a call lists, which gets an array, its length, and where the count and the place go.
fn listed<F>(input: &[u8], call: F) -> Result<Option<Vec<&[u8]>>, Error>
where
    F: Fn(*mut Range, usize, &mut usize, &mut usize) -> u32,
{
    let (mut ranges, mut count, mut place) = (vec![Range::default(); 64], 0, 0);
    loop {
        // the pointers of slices aren't null and have their lengths; all is borrowed for the call
        match call(ranges.as_mut_ptr(), ranges.len(), &mut count, &mut place) {
            NORMAL => return Ok(Some(ranges[..count].iter().map(|it| &input[it.start..][..it.len]).collect())),
            NO_PART => return Ok(None),
            NO_ROOM => ranges.resize(count, Range::default()),
            status => return Err(error(status, place)),
        }
    }
}
