//! How data is encrypted with a password, borrowed from the input.
use crate::calls::{self, PasswordParts, Range};
use crate::{error, Error, NORMAL};

/// What the input of [`password_parameters`] is, and what [`build_parameters`](crate::build_parameters) builds.
#[derive(Debug, Clone, Copy, PartialEq, Eq)]
pub enum PasswordHolder {
    /// An AlgorithmIdentifier.
    Algorithm = calls::HOLDER_ALGORITHM as isize,
    /// An EncryptedPrivateKeyInfo (RFC 5958, 3): the value of a bag of kind
    /// [`ShroudedKey`](crate::BagKind::ShroudedKey), or the DER of a file `ENCRYPTED PRIVATE KEY` of PKCS #8.
    Key = calls::HOLDER_KEY as isize,
    /// A ContentInfo of encryptedData (RFC 2315, 13; RFC 5652, 8, of version 0 and without attributes): the element of
    /// a bag of kind [`Unread`](crate::BagKind::Unread), where it is one.
    Contents = calls::HOLDER_CONTENTS as isize,
}

/// How data is encrypted with a password (RFC 8018; RFC 7292, C). Nothing is derived, decrypted or judged, and whoever
/// made the input chose all of this: limit the count before a key is derived, and compare `key_length` and the length
/// of the vector with what the cipher takes. Such parameters are also what
/// [`build_parameters`](crate::build_parameters) takes.
#[derive(Debug, Clone, Copy, PartialEq, Eq)]
#[non_exhaustive]
pub struct PasswordParameters<'a> {
    /// The contents octets of the algorithm's object identifier, which [`oid_name`](crate::oid_name) takes.
    pub algorithm: &'a [u8],
    /// The element of its parameters, whatever is in it.
    pub parameters: Option<&'a [u8]>,
    /// Whether the algorithm is one of PBES1 (RFC 8018, A.3), and these read as PBEParameter: PBKDF1 derives the key,
    /// and the vector with it.
    pub is_pbes1: bool,
    /// Whether the algorithm is one of pkcs-12PbeIds, and these read as pkcs-12PbeParams (RFC 7292, C): the key and the
    /// vector are derived as B.2 says there.
    pub is_pkcs12: bool,
    /// Whether the algorithm is id-PBES2, and they read as PBES2-params (RFC 8018, A.4).
    pub is_pbes2: bool,
    /// Of PBES2: the contents octets of the key derivation's object identifier.
    pub derivation: Option<&'a [u8]>,
    /// The element of its parameters, whatever is in it.
    pub derivation_parameters: Option<&'a [u8]>,
    /// Whether the key derivation is id-PBKDF2, and these read as PBKDF2-params (RFC 8018, A.2). It is looked at only
    /// within PBES2.
    pub is_pbkdf2: bool,
    /// Of PBES1, PKCS #12 and PBKDF2: the octets of the salt. `None` of others, and where PBKDF2 has it from another
    /// source.
    pub salt: Option<&'a [u8]>,
    /// Of these three: the iteration count. `None` of others.
    pub iterations: Option<usize>,
    /// Of PBKDF2: the length of the key, in octets. `None` also where it isn't said.
    pub key_length: Option<usize>,
    /// Of PBKDF2: the contents octets of the pseudorandom function's object identifier. Where `is_pbkdf2`, `None` means
    /// HMAC with SHA-1.
    pub prf: Option<&'a [u8]>,
    /// Of PBES2: the contents octets of the encryption scheme's object identifier.
    pub encryption: Option<&'a [u8]>,
    /// The element of its parameters, whatever is in it.
    pub encryption_parameters: Option<&'a [u8]>,
    /// The octets of these, where they read as OCTET STRING, as those of AES, DES and triple DES in CBC mode.
    pub initialization_vector: Option<&'a [u8]>,
    /// What is encrypted: the octets of encryptedData of a key, or of encryptedContent. `None` where there are none.
    pub encrypted: Option<&'a [u8]>,
}

/// How data is encrypted with a password, as numbers and octets of the input. With them a caller opens a store by
/// PBES1, by the algorithms of PKCS #12, or by PBES2 with PBKDF2 and AES in CBC mode, and reads no DER but what is
/// decrypted. Parameters of other algorithms, as those of scrypt, are no refusal: they are given as the element that
/// they are.
///
/// ```
/// use vuyhanip::{oid_name, password_parameters, PasswordHolder};
/// let file = std::fs::read("tests/store.p12")?;
/// let bags = vuyhanip::bags(&file)?;
/// // encrypted contents, by PBES2
/// let contents = password_parameters(PasswordHolder::Contents, bags[0].element)?;
/// assert_eq!((contents.is_pbkdf2, contents.iterations), (true, Some(2048)));
/// assert_eq!(contents.prf.and_then(oid_name).as_deref(), Some("hmacWithSHA256"));
/// assert_eq!(contents.encryption.and_then(oid_name).as_deref(), Some("aes-256-cbc"));
/// // an encrypted key, by an algorithm of RFC 7292
/// let key = password_parameters(PasswordHolder::Key, bags[1].value)?;
/// assert_eq!(oid_name(key.algorithm).as_deref(), Some("pbeWithSHA1And3-KeyTripleDES-CBC"));
/// assert_eq!((key.is_pkcs12, key.iterations, key.encrypted.map(<[u8]>::len)), (true, Some(2048), Some(144)));
/// # Ok::<(), Box<dyn std::error::Error>>(())
/// ```
pub fn password_parameters(holder: PasswordHolder, input: &[u8]) -> Result<PasswordParameters<'_>, Error> {
    let (mut parts, mut place) = (PasswordParts::default(), 0);
    let (number, at, len) = (holder as usize, input.as_ptr(), input.len());
    // SAFETY: the pointer of a slice isn't null and has its length; all is borrowed for the call
    match unsafe { calls::der_password_parameters(number, at, len, &mut parts, &mut place) } {
        NORMAL => Ok(found(input, &parts)),
        status => Err(error(status, place)),
    }
}

fn found<'a>(input: &'a [u8], parts: &PasswordParts) -> PasswordParameters<'a> {
    let of = |it: Range| &input[it.start..][..it.len];
    let optional = |is_there: usize, it: Range| (is_there != 0).then(|| of(it));
    let has_count = parts.is_pbes1 != 0 || parts.is_pkcs12 != 0 || parts.is_pbkdf2 != 0;
    PasswordParameters {
        algorithm: of(parts.algorithm),
        parameters: optional(parts.has_parameters, parts.parameters),
        is_pbes1: parts.is_pbes1 != 0,
        is_pkcs12: parts.is_pkcs12 != 0,
        is_pbes2: parts.is_pbes2 != 0,
        derivation: optional(parts.is_pbes2, parts.derivation),
        derivation_parameters: optional(parts.has_derivation_parameters, parts.derivation_parameters),
        is_pbkdf2: parts.is_pbkdf2 != 0,
        salt: optional(parts.has_salt, parts.salt),
        iterations: has_count.then_some(parts.iterations),
        key_length: (parts.has_key_length != 0).then_some(parts.key_length),
        prf: optional(parts.has_prf, parts.prf),
        encryption: optional(parts.is_pbes2, parts.encryption),
        encryption_parameters: optional(parts.has_encryption_parameters, parts.encryption_parameters),
        initialization_vector: optional(parts.has_initialization_vector, parts.initialization_vector),
        encrypted: optional(parts.has_encrypted, parts.encrypted),
    }
}
