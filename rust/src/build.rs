//! Algorithms that encrypt with a password, and what they encrypt, built from parts.
use crate::calls::{self, PasswordParts, Range};
use crate::{written, PasswordHolder, PasswordParameters, NORMAL};
use std::fmt;

/// The contents octets of the object identifiers of PBES2 and PBKDF2 (RFC 8018, A.4 and A.2).
const PBES2: &[u8] = &[0x2A, 0x86, 0x48, 0x86, 0xF7, 0x0D, 1, 5, 13];
const PBKDF2: &[u8] = &[0x2A, 0x86, 0x48, 0x86, 0xF7, 0x0D, 1, 5, 12];

/// A range of no input, in place of a part that is `None`: where the library looks at it, it refuses the part.
const NOWHERE: Range = Range { start: usize::MAX, len: 0 };

/// Adds the octets of a part to the input of a call, and says where they are.
pub(crate) fn place(input: &mut Vec<u8>, part: Option<&[u8]>) -> Range {
    part.map_or(NOWHERE, |octets| {
        let start = input.len();
        input.extend_from_slice(octets);
        Range { start, len: octets.len() }
    })
}

/// The same of several parts.
pub(crate) fn all_placed(input: &mut Vec<u8>, parts: &[&[u8]]) -> Vec<Range> {
    parts.iter().map(|part| place(input, Some(part))).collect()
}

/// The flag that says whether there is a part.
pub(crate) fn is_there(part: Option<&[u8]>) -> usize {
    part.is_some().into()
}

/// What the errors of all calls that build have in common: what a status says that is no refusal, and words. Those of a
/// refusal are given, as `format!` takes them.
macro_rules! build_error {
    ($name:ident, $refused:pat => $words:literal $(, $word:expr)*) => {
        impl $name {
            /// Of a status that is no refusal, or one for a part that this version hasn't.
            pub(crate) fn other(status: u32) -> Self {
                match status {
                    $crate::calls::TOO_LONG => Self::TooLong,
                    $crate::calls::NO_MEMORY => Self::NoMemory,
                    _ => Self::Unknown(status),
                }
            }
        }

        impl std::fmt::Display for $name {
            fn fmt(&self, f: &mut std::fmt::Formatter<'_>) -> std::fmt::Result {
                match self {
                    $refused => write!(f, $words $(, $word)*),
                    Self::TooLong => f.write_str("too long"),
                    Self::NoMemory => f.write_str("no memory"),
                    Self::Unknown(status) => write!(f, "unknown status {status}"),
                }
            }
        }

        impl std::error::Error for $name {}
    };
}
pub(crate) use build_error;

/// Parameters for [`build_parameters`]. What a constructor doesn't take is `None`, and may be set.
impl<'a> PasswordParameters<'a> {
    /// PBES2 with PBKDF2, and with an encryption scheme whose parameters are its initialization vector, as AES, DES and
    /// triple DES in CBC mode. `encryption` has the contents octets of its object identifier, and `prf` those of the
    /// pseudorandom function's: `None` means HMAC with SHA-1, which is left out. For another key derivation set
    /// `is_pbkdf2` to `false`, and its `derivation` and `derivation_parameters`; for a scheme with other parameters set
    /// `initialization_vector` to `None`, and its `encryption_parameters`.
    pub fn pbes2(
        encryption: &'a [u8],
        initialization_vector: &'a [u8],
        salt: &'a [u8],
        iterations: usize,
        prf: Option<&'a [u8]>,
    ) -> Self {
        Self {
            is_pbes2: true,
            derivation: Some(PBKDF2),
            is_pbkdf2: true,
            salt: Some(salt),
            iterations: Some(iterations),
            prf,
            encryption: Some(encryption),
            initialization_vector: Some(initialization_vector),
            ..Self::other(PBES2, None)
        }
    }

    /// One of pkcs-12PbeIds (RFC 7292, C), by the contents octets of its object identifier.
    pub fn pkcs12(algorithm: &'a [u8], salt: &'a [u8], iterations: usize) -> Self {
        Self { is_pkcs12: true, salt: Some(salt), iterations: Some(iterations), ..Self::other(algorithm, None) }
    }

    /// One of PBES1 (RFC 8018, A.3), by the contents octets of its object identifier.
    pub fn pbes1(algorithm: &'a [u8], salt: &'a [u8], iterations: usize) -> Self {
        Self { is_pbes1: true, salt: Some(salt), iterations: Some(iterations), ..Self::other(algorithm, None) }
    }

    /// Any algorithm, by the contents octets of its object identifier, with its parameters as an element, or without
    /// any.
    pub fn other(algorithm: &'a [u8], parameters: Option<&'a [u8]>) -> Self {
        Self {
            algorithm,
            parameters,
            is_pbes1: false,
            is_pkcs12: false,
            is_pbes2: false,
            derivation: None,
            derivation_parameters: None,
            is_pbkdf2: false,
            salt: None,
            iterations: None,
            key_length: None,
            prf: None,
            encryption: None,
            encryption_parameters: None,
            initialization_vector: None,
            encrypted: None,
        }
    }
}

/// The part that [`build_parameters`] doesn't take. Of a part that isn't looked at nothing is asked.
#[derive(Debug, Clone, Copy, PartialEq, Eq)]
#[non_exhaustive]
pub enum PasswordPart {
    /// [`PasswordParameters::algorithm`] is no object identifier, or not one of the scheme that a flag says.
    Algorithm = calls::PASSWORD_ALGORITHM as isize,
    /// [`PasswordParameters::parameters`] is no element.
    Parameters = calls::PASSWORD_PARAMETERS as isize,
    /// [`PasswordParameters::derivation`] is no object identifier, or `None`.
    Derivation = calls::PASSWORD_DERIVATION as isize,
    /// [`PasswordParameters::derivation_parameters`] is no element.
    DerivationParameters = calls::PASSWORD_DERIVATION_PARAMETERS as isize,
    /// [`PasswordParameters::salt`] is `None`, of PBES1 or PKCS #12, or of PBKDF2 without
    /// [`PasswordParameters::derivation_parameters`]. A salt may be any octets.
    Salt = calls::PASSWORD_SALT as isize,
    /// [`PasswordParameters::prf`] is no object identifier.
    Prf = calls::PASSWORD_PRF as isize,
    /// [`PasswordParameters::encryption`] is no object identifier, or `None`.
    Encryption = calls::PASSWORD_ENCRYPTION as isize,
    /// [`PasswordParameters::encryption_parameters`] is no element.
    EncryptionParameters = calls::PASSWORD_ENCRYPTION_PARAMETERS as isize,
    /// No call of this version returns it: [`PasswordParameters::initialization_vector`] may be any octets, or `None`.
    InitializationVector = calls::PASSWORD_INITIALIZATION_VECTOR as isize,
    /// [`PasswordParameters::encrypted`] is `None`, of a key.
    Encrypted = calls::PASSWORD_ENCRYPTED as isize,
    /// [`PasswordParameters::iterations`] is 2^32 or more, or `None`.
    Iterations = calls::PASSWORD_ITERATIONS as isize,
    /// [`PasswordParameters::key_length`] is 2^32 or more.
    KeyLength = calls::PASSWORD_KEY_LENGTH as isize,
    /// More than one of `is_pbes1`, `is_pkcs12` and `is_pbes2` is set.
    Scheme = calls::PASSWORD_SCHEME as isize,
}

const PARTS: [PasswordPart; 13] = [
    PasswordPart::Algorithm,
    PasswordPart::Parameters,
    PasswordPart::Derivation,
    PasswordPart::DerivationParameters,
    PasswordPart::Salt,
    PasswordPart::Prf,
    PasswordPart::Encryption,
    PasswordPart::EncryptionParameters,
    PasswordPart::InitializationVector,
    PasswordPart::Encrypted,
    PasswordPart::Iterations,
    PasswordPart::KeyLength,
    PasswordPart::Scheme,
];

impl fmt::Display for PasswordPart {
    fn fmt(&self, f: &mut fmt::Formatter<'_>) -> fmt::Result {
        f.write_str(match self {
            PasswordPart::Algorithm => "algorithm",
            PasswordPart::Parameters => "parameters",
            PasswordPart::Derivation => "derivation",
            PasswordPart::DerivationParameters => "derivation parameters",
            PasswordPart::Salt => "salt",
            PasswordPart::Prf => "prf",
            PasswordPart::Encryption => "encryption",
            PasswordPart::EncryptionParameters => "encryption parameters",
            PasswordPart::InitializationVector => "initialization vector",
            PasswordPart::Encrypted => "encrypted",
            PasswordPart::Iterations => "iterations",
            PasswordPart::KeyLength => "key length",
            PasswordPart::Scheme => "scheme",
        })
    }
}

/// Why [`build_parameters`] builds nothing.
#[derive(Debug, Clone, Copy, PartialEq, Eq)]
#[non_exhaustive]
pub enum BuildError {
    /// The part can't be written: where there are several such parts, the first one that was found.
    Refused(PasswordPart),
    /// What is to be written has 2^64 bytes or more.
    TooLong,
    /// The library's request for memory was refused, which says nothing of the parts.
    NoMemory,
    /// A status that a library of another version may return, also that of a refusal for a part that this one hasn't.
    Unknown(u32),
}

build_error!(BuildError, Self::Refused(part) => "refused: {part}");

/// Builds what [`password_parameters`](crate::password_parameters) reads: as `holder` says, an algorithm, or a key or
/// contents that it encrypts. What that returned may be given as it is, or with fields set anew, and
/// [`PasswordParameters::pbes2`] and the constructors beside it make parameters from scratch. Nothing is derived,
/// encrypted or judged: a salt of no octets, a count of 0 and a vector of any length are written. And `encrypted` is
/// written as it is given: with another salt, count, function, scheme or vector derive the key anew, and encrypt anew,
/// since otherwise nobody can decrypt it.
///  - Of PBES1 and PKCS #12, `algorithm` has to be one of theirs, and `salt` and `iterations` are its parameters.
///  - Of PBES2, the key derivation is PBKDF2 where `is_pbkdf2` and there is a `salt`: with that, `iterations`,
///    `key_length` and `prf`, which gets NULL as its parameters (RFC 8018, B.1). Otherwise it is `derivation` with
///    `derivation_parameters`, which may be `None` unless `is_pbkdf2`. The encryption scheme is `encryption` with
///    `initialization_vector`, or, where that is `None`, with `encryption_parameters`.
///  - Any other algorithm is `algorithm` with `parameters`.
///  - A key has to have `encrypted`. Contents are of the type data, and may be without it.
///
/// Other fields aren't looked at. HMAC with SHA-1 is written where `prf` names it, though DER leaves it out (X.690,
/// 11.5): give `None` for it. Of parameters that weren't changed, the octets are those that were read, where `prf` has
/// NULL as its parameters, and contents are of the type data.
///
/// ```
/// use vuyhanip::{build_parameters, oid_octets, password_parameters, PasswordHolder, PasswordParameters};
/// // a key, by PBES2 with AES-256 in CBC mode, and by PBKDF2 with HMAC with SHA-256
/// let (cipher, prf) = (oid_octets("2.16.840.1.101.3.4.1.42")?, oid_octets("1.2.840.113549.2.9")?);
/// # let (vector, salt, encrypted) = ([1; 16], [2; 16], [3; 48]);
/// let mut given = PasswordParameters::pbes2(&cipher, &vector, &salt, 600_000, Some(&prf));
/// given.encrypted = Some(&encrypted);
/// let key = build_parameters(PasswordHolder::Key, &given)?;
/// let found = password_parameters(PasswordHolder::Key, &key)?;
/// assert_eq!((found.iterations, found.prf, found.encrypted), (Some(600_000), given.prf, given.encrypted));
/// // the contents of a store, as they are there
/// let file = std::fs::read("tests/store.p12")?;
/// let contents = vuyhanip::bags(&file)?[0].element;
/// let mut given = password_parameters(PasswordHolder::Contents, contents)?;
/// assert_eq!(build_parameters(PasswordHolder::Contents, &given)?, contents);
/// // and encrypted anew, with another salt, count and vector, by a key that was derived by these
/// given.salt = Some(&salt);
/// given.iterations = Some(600_000);
/// given.initialization_vector = Some(&vector);
/// given.encrypted = Some(&encrypted);
/// let contents = build_parameters(PasswordHolder::Contents, &given)?;
/// let found = password_parameters(PasswordHolder::Contents, &contents)?;
/// assert_eq!((found.salt, found.iterations, found.encrypted), (given.salt, Some(600_000), given.encrypted));
/// # Ok::<(), Box<dyn std::error::Error>>(())
/// ```
pub fn build_parameters(holder: PasswordHolder, given: &PasswordParameters<'_>) -> Result<Vec<u8>, BuildError> {
    let (input, parts) = laid_out(holder, given);
    let (number, mut part) = (holder as usize, 0);
    // headers, numbers and the object identifiers that are known add less than 256 octets
    let (status, out) = written(input.len() + 256, |out, out_len, written| {
        // SAFETY: the pointers of slices aren't null and have their lengths; all is borrowed for the call
        unsafe {
            calls::der_build_parameters(
                number, input.as_ptr(), input.len(), &parts, out, out_len, written, &mut part,
            )
        }
    });
    if status == NORMAL { Ok(out) } else { Err(refusal(status, part)) }
}

/// The octets of all parts, one after another, and where each of them is. An algorithm has nothing that is encrypted.
fn laid_out(holder: PasswordHolder, given: &PasswordParameters<'_>) -> (Vec<u8>, PasswordParts) {
    let encrypted = given.encrypted.filter(|_| holder != PasswordHolder::Algorithm);
    let mut input = Vec::new();
    let mut place = |part| place(&mut input, part);
    let parts = PasswordParts {
        has_parameters: is_there(given.parameters),
        is_pbes1: given.is_pbes1.into(),
        is_pkcs12: given.is_pkcs12.into(),
        is_pbes2: given.is_pbes2.into(),
        has_derivation_parameters: is_there(given.derivation_parameters),
        is_pbkdf2: given.is_pbkdf2.into(),
        has_salt: is_there(given.salt),
        has_key_length: given.key_length.is_some().into(),
        has_prf: is_there(given.prf),
        has_encryption_parameters: is_there(given.encryption_parameters),
        has_initialization_vector: is_there(given.initialization_vector),
        has_encrypted: is_there(encrypted),
        // 2^32 or more, which is refused likewise
        iterations: given.iterations.unwrap_or(usize::MAX),
        key_length: given.key_length.unwrap_or_default(),
        algorithm: place(Some(given.algorithm)),
        parameters: place(given.parameters),
        derivation: place(given.derivation),
        derivation_parameters: place(given.derivation_parameters),
        salt: place(given.salt),
        prf: place(given.prf),
        encryption: place(given.encryption),
        encryption_parameters: place(given.encryption_parameters),
        initialization_vector: place(given.initialization_vector),
        encrypted: place(encrypted),
    };
    (input, parts)
}

fn refusal(status: u32, part: usize) -> BuildError {
    match PARTS.into_iter().find(|it| *it as usize == part) {
        Some(part) if status == calls::INVALID => BuildError::Refused(part),
        _ => BuildError::other(status),
    }
}
