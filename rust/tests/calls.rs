//! Each call, over files that openssl made, and one each of osslsigncode and of the package cryptography for Python,
//! whose offsets and octets are those that `openssl asn1parse` shows, and over examples of X.690.
use vuyhanip::{
    build_attributes, build_indirect, build_parameters, build_recipient, hashed_octets, oid_octets, AttributesGiven,
    AttributesPart, BadAttributes, BagGiven, BagKind, BagPart, BuildAttributesError, BuildBagsError,
    BuildEnvelopedError, BuildError, BuildIndirectError, BuildRecipientError, BuildSafeError, BuildSignedError,
    BuildStoreError, ContentGiven, Enveloped, EnvelopedPart, Error, IndirectAttribute, IndirectGiven, IndirectPart,
    MacGiven, Part, PasswordHolder, PasswordParameters, PasswordPart, Reason, Recipient, RecipientName, RecipientPart,
    Signed, SignedPart, SignerGiven, SignerName, Store, StorePart, Verdict,
};

/// A key store.
const STORE: &[u8] = include_bytes!("store.p12");
/// Signed data of one signer, with two certificates.
const SIGNED: &[u8] = include_bytes!("signed.p7m");
/// Signed data of one signer, of version 3, with its certificate: `openssl cms -sign -binary -nodetach -keyid`.
const BY_KEY: &[u8] = include_bytes!("by_key.p7m");
/// A detached signature of two signers, by RSA, and of version 3 by ECDSA, each with S/MIME capabilities: `openssl cms
/// -sign -binary`, and then `-resign -binary -keyid -nocerts`.
const TWO_SIGNERS: &[u8] = include_bytes!("two_signers.p7m");
/// Signed data of two signers without attributes, by two digest algorithms with NULL as their parameters, which
/// cryptography made, and `openssl cms -verify` takes.
const TWO_DIGESTS: &[u8] = include_bytes!("two_digests.p7m");
/// Two certificates, which are in the order of DER, and a revocation list: `openssl crl2pkcs7`.
const LISTS: &[u8] = include_bytes!("lists.p7m");
/// A signature of a program: `osslsigncode sign`, and then `osslsigncode extract-signature`.
const OF_PROGRAM: &[u8] = include_bytes!("program.p7m");
/// Enveloped data of one recipient, by the RSA key of the second certificate in `LISTS`: `openssl cms -encrypt -binary
/// -aes-128-cbc -outform DER`, which writes DER, with definite lengths.
const ENVELOPED: &[u8] = include_bytes!("enveloped.der");
/// The same of one recipient who has a key-encryption key: `-secretkey` and `-secretkeyid 4B454B`.
const BY_KEK: &[u8] = include_bytes!("by_kek.der");
/// The same of four recipients: by the RSA key, and by key agreement on an elliptic curve, which both certificates in
/// `LISTS` have, with `-keyid`; by a key-encryption key; and by a password, `-pwri_password`.
const RECIPIENTS: &[u8] = include_bytes!("recipients.der");
/// Signed data with a signer of version 3, by hand: neither content nor attributes nor certificates.
const DETACHED: &[u8] = &[
    0x30, 0x34, 6, 9, 0x2A, 0x86, 0x48, 0x86, 0xF7, 0x0D, 1, 7, 2, 0xA0, 0x27, 0x30, 0x25, 2, 1, 3, 0x31, 0, 0x30, 5,
    6, 3, 0x2A, 3, 4, 0x31, 0x17, 0x30, 0x15, 2, 1, 3, 0x80, 0, 0x30, 5, 6, 3, 0x2A, 3, 4, 0x30, 5, 6, 3, 0x2A, 3, 5,
    4, 0,
];
/// Enveloped data by hand: one recipient, `[4]`, an algorithm, and two octets.
const ENVELOPE: &[u8] = &[
    0x30, 0x2E, 6, 9, 0x2A, 0x86, 0x48, 0x86, 0xF7, 0x0D, 1, 7, 3, 0xA0, 0x21, 0x30, 0x1F, 2, 1, 0, 0x31, 2, 0xA4, 0,
    0x30, 0x16, 6, 9, 0x2A, 0x86, 0x48, 0x86, 0xF7, 0x0D, 1, 7, 1, 0x30, 5, 6, 3, 0x2A, 3, 4, 0x80, 2, 7, 8,
];
const SHA256: &[u8] = &[0x60, 0x86, 0x48, 1, 0x65, 3, 4, 2, 1];
/// Object identifiers of Authenticode: indirect data, and what is hashed of a program and of a cabinet.
const INDIRECT_DATA: &[u8] = &[6, 10, 0x2B, 6, 1, 4, 1, 0x82, 0x37, 2, 1, 4];
const PROGRAM: &[u8] = &[6, 10, 0x2B, 6, 1, 4, 1, 0x82, 0x37, 2, 1, 15];
const CABINET: &[u8] = &[6, 10, 0x2B, 6, 1, 4, 1, 0x82, 0x37, 2, 1, 25];
/// The object identifier of a trust list.
const TRUST_LIST: &[u8] = &[6, 9, 0x2B, 6, 1, 4, 1, 0x82, 0x37, 10, 1];
/// All parts of a trust list, in their order: version, usages, an identifier, a number, both times, an algorithm, two
/// entries, of which the second has attributes, and extensions. Those at 0, 2, 3, 5, 7 and 8 may be absent.
const LIST: [&[u8]; 9] = [
    &[2, 1, 0],
    &[0x30, 5, 6, 3, 0x2A, 3, 4],
    &[4, 2, 0x41, 0x42],
    &[2, 2, 1, 0x2C],
    b"\x17\x0D260102030405Z",
    b"\x18\x0F20270102030405Z",
    &[0x30, 9, 6, 5, 0x2B, 0x0E, 3, 2, 0x1A, 5, 0],
    &[0x30, 24, 0x30, 4, 4, 2, 7, 8, 0x30, 16, 4, 1, 9, 0x31, 11, 0x30, 9, 6, 3, 0x2A, 3, 5, 0x31, 2, 5, 0],
    &[0xA0, 2, 0x30, 0],
];
/// Object identifiers of RFC 8018, and that of encrypted data.
const PBES2: &[u8] = &[6, 9, 0x2A, 0x86, 0x48, 0x86, 0xF7, 0x0D, 1, 5, 13];
const PBKDF2: &[u8] = &[6, 9, 0x2A, 0x86, 0x48, 0x86, 0xF7, 0x0D, 1, 5, 12];
const PBE_MD5_DES: &[u8] = &[6, 9, 0x2A, 0x86, 0x48, 0x86, 0xF7, 0x0D, 1, 5, 3];
const ENCRYPTED_DATA: &[u8] = &[6, 9, 0x2A, 0x86, 0x48, 0x86, 0xF7, 0x0D, 1, 7, 6];
/// An algorithm of RFC 7292, C, and one of AES in GCM mode, whose parameters have the same form.
const PBE_SHA1_RC2: &[u8] = &[6, 10, 0x2A, 0x86, 0x48, 0x86, 0xF7, 0x0D, 1, 12, 1, 6];
const AES_GCM: &[u8] = &[6, 9, 0x60, 0x86, 0x48, 1, 0x65, 3, 4, 1, 46];
/// Algorithms: one without parameters, and one with an OCTET STRING as these.
const BARE: &[u8] = &[0x30, 5, 6, 3, 0x2A, 3, 4];
const WITH_VECTOR: &[u8] = &[0x30, 9, 6, 3, 0x2A, 3, 5, 4, 2, 5, 6];
/// The first of these with NULL as its parameters.
const WITH_NULL: &[u8] = &[0x30, 7, 6, 3, 0x2A, 3, 4, 5, 0];
/// Parameters: a salt of one octet, and a count.
const SALT_AND_COUNT: &[u8] = &[0x30, 6, 4, 1, 7, 2, 1, 9];
/// The greatest count.
const GREATEST: &[u8] = &[2, 5, 0, 0xFF, 0xFF, 0xFF, 0xFF];
/// An attribute with NULL as its value, and a SET OF it.
const FURTHER_ONE: &[u8] = &[0x30, 9, 6, 3, 0x2A, 3, 4, 0x31, 2, 5, 0];
const FURTHER: &[u8] = &[0x31, 11, 0x30, 9, 6, 3, 0x2A, 3, 4, 0x31, 2, 5, 0];
/// Octets that are no object identifier and no element.
const NEITHER: Option<&[u8]> = Some(&[0x80]);
/// A digest info without the NULL that its algorithm has in DER, up to the digest.
const LOOSE: &[u8] = &[0x30, 0x1F, 0x30, 7, 6, 5, 0x2B, 0x0E, 3, 2, 0x1A, 4, 0x14];
const NORMAL: &[u8] = &[0x30, 0x21, 0x30, 9, 6, 5, 0x2B, 0x0E, 3, 2, 0x1A, 5, 0, 4, 0x14];

/// Object identifiers: data, kinds of bags, types of certificates and lists, a friendly name, a local key identifier.
const DATA: &[u8] = &[6, 9, 0x2A, 0x86, 0x48, 0x86, 0xF7, 0x0D, 1, 7, 1];
const KEY_BAG: &[u8] = &[6, 11, 0x2A, 0x86, 0x48, 0x86, 0xF7, 0x0D, 1, 12, 10, 1, 1];
const SHROUDED_KEY_BAG: &[u8] = &[6, 11, 0x2A, 0x86, 0x48, 0x86, 0xF7, 0x0D, 1, 12, 10, 1, 2];
const CERTIFICATE_BAG: &[u8] = &[6, 11, 0x2A, 0x86, 0x48, 0x86, 0xF7, 0x0D, 1, 12, 10, 1, 3];
const CRL_BAG: &[u8] = &[6, 11, 0x2A, 0x86, 0x48, 0x86, 0xF7, 0x0D, 1, 12, 10, 1, 4];
const SECRET_BAG: &[u8] = &[6, 11, 0x2A, 0x86, 0x48, 0x86, 0xF7, 0x0D, 1, 12, 10, 1, 5];
const SAFE_CONTENTS_BAG: &[u8] = &[6, 11, 0x2A, 0x86, 0x48, 0x86, 0xF7, 0x0D, 1, 12, 10, 1, 6];
const X509_CERTIFICATE: &[u8] = &[6, 10, 0x2A, 0x86, 0x48, 0x86, 0xF7, 0x0D, 1, 9, 22, 1];
const SDSI_CERTIFICATE: &[u8] = &[6, 10, 0x2A, 0x86, 0x48, 0x86, 0xF7, 0x0D, 1, 9, 22, 2];
const X509_CRL: &[u8] = &[6, 10, 0x2A, 0x86, 0x48, 0x86, 0xF7, 0x0D, 1, 9, 23, 1];
const FRIENDLY_NAME: &[u8] = &[6, 9, 0x2A, 0x86, 0x48, 0x86, 0xF7, 0x0D, 1, 9, 20];
const LOCAL_KEY_ID: &[u8] = &[6, 9, 0x2A, 0x86, 0x48, 0x86, 0xF7, 0x0D, 1, 9, 21];
/// Types of attributes: of the content's type, of its digest, and of the time of signing.
const CONTENT_TYPE: &[u8] = &[6, 9, 0x2A, 0x86, 0x48, 0x86, 0xF7, 0x0D, 1, 9, 3];
const MESSAGE_DIGEST: &[u8] = &[6, 9, 0x2A, 0x86, 0x48, 0x86, 0xF7, 0x0D, 1, 9, 4];
const SIGNING_TIME: &[u8] = &[6, 9, 0x2A, 0x86, 0x48, 0x86, 0xF7, 0x0D, 1, 9, 5];
/// What bags hold, in the least form that they are written in: any element, an encrypted key, and a secret.
const ELEMENT: &[u8] = &[2, 1, 7];
const ENCRYPTED_KEY: &[u8] = &[0x30, 10, 0x30, 5, 6, 3, 0x2A, 3, 4, 4, 1, 9];
const SECRET: &[u8] = &[0x30, 9, 6, 3, 0x2A, 3, 4, 0xA0, 2, 5, 0];
/// "A😀", in UTF-16.
const NAME: &[u8] = &[0, 0x41, 0xD8, 0x3D, 0xDE, 0];

fn with_digest(front: &[u8]) -> Vec<u8> {
    [front, &[7; 20]].concat()
}

/// An element of a tag around others.
fn element(tag: u8, parts: &[&[u8]]) -> Vec<u8> {
    let inside = parts.concat();
    let size = (inside.len() as u32).to_be_bytes();
    let zeros = size.iter().take_while(|octet| **octet == 0).count();
    if inside.len() < 0x80 {
        return [&[tag, inside.len() as u8], &inside[..]].concat();
    }
    [&[tag, 0x80 + 4 - zeros as u8], &size[zeros..], &inside].concat()
}

/// A bag that holds an element, with attributes.
fn bag(oid: &[u8], held: &[u8], attributes: &[u8]) -> Vec<u8> {
    element(0x30, &[oid, &element(0xA0, &[held]), attributes])
}

/// An attribute with values.
fn attribute(oid: &[u8], values: &[&[u8]]) -> Vec<u8> {
    element(0x30, &[oid, &element(0x31, values)])
}

fn name_attribute(units: &[u8]) -> Vec<u8> {
    attribute(FRIENDLY_NAME, &[&element(0x1E, &[units])])
}

/// A PKCS #12 file with these bags.
fn store(bags: &[&[u8]]) -> Vec<u8> {
    let held = element(0xA0, &[&element(4, &[&element(0x30, bags)])]);
    let contents = element(0x30, &[&element(0x30, &[DATA, &held])]);
    let safe = element(0x30, &[DATA, &element(0xA0, &[&element(4, &[&contents])])]);
    element(0x30, &[&[2, 1, 3], &safe])
}

/// Signed data without signers, over content that has these parts: its type, and what is under `[0]`.
fn signed_over(content: &[&[u8]]) -> Vec<u8> {
    let data = element(0x30, &[&DETACHED[17..22], &element(0x30, content), &[0x31, 0]]);
    element(0x30, &[&DETACHED[2..13], &element(0xA0, &[&data])])
}

/// Signed data over the digest of a file, of two octets, beside an attribute: its type, and its value.
fn signed_digest(attribute: &[&[u8]]) -> Vec<u8> {
    let algorithm = element(0x30, &[&element(6, &[SHA256]), &[5, 0]]);
    let digest = element(0x30, &[&algorithm, &[4, 2, 7, 8]]);
    let content = element(0x30, &[&element(0x30, attribute), &digest]);
    signed_over(&[INDIRECT_DATA, &element(0xA0, &[&content])])
}

/// Signed data over a trust list that has these parts.
fn signed_list(parts: &[&[u8]]) -> Vec<u8> {
    signed_over(&[TRUST_LIST, &element(0xA0, &[&element(0x30, parts)])])
}

/// PBES2, with the parts of the parameters of PBKDF2, and an encryption scheme.
fn pbes2(derivation: &[&[u8]], encryption: &[u8]) -> Vec<u8> {
    let derivation = element(0x30, &[PBKDF2, &element(0x30, derivation)]);
    element(0x30, &[PBES2, &element(0x30, &[&derivation, encryption])])
}

/// Contents that an algorithm encrypts: what they are, or nothing.
fn encrypted_contents(algorithm: &[u8], encrypted: &[u8]) -> Vec<u8> {
    let data = element(0x30, &[&[2, 1, 0], &element(0x30, &[DATA, algorithm, encrypted])]);
    element(0x30, &[ENCRYPTED_DATA, &element(0xA0, &[&data])])
}

/// Where octets begin in others.
fn place(whole: &[u8], part: &[u8]) -> usize {
    whole.windows(part.len()).position(|octets| octets == part).unwrap()
}

#[test]
fn the_library_is_of_the_same_version() {
    assert_eq!(vuyhanip::version(), env!("CARGO_PKG_VERSION").replace("-dev.", ".dev"));
    assert!(vuyhanip::processor().starts_with("x86-64"));
}

#[test]
fn a_store_is_normal() {
    assert_eq!(vuyhanip::check("pfx", STORE), Ok(Verdict { is_normal: true, len: 1010, loose_end: None }));
    assert_eq!(vuyhanip::rewrite("rawpfx", STORE).as_deref(), Ok(STORE));
}

/// Of the file, an encrypted certificate, which isn't read, and an encrypted key with a name.
#[test]
fn bags_of_a_store() {
    let bags = vuyhanip::bags(STORE).unwrap();
    assert_eq!(bags.len(), 2);
    assert_eq!((bags[0].kind, bags[0].element, bags[0].name()), (BagKind::Unread, &STORE[34..648], None));
    assert_eq!((bags[1].kind, bags[1].level, bags[1].element), (BagKind::ShroudedKey, 0, &STORE[675..943]));
    assert_eq!((bags[1].value, bags[1].friendly_name), (&STORE[695..875], Some(&STORE[894..906])));
    assert_eq!(bags[1].local_key_id, Some(&STORE[923..943]));
    let reason = Reason::Malformed;
    assert_eq!(vuyhanip::bags(&STORE[..1009]), Err(Error::Refused { reason, place: 0 }));
}

#[test]
fn a_digest_info_is_loose_up_to_its_digest() {
    let verdict = vuyhanip::check("pkcs12digestinfo", &with_digest(LOOSE));
    assert_eq!(verdict, Ok(Verdict { is_normal: false, len: 35, loose_end: Some(11) }));
    assert_eq!(vuyhanip::rewrite("pkcs12digestinfo", &with_digest(LOOSE)), Ok(with_digest(NORMAL)));
}

#[test]
fn refusals_have_a_reason_and_a_place() {
    let refused = |reason, place| Error::Refused { reason, place };
    assert_eq!(vuyhanip::check("pfx", &[]), Err(refused(Reason::Missing, 0)));
    let cut = vuyhanip::check("pfx", &STORE[..1009]).unwrap_err();
    assert_eq!((cut, cut.to_string().as_str()), (refused(Reason::Malformed, 0), "refused: malformed at 0"));
    assert_eq!(vuyhanip::check("pfx", &[STORE, &[0]].concat()), Err(refused(Reason::Malformed, 1010)));
    assert_eq!(vuyhanip::rewrite("pfx", SIGNED), Err(refused(Reason::Invalid, 4)));
    assert_eq!(vuyhanip::part(Part::StoreBag, 0, SIGNED), Err(refused(Reason::Invalid, 4)));
    assert_eq!(vuyhanip::mac(SIGNED), Err(refused(Reason::Invalid, 4)));
    assert_eq!(vuyhanip::mac_range(SIGNED), Err(refused(Reason::Invalid, 4)));
    assert_eq!(vuyhanip::check("no kind", STORE), Err(Error::UnknownKind));
}

#[test]
fn a_limit_of_levels_is_kept() {
    assert!(matches!(
        vuyhanip::check_limited("pkcs7certificate", 0, SIGNED),
        Err(Error::Refused { reason: Reason::TooDeep, .. })
    ));
    assert_eq!(vuyhanip::rewrite_limited("pkcs7certificate", 255, SIGNED).as_deref(), Ok(SIGNED));
}

#[test]
fn parts_of_signed_data() {
    let part = |part, index| vuyhanip::part(part, index, SIGNED).unwrap();
    assert_eq!(part(Part::HashedContent, 0).as_deref(), Some(&b"hello, world"[..]));
    assert_eq!(part(Part::Certificate, 0).as_deref(), Some(&SIGNED[74..357]));
    assert_eq!(part(Part::Certificate, 1).as_deref(), Some(&SIGNED[357..643]));
    assert_eq!(part(Part::Certificate, 2), None);
    assert_eq!(part(Part::SignedAttributes, 0), Some([&[0x31], &SIGNED[685..791]].concat()));
    assert_eq!(part(Part::Issuer, 0).as_deref(), Some(&SIGNED[654..668]));
    assert_eq!(part(Part::SerialNumber, 0).as_deref(), Some(&[2][..]));
    assert_eq!(part(Part::KeyIdentifier, 0), None);
    assert_eq!(part(Part::DigestAlgorithm, 0).as_deref(), Some(SHA256));
    assert_eq!(part(Part::SignatureAlgorithm, 0).as_deref(), Some(&SIGNED[791..803]));
    assert_eq!(part(Part::Signature, 0).as_deref(), Some(&SIGNED[805..876]));
    assert_eq!(part(Part::Signature, 1), None);
}

/// Of both files: the offsets are those in the certificate.
#[test]
fn parts_of_certificates() {
    let first = &SIGNED[74..357];
    let found = vuyhanip::certificate(first).unwrap();
    assert_eq!((found.serial_number, found.issuer), (&first[14..15], &first[27..41]));
    assert_eq!((found.validity, found.subject), (&first[41..75], &first[75..89]));
    assert_eq!(found.subject_public_key_info, &first[89..180]);
    let key = found.key.unwrap();
    assert_eq!((key.algorithm, key.parameters), (&first[95..102], Some(&first[102..112])));
    assert_eq!(key.octets, &first[115..180]);
    assert_eq!((found.extensions, found.key_identifier), (Some(&first[182..198]), Some(&[6, 7, 8][..])));
    let by_key = vuyhanip::certificate(&BY_KEY[74..447]).unwrap();
    assert_eq!(by_key.key_identifier, vuyhanip::part(Part::KeyIdentifier, 0, BY_KEY).unwrap().as_deref());
    let refused = |reason, place| Err(Error::Refused { reason, place });
    assert_eq!(vuyhanip::certificate(SIGNED), refused(Reason::Invalid, 4));
    assert_eq!(vuyhanip::certificate(&first[..282]), refused(Reason::Malformed, 0));
    assert_eq!(vuyhanip::certificate(&[]), refused(Reason::Missing, 0));
}

/// By hand: neither version nor parameters, and what is under `[3]` are no extensions; then the same without a key.
#[test]
fn parts_that_a_certificate_lacks() {
    let (algorithm, empty) = (element(0x30, &[&[6, 2, 0x2A, 3]]), element(0x30, &[]));
    let certificate = |key: &[u8]| {
        let parts: [&[u8]; 8] = [&[2, 1, 7], &algorithm, &empty, &empty, &empty, key, &[0x81, 1, 0], &[0xA3, 2, 5, 0]];
        element(0x30, &[&element(0x30, &parts), &algorithm, &[3, 1, 0]])
    };
    let whole = certificate(&element(0x30, &[&algorithm, &[3, 2, 0, 9]]));
    let found = vuyhanip::certificate(&whole).unwrap();
    let key = found.key.unwrap();
    assert_eq!((key.algorithm, key.parameters, key.octets), (&[0x2A, 3][..], None, &[9][..]));
    assert_eq!((found.extensions, found.key_identifier), (Some(&[5, 0][..]), None));
    let whole = certificate(&[5, 0]);
    let found = vuyhanip::certificate(&whole).unwrap();
    assert_eq!((found.subject_public_key_info, found.key), (&[5, 0][..], None));
}

/// Of a program, in the order of the file.
#[test]
fn parts_of_indirect_data() {
    let value: &[u8] = &[0x30, 10, 3, 2, 5, 0x80, 0xA0, 4, 0xA2, 2, 0x80, 0];
    let file = signed_digest(&[PROGRAM, value]);
    let (found, at) = (vuyhanip::indirect(&file).unwrap().unwrap(), place(&file, PROGRAM));
    assert_eq!((found.attribute_type, found.attribute_value), (&file[at + 2..at + 12], Some(&file[at + 12..at + 24])));
    let image = found.image.unwrap();
    assert_eq!((image.flags, image.link), (Some(&[5, 0x80][..]), Some(&[0xA2, 2, 0x80, 0][..])));
    assert_eq!((found.digest_algorithm, found.digest), (&file[at + 26..at + 41], &[7, 8][..]));
}

/// A value that isn't there, one that is no image data, one without flags and a link, and one of a cabinet.
#[test]
fn parts_that_indirect_data_lack() {
    let lacks_value = signed_digest(&[CABINET]);
    let found = vuyhanip::indirect(&lacks_value).unwrap().unwrap();
    assert_eq!((found.attribute_type, found.attribute_value, found.image), (&CABINET[2..], None, None));
    let values = [(PROGRAM, [5, 0], false), (PROGRAM, [0x30, 0], true), (CABINET, [0x30, 0], false)];
    for (attribute_type, value, is_image) in values {
        let file = signed_digest(&[attribute_type, &value]);
        let found = vuyhanip::indirect(&file).unwrap().unwrap();
        assert_eq!((found.attribute_type, found.attribute_value), (&attribute_type[2..], Some(&value[..])));
        assert_eq!(found.image.map(|it| (it.flags, it.link)), is_image.then_some((None, None)));
        assert_eq!(found.digest, [7, 8]);
    }
}

#[test]
fn other_content_is_no_indirect_data() {
    for file in [SIGNED, DETACHED, &signed_over(&[INDIRECT_DATA])[..]] {
        assert_eq!(vuyhanip::indirect(file), Ok(None));
    }
    let refused = |reason, place| Err(Error::Refused { reason, place });
    for (content, reason, within) in [([4, 0], Reason::Invalid, 0), ([0x30, 0], Reason::Missing, 2)] {
        let file = signed_over(&[INDIRECT_DATA, &element(0xA0, &[&content])]);
        assert_eq!(vuyhanip::indirect(&file), refused(reason, place(&file, &content) + within));
    }
    assert_eq!(vuyhanip::indirect(STORE), refused(Reason::Invalid, 4));
    assert_eq!(vuyhanip::indirect(&[]), refused(Reason::Missing, 0));
}

/// All of them, in the order of the file.
#[test]
fn parts_of_a_trust_list() {
    let file = signed_list(&LIST);
    let found = vuyhanip::trust_list(&file).unwrap().unwrap();
    assert_eq!((found.version, found.usages), (Some(&LIST[0][2..]), LIST[1]));
    assert_eq!((found.list_identifier, found.sequence_number), (Some(&LIST[2][2..]), Some(&LIST[3][2..])));
    assert_eq!((found.this_update, found.next_update), (LIST[4], Some(LIST[5])));
    assert_eq!((found.algorithm, found.extensions), (LIST[6], Some(&LIST[8][2..])));
    let entries = vuyhanip::trust_entries(&file).unwrap().unwrap();
    let parts: Vec<_> = entries.iter().map(|it| (it.identifier, it.attributes)).collect();
    assert_eq!(parts, [(&[7, 8][..], None), (&[9][..], Some(&LIST[7][13..]))]);
}

/// Each part that may be absent, by itself, and all of them.
#[test]
fn parts_that_a_trust_list_lacks() {
    for absent in [&[0][..], &[2], &[3], &[5], &[7], &[8], &[0, 2, 3, 5, 7, 8]] {
        let is_there = |index: &usize| !absent.contains(index);
        let parts: Vec<_> = (0..LIST.len()).filter(is_there).map(|index| LIST[index]).collect();
        let file = signed_list(&parts);
        let found = vuyhanip::trust_list(&file).unwrap().unwrap();
        let of = |index: usize, start: usize| is_there(&index).then(|| &LIST[index][start..]);
        assert_eq!((found.version, found.list_identifier), (of(0, 2), of(2, 2)));
        assert_eq!((found.sequence_number, found.next_update), (of(3, 2), of(5, 0)));
        assert_eq!((found.usages, found.this_update, found.algorithm), (LIST[1], LIST[4], LIST[6]));
        assert_eq!(found.extensions, of(8, 2));
        let count = vuyhanip::trust_entries(&file).unwrap().unwrap().len();
        assert_eq!(count, if is_there(&7) { 2 } else { 0 });
    }
}

#[test]
fn other_content_is_no_trust_list() {
    for file in [SIGNED, DETACHED, &signed_over(&[TRUST_LIST])[..], &signed_digest(&[CABINET])] {
        assert_eq!((vuyhanip::trust_list(file), vuyhanip::trust_entries(file)), (Ok(None), Ok(None)));
    }
    assert_eq!(vuyhanip::indirect(&signed_list(&LIST)), Ok(None));
}

/// What is no list, under the type of one, an entry that is none, what is left over, and what is no signed data.
#[test]
fn trust_lists_are_refused_where_they_are_wrong() {
    let (no_time, no_entry, more) = (&[0x17, 1, 0x5A][..], &[0x30, 2, 5, 0][..], &[1, 1, 0xFF][..]);
    let with = |index: usize, part| [&LIST[..index], &[part], &LIST[index + 1..]].concat();
    let no_list = |content: &[u8]| signed_over(&[TRUST_LIST, &element(0xA0, &[content])]);
    let [timeless, wrong, long] = [with(4, no_time), with(7, no_entry), with(8, more)].map(|it| signed_list(&it));
    let [octets, empty] = [no_list(&[4, 0]), no_list(&[0x30, 0])];
    for (file, reason, place) in [
        (&octets[..], Reason::Invalid, place(&octets, &[0xA0, 2, 4, 0]) + 2),
        (&empty, Reason::Missing, place(&empty, &[0xA0, 2, 0x30, 0]) + 4),
        (&timeless, Reason::Invalid, place(&timeless, no_time)),
        (&wrong, Reason::Invalid, place(&wrong, no_entry) + 2),
        (&long, Reason::Malformed, place(&long, more)),
        (STORE, Reason::Invalid, 4),
        (&[], Reason::Missing, 0),
    ] {
        let refused = Some(Error::Refused { reason, place });
        assert_eq!((vuyhanip::trust_list(file).err(), vuyhanip::trust_entries(file).err()), (refused, refused));
    }
}

/// Also where there are more than there is room for at first.
#[test]
fn many_entries_are_all_there() {
    for count in [0, 1, 63, 64, 65, 100] {
        let entries: Vec<u8> = (0..count).flat_map(|number| [0x30, 3, 4, 1, number]).collect();
        let file = signed_list(&[LIST[1], LIST[4], LIST[6], &element(0x30, &[&entries])]);
        let found = vuyhanip::trust_entries(&file).unwrap().unwrap();
        assert!(found.iter().map(|it| it.identifier).eq(entries.chunks_exact(5).map(|it| &it[4..])));
        assert!(found.iter().all(|it| it.attributes.is_none()));
    }
}

/// Of the file: encrypted contents, by PBES2, and an encrypted key, by an algorithm of RFC 7292.
#[test]
fn how_a_store_is_encrypted() {
    let found = vuyhanip::password_parameters(PasswordHolder::Contents, &STORE[34..648]).unwrap();
    assert_eq!((found.is_pbes1, found.is_pkcs12), (false, false));
    assert_eq!((found.is_pbes2, found.is_pbkdf2), (true, true));
    assert_eq!((found.algorithm, found.parameters), (&STORE[79..88], Some(&STORE[88..164])));
    assert_eq!((found.derivation, found.derivation_parameters), (Some(&STORE[94..103]), Some(&STORE[103..133])));
    assert_eq!((found.salt, found.iterations), (Some(&STORE[107..115]), Some(2048)));
    assert_eq!((found.key_length, found.prf), (None, Some(&STORE[123..131])));
    assert_eq!((found.encryption, found.encryption_parameters), (Some(&STORE[137..146]), Some(&STORE[146..164])));
    assert_eq!((found.initialization_vector, found.encrypted), (Some(&STORE[148..164]), Some(&STORE[168..648])));
    let found = vuyhanip::password_parameters(PasswordHolder::Key, &STORE[695..875]).unwrap();
    assert_eq!((found.is_pbes1, found.is_pkcs12), (false, true));
    assert_eq!((found.is_pbes2, found.is_pbkdf2), (false, false));
    assert_eq!((found.algorithm, found.parameters), (&STORE[702..712], Some(&STORE[712..728])));
    assert_eq!((found.salt, found.iterations), (Some(&STORE[716..724]), Some(2048)));
    assert_eq!((found.derivation, found.encryption, found.encrypted), (None, None, Some(&STORE[731..875])));
}

/// By hand, of each holder, with all parts, which are the same in each.
#[test]
fn parameters_of_each_holder() {
    let count = [2, 5, 0, 0xFF, 0xFF, 0xFF, 0xFF];
    let algorithm = pbes2(&[&[4, 2, 7, 8], &count, &[2, 1, 16], BARE], WITH_VECTOR);
    let octets: &[u8] = &[1, 2, 3];
    let key = element(0x30, &[&algorithm, &element(4, &[octets])]);
    let contents = encrypted_contents(&algorithm, &element(0x80, &[octets]));
    for (holder, input, encrypted) in [
        (PasswordHolder::Algorithm, &algorithm, None),
        (PasswordHolder::Key, &key, Some(octets)),
        (PasswordHolder::Contents, &contents, Some(octets)),
    ] {
        let found = vuyhanip::password_parameters(holder, input).unwrap();
        assert_eq!((found.algorithm, found.derivation), (&PBES2[2..], Some(&PBKDF2[2..])));
        assert_eq!((found.salt, found.prf), (Some(&[7, 8][..]), Some(&BARE[4..])));
        assert_eq!((found.iterations, found.key_length), (Some(0xFFFF_FFFF), Some(16)));
        assert_eq!((found.encryption, found.initialization_vector), (Some(&WITH_VECTOR[4..7]), Some(&[5, 6][..])));
        assert_eq!((found.encryption_parameters, found.encrypted), (Some(&WITH_VECTOR[7..]), encrypted));
    }
    let elsewhere = encrypted_contents(BARE, &[]);
    let found = vuyhanip::password_parameters(PasswordHolder::Contents, &elsewhere).unwrap();
    assert_eq!((found.algorithm, found.encrypted), (&BARE[4..], None));
}

/// Whether an algorithm's parameters are those of PBES1, of PKCS #12, of PBES2 and of PBKDF2, and the count in them.
fn parameters_of(algorithm: &[u8]) -> ([bool; 4], Option<usize>) {
    let found = vuyhanip::password_parameters(PasswordHolder::Algorithm, algorithm).unwrap();
    ([found.is_pbes1, found.is_pkcs12, found.is_pbes2, found.is_pbkdf2], found.iterations)
}

#[test]
fn parameters_that_are_absent_or_other() {
    let of_kind = |kind: &[u8], parameters: &[u8]| element(0x30, &[kind, parameters]);
    let other = ([false, false, false, false], None);
    // a salt from another source, and nothing else that may be absent
    let least = pbes2(&[BARE, &[2, 1, 0]], BARE);
    assert_eq!(parameters_of(&least), ([false, false, true, true], Some(0)));
    let found = vuyhanip::password_parameters(PasswordHolder::Algorithm, &least).unwrap();
    assert_eq!((found.salt, found.key_length, found.prf, found.initialization_vector), (None, None, None, None));
    assert_eq!((found.encryption_parameters, found.encrypted), (None, None));
    // a count of 2^32, and one below 0
    for count in [&[2, 5, 1, 0, 0, 0, 0][..], &[2, 1, 0x80]] {
        assert_eq!(parameters_of(&pbes2(&[&[4, 0], count], WITH_VECTOR)), ([false, false, true, false], None));
        for kind in [PBE_MD5_DES, PBE_SHA1_RC2] {
            assert_eq!(parameters_of(&of_kind(kind, &element(0x30, &[&[4, 0], count]))), other);
        }
    }
    // a salt and a count, which other algorithms haven't
    for (kind, flags) in [
        (PBE_MD5_DES, [true, false, false, false]),
        (PBE_SHA1_RC2, [false, true, false, false]),
        (PBES2, other.0),
        (PBKDF2, other.0),
        (AES_GCM, other.0),
        (DATA, other.0),
    ] {
        let algorithm = of_kind(kind, &[0x30, 6, 4, 1, 7, 2, 1, 9]);
        let is_known = flags != other.0;
        assert_eq!(parameters_of(&algorithm), (flags, is_known.then_some(9)));
        let found = vuyhanip::password_parameters(PasswordHolder::Algorithm, &algorithm).unwrap();
        assert_eq!((found.salt, found.parameters), (is_known.then_some(&[7][..]), Some(&algorithm[2 + kind.len()..])));
        assert_eq!((parameters_of(&of_kind(kind, &[])), parameters_of(&of_kind(kind, &[5, 0]))), (other, other));
    }
    // the parameters of PBES2 under another object identifier
    assert_eq!(parameters_of(&of_kind(DATA, &least[2 + PBES2.len()..])), other);
}

#[test]
fn what_is_no_holder_is_refused_where_it_is_wrong() {
    let (key, contents) = (element(0x30, &[BARE, &[4, 0]]), encrypted_contents(BARE, &[0x80, 0]));
    let (long, wrong) = (encrypted_contents(BARE, &[0xA0, 0]), element(0x30, &[DATA, &[0xA0, 0]]));
    let mut later = contents.clone();
    let version = place(&later, &[2, 1, 0]);
    later[version + 2] = 2;
    for (holder, input, reason, place) in [
        (PasswordHolder::Algorithm, &key[..], Reason::Invalid, 2),
        (PasswordHolder::Key, &contents, Reason::Invalid, 2),
        (PasswordHolder::Contents, &key, Reason::Invalid, 2),
        (PasswordHolder::Contents, &wrong, Reason::Invalid, 2),
        (PasswordHolder::Contents, &later, Reason::Invalid, version),
        (PasswordHolder::Contents, &long, Reason::Malformed, long.len() - 2),
        (PasswordHolder::Key, &key[..key.len() - 1], Reason::Malformed, 0),
        (PasswordHolder::Key, &[&[0x30, BARE.len() as u8], BARE].concat(), Reason::Missing, 2 + BARE.len()),
        (PasswordHolder::Algorithm, &[BARE, &[5, 0]].concat(), Reason::Malformed, BARE.len()),
        (PasswordHolder::Algorithm, &[], Reason::Missing, 0),
    ] {
        let refused = Err(Error::Refused { reason, place });
        assert_eq!(vuyhanip::password_parameters(holder, input), refused);
    }
}

/// What is built from what is listed.
fn built_again(holder: PasswordHolder, input: &[u8]) -> Result<Vec<u8>, BuildError> {
    vuyhanip::build_parameters(holder, &vuyhanip::password_parameters(holder, input).unwrap())
}

/// Of the file, and by hand of each holder.
#[test]
fn what_is_listed_is_built_again() {
    for (holder, input) in [(PasswordHolder::Contents, &STORE[34..648]), (PasswordHolder::Key, &STORE[695..875])] {
        assert_eq!(built_again(holder, input).as_deref(), Ok(input));
    }
    let of_kind = |kind: &[u8], parameters: &[u8]| element(0x30, &[kind, parameters]);
    for algorithm in [
        pbes2(&[&[4, 2, 7, 8], GREATEST, &[2, 1, 16], WITH_NULL], WITH_VECTOR),
        pbes2(&[&[4, 0], &[2, 1, 0]], BARE),
        // a salt from another source, and a count of 2^32
        pbes2(&[BARE, &[2, 1, 9], &[2, 1, 16], BARE], WITH_VECTOR),
        pbes2(&[&[4, 0], &[2, 5, 1, 0, 0, 0, 0]], WITH_NULL),
        of_kind(PBE_MD5_DES, SALT_AND_COUNT),
        of_kind(PBE_SHA1_RC2, SALT_AND_COUNT),
        // what isn't known
        of_kind(PBE_SHA1_RC2, &[5, 0]),
        of_kind(PBES2, SALT_AND_COUNT),
        of_kind(AES_GCM, SALT_AND_COUNT),
        BARE.to_vec(),
    ] {
        for (holder, input) in [
            (PasswordHolder::Algorithm, algorithm.clone()),
            (PasswordHolder::Key, element(0x30, &[&algorithm, &[4, 3, 1, 2, 3]])),
            (PasswordHolder::Contents, encrypted_contents(&algorithm, &[0x80, 3, 1, 2, 3])),
            (PasswordHolder::Contents, encrypted_contents(&algorithm, &[])),
        ] {
            assert_eq!(built_again(holder, &input), Ok(input));
        }
    }
}

/// A PRF gets NULL as its parameters (RFC 8018, B.1), and contents are data.
#[test]
fn what_no_parameters_say_is_built_as_usual() {
    let of_prf = |prf| pbes2(&[&[4, 0], &[2, 1, 9], prf], BARE);
    assert_eq!(built_again(PasswordHolder::Algorithm, &of_prf(BARE)), Ok(of_prf(WITH_NULL)));
    let contents = encrypted_contents(BARE, &[]);
    let mut other = contents.clone();
    // the last octet of the type
    other[place(&contents, DATA) + 10] = 5;
    assert_eq!(built_again(PasswordHolder::Contents, &other), Ok(contents));
}

/// Of the file: what is set anew reads back, and nothing else is another.
#[test]
fn what_is_changed_reads_back() {
    let mut given = vuyhanip::password_parameters(PasswordHolder::Contents, &STORE[34..648]).unwrap();
    given.salt = Some(&[1; 16]);
    given.iterations = Some(600_000);
    given.key_length = Some(32);
    given.initialization_vector = Some(&[2; 12]);
    given.encrypted = None;
    let built = vuyhanip::build_parameters(PasswordHolder::Contents, &given).unwrap();
    let mut found = vuyhanip::password_parameters(PasswordHolder::Contents, &built).unwrap();
    let derivation = element(0x30, &[&[4, 16], &[1; 16], &[2, 3, 9, 0x27, 0xC0, 2, 1, 32], &STORE[119..133]]);
    assert_eq!(found.derivation_parameters, Some(&derivation[..]));
    assert_eq!(found.encryption_parameters, Some(&element(4, &[&[2; 12]])[..]));
    // the elements that hold what was changed
    found.parameters = given.parameters;
    found.derivation_parameters = given.derivation_parameters;
    found.encryption_parameters = given.encryption_parameters;
    assert_eq!(found, given);
    // of the key, by an algorithm of RFC 7292
    let mut given = vuyhanip::password_parameters(PasswordHolder::Key, &STORE[695..875]).unwrap();
    assert_eq!(vuyhanip::build_parameters(PasswordHolder::Algorithm, &given).as_deref(), Ok(&STORE[698..728]));
    for count in [0, 0x7F, 0x80, 0xFFFF, 600_000, 0xFFFF_FFFF] {
        given.iterations = Some(count);
        let built = vuyhanip::build_parameters(PasswordHolder::Key, &given).unwrap();
        let mut found = vuyhanip::password_parameters(PasswordHolder::Key, &built).unwrap();
        found.parameters = given.parameters;
        assert_eq!(found, given);
    }
}

/// By hand, of each holder.
#[test]
fn parameters_are_built_from_scratch() {
    let salted = |kind: &[u8]| element(0x30, &[kind, SALT_AND_COUNT]);
    let least = PasswordParameters::pbes2(&WITH_VECTOR[4..7], &[5, 6], &[7, 8], 0xFFFF_FFFF, None);
    let mut whole = PasswordParameters::pbes2(&WITH_VECTOR[4..7], &[5, 6], &[7, 8], 0xFFFF_FFFF, Some(&BARE[4..]));
    whole.key_length = Some(16);
    // another key derivation, and an encryption scheme whose parameters are no vector
    let mut others = least;
    others.is_pbkdf2 = false;
    others.derivation = Some(&AES_GCM[2..]);
    others.derivation_parameters = Some(SALT_AND_COUNT);
    others.initialization_vector = None;
    others.encryption_parameters = Some(&[5, 0]);
    let schemes = element(0x30, &[&salted(AES_GCM), &[0x30, 7], &WITH_VECTOR[2..7], &[5, 0]]);
    for (mut given, algorithm) in [
        (least, pbes2(&[&[4, 2, 7, 8], GREATEST], WITH_VECTOR)),
        (whole, pbes2(&[&[4, 2, 7, 8], GREATEST, &[2, 1, 16], WITH_NULL], WITH_VECTOR)),
        (others, element(0x30, &[PBES2, &schemes])),
        (PasswordParameters::pkcs12(&PBE_SHA1_RC2[2..], &[7], 9), salted(PBE_SHA1_RC2)),
        (PasswordParameters::pbes1(&PBE_MD5_DES[2..], &[7], 9), salted(PBE_MD5_DES)),
        (PasswordParameters::other(&AES_GCM[2..], Some(SALT_AND_COUNT)), salted(AES_GCM)),
        (PasswordParameters::other(&BARE[4..], None), BARE.to_vec()),
    ] {
        let elsewhere = encrypted_contents(&algorithm, &[]);
        assert_eq!(vuyhanip::build_parameters(PasswordHolder::Contents, &given), Ok(elsewhere));
        let refused = Err(BuildError::Refused(PasswordPart::Encrypted));
        assert_eq!(vuyhanip::build_parameters(PasswordHolder::Key, &given), refused);
        given.encrypted = Some(&[1, 2, 3]);
        let key = element(0x30, &[&algorithm, &[4, 3, 1, 2, 3]]);
        assert_eq!(vuyhanip::build_parameters(PasswordHolder::Key, &given), Ok(key));
        let contents = encrypted_contents(&algorithm, &[0x80, 3, 1, 2, 3]);
        assert_eq!(vuyhanip::build_parameters(PasswordHolder::Contents, &given), Ok(contents));
        assert_eq!(vuyhanip::build_parameters(PasswordHolder::Algorithm, &given), Ok(algorithm));
    }
}

/// What a scheme doesn't have may be anything.
#[test]
fn parts_of_other_schemes_are_not_looked_at() {
    let vector = &WITH_VECTOR[9..];
    let mut with_schemes = PasswordParameters::pbes2(&WITH_VECTOR[4..7], vector, &[7, 8], 9, None);
    with_schemes.algorithm = &[];
    with_schemes.parameters = NEITHER;
    with_schemes.derivation = NEITHER;
    with_schemes.derivation_parameters = NEITHER;
    with_schemes.encryption_parameters = NEITHER;
    let built = vuyhanip::build_parameters(PasswordHolder::Algorithm, &with_schemes);
    assert_eq!(built, Ok(pbes2(&[&[4, 2, 7, 8], &[2, 1, 9]], WITH_VECTOR)));
    for (its, kind) in [
        (PasswordParameters::pkcs12(&PBE_SHA1_RC2[2..], &[7], 9), PBE_SHA1_RC2),
        (PasswordParameters::pbes1(&PBE_MD5_DES[2..], &[7], 9), PBE_MD5_DES),
        (PasswordParameters::other(&AES_GCM[2..], Some(SALT_AND_COUNT)), AES_GCM),
    ] {
        let mut given = its;
        given.is_pbkdf2 = true;
        given.parameters = its.parameters.or(NEITHER);
        given.salt = its.salt.or(NEITHER);
        given.iterations = its.iterations.or(Some(usize::MAX));
        given.key_length = Some(usize::MAX);
        given.derivation = NEITHER;
        given.derivation_parameters = NEITHER;
        given.prf = NEITHER;
        given.encryption = NEITHER;
        given.encryption_parameters = NEITHER;
        given.initialization_vector = NEITHER;
        let built = vuyhanip::build_parameters(PasswordHolder::Algorithm, &given);
        assert_eq!(built, Ok(element(0x30, &[kind, SALT_AND_COUNT])));
    }
}

/// A part, parameters that can be written, and what makes that part of them wrong, and no other.
type Wrong = (PasswordPart, PasswordParameters<'static>, fn(&mut PasswordParameters<'static>));

/// Each but an initialization vector, which may be any octets, and what is encrypted, which only a key has to have.
#[test]
fn a_part_that_is_wrong_is_named() {
    let pbes2 = PasswordParameters::pbes2(&WITH_VECTOR[4..7], &[5, 6], &[7, 8], 9, None);
    let pkcs12 = PasswordParameters::pkcs12(&PBE_SHA1_RC2[2..], &[7], 9);
    let pbes1 = PasswordParameters::pbes1(&PBE_MD5_DES[2..], &[7], 9);
    let other = PasswordParameters::other(&BARE[4..], None);
    let wrong: [Wrong; 31] = [
        (PasswordPart::Algorithm, other, |it| it.algorithm = &[]),
        (PasswordPart::Algorithm, other, |it| it.algorithm = &[0x2A, 0x83]),
        // of another scheme
        (PasswordPart::Algorithm, pkcs12, |it| it.algorithm = &PBE_MD5_DES[2..]),
        (PasswordPart::Algorithm, pbes1, |it| it.algorithm = &PBE_SHA1_RC2[2..]),
        (PasswordPart::Algorithm, pbes1, |it| it.algorithm = &PBES2[2..]),
        // none, one that is cut, and two
        (PasswordPart::Parameters, other, |it| it.parameters = Some(&[])),
        (PasswordPart::Parameters, other, |it| it.parameters = Some(&[4, 1])),
        (PasswordPart::Parameters, other, |it| it.parameters = Some(&[5, 0, 5, 0])),
        (PasswordPart::Derivation, pbes2, |it| (it.is_pbkdf2, it.derivation) = (false, None)),
        (PasswordPart::Derivation, pbes2, |it| (it.is_pbkdf2, it.derivation) = (false, NEITHER)),
        (PasswordPart::Derivation, pbes2, |it| {
            (it.salt, it.derivation, it.derivation_parameters) = (None, NEITHER, Some(SALT_AND_COUNT));
        }),
        (PasswordPart::DerivationParameters, pbes2, |it| (it.salt, it.derivation_parameters) = (None, NEITHER)),
        (PasswordPart::Salt, pkcs12, |it| it.salt = None),
        (PasswordPart::Salt, pbes1, |it| it.salt = None),
        // the salt is met before other parts
        (PasswordPart::Salt, pbes2, |it| it.salt = None),
        (PasswordPart::Salt, pbes2, |it| (it.salt, it.derivation) = (None, NEITHER)),
        (PasswordPart::Salt, pbes2, |it| (it.salt, it.iterations, it.encryption) = (None, None, None)),
        (PasswordPart::Prf, pbes2, |it| it.prf = NEITHER),
        (PasswordPart::Encryption, pbes2, |it| it.encryption = None),
        (PasswordPart::Encryption, pbes2, |it| it.encryption = NEITHER),
        (PasswordPart::Encryption, pbes2, |it| (it.encryption, it.initialization_vector) = (None, None)),
        (PasswordPart::EncryptionParameters, pbes2, |it| {
            (it.encryption_parameters, it.initialization_vector) = (NEITHER, None);
        }),
        (PasswordPart::Iterations, pbes2, |it| it.iterations = Some(1 << 32)),
        (PasswordPart::Iterations, pbes2, |it| it.iterations = None),
        (PasswordPart::Iterations, pkcs12, |it| it.iterations = Some(usize::MAX)),
        (PasswordPart::Iterations, pkcs12, |it| it.iterations = None),
        (PasswordPart::Iterations, pbes1, |it| it.iterations = Some(1 << 32)),
        (PasswordPart::KeyLength, pbes2, |it| it.key_length = Some(1 << 32)),
        // PBES2 whose other parts are those of the second scheme too
        (PasswordPart::Scheme, pbes2, |it| (it.is_pkcs12, it.algorithm) = (true, &PBE_SHA1_RC2[2..])),
        (PasswordPart::Scheme, pbes2, |it| (it.is_pbes1, it.algorithm) = (true, &PBE_MD5_DES[2..])),
        (PasswordPart::Scheme, pbes1, |it| it.is_pkcs12 = true),
    ];
    for (part, mut given, change) in wrong {
        given.encrypted = Some(&[1, 2, 3]);
        for holder in [PasswordHolder::Algorithm, PasswordHolder::Key, PasswordHolder::Contents] {
            assert!(vuyhanip::build_parameters(holder, &given).is_ok());
        }
        change(&mut given);
        for holder in [PasswordHolder::Algorithm, PasswordHolder::Key, PasswordHolder::Contents] {
            assert_eq!(vuyhanip::build_parameters(holder, &given), Err(BuildError::Refused(part)));
        }
    }
    let said = BuildError::Refused(PasswordPart::KeyLength).to_string();
    assert_eq!((said.as_str(), BuildError::NoMemory.to_string().as_str()), ("refused: key length", "no memory"));
}

/// What each kind of bag is given, and the object identifier and the element that it is written with.
fn each_kind() -> [(BagGiven<'static>, &'static [u8], Vec<u8>); 7] {
    let x509 = |oid: &[u8]| element(0x30, &[oid, &element(0xA0, &[&element(4, &[ELEMENT])])]);
    let mut other = BagGiven::new(BagKind::Other, ELEMENT);
    other.identifier = Some(&BARE[4..]);
    [
        (BagGiven::new(BagKind::Key, ELEMENT), KEY_BAG, ELEMENT.to_vec()),
        (BagGiven::new(BagKind::ShroudedKey, ENCRYPTED_KEY), SHROUDED_KEY_BAG, ENCRYPTED_KEY.to_vec()),
        (BagGiven::new(BagKind::Certificate, ELEMENT), CERTIFICATE_BAG, x509(X509_CERTIFICATE)),
        (BagGiven::new(BagKind::Crl, ELEMENT), CRL_BAG, x509(X509_CRL)),
        (BagGiven::new(BagKind::Secret, SECRET), SECRET_BAG, SECRET.to_vec()),
        (BagGiven::new(BagKind::SafeContents, &[0x30, 0]), SAFE_CONTENTS_BAG, vec![0x30, 0]),
        (other, &BARE[2..], ELEMENT.to_vec()),
    ]
}

/// A file whose only contents are these bags, in clear, without a MAC.
fn store_of(bags: &[u8]) -> Vec<u8> {
    Store::new(&[ContentGiven::Data(bags)]).unwrap().finish(None).unwrap()
}

/// Without attributes and with all of them, and as it is listed.
#[test]
fn each_kind_of_bag_is_built() {
    let further = attribute(&BARE[2..], &[&[5, 0]]);
    let key_id = attribute(LOCAL_KEY_ID, &[&[4, 2, 7, 8]]);
    let (set, all) = (element(0x31, &[&further]), element(0x31, &[&further, &key_id, &name_attribute(NAME)]));
    for (mut given, oid, held) in each_kind() {
        let written = bag(oid, &held, &[]);
        assert_eq!(vuyhanip::build_bags(&[given]), Ok(element(0x30, &[&written])));
        given.friendly_name = Some(NAME);
        given.local_key_id = Some(&[7, 8]);
        given.attributes = Some(&set);
        let written = bag(oid, &held, &all);
        let built = vuyhanip::build_bags(&[given]).unwrap();
        assert_eq!(built, element(0x30, &[&written]));
        let file = store_of(&built);
        assert_eq!(file, store(&[&written]));
        let found = vuyhanip::bags(&file).unwrap();
        assert_eq!((found.len(), found[0].kind, found[0].value), (1, given.kind, given.value));
        assert_eq!((found[0].friendly_name, found[0].local_key_id), (given.friendly_name, given.local_key_id));
        let again = BagGiven::from(&found[0]);
        assert_eq!((again.identifier, again.attributes), (given.identifier, Some(&all[..])));
        assert_eq!(vuyhanip::build_bags(&[again]), Ok(built));
    }
    assert_eq!(vuyhanip::build_bags(&[]), Ok(vec![0x30, 0]));
    assert_eq!(store_of(&[0x30, 0]), store(&[]));
}

/// In the order of X.690, 11.6, each as often as it is given, with its values in their order.
#[test]
fn attributes_are_written_in_order() {
    let (name, key_id) = (name_attribute(NAME), attribute(LOCAL_KEY_ID, &[&[4, 1, 9]]));
    let (short, two) = (attribute(&BARE[2..], &[&[5, 0]]), attribute(&BARE[2..], &[&[5, 0], &[2, 1, 1]]));
    let long = attribute(&[6, 3, 0x2A, 3, 1], &[&element(4, &[&[7; 200]])]);
    let given_set = element(0x31, &[&long, &name, &short, &two, &key_id, &short, &name]);
    let mut given = BagGiven::new(BagKind::Key, ELEMENT);
    given.attributes = Some(&given_set);
    let set = |all: &[&[u8]]| element(0x30, &[&bag(KEY_BAG, ELEMENT, &element(0x31, all))]);
    assert_eq!(vuyhanip::build_bags(&[given]), Ok(set(&[&short, &short, &two, &long])));
    given.local_key_id = Some(&[]);
    let empty = attribute(LOCAL_KEY_ID, &[&[4, 0]]);
    assert_eq!(vuyhanip::build_bags(&[given]), Ok(set(&[&short, &short, &two, &empty, &long])));
    given.friendly_name = Some(&[]);
    let unnamed = name_attribute(&[]);
    assert_eq!(vuyhanip::build_bags(&[given]), Ok(set(&[&short, &short, &two, &unnamed, &empty, &long])));
    // no empty set is written
    for octets in [vec![0x31, 0], element(0x31, &[&name, &key_id])] {
        let mut given = BagGiven::new(BagKind::Key, ELEMENT);
        given.attributes = Some(&octets);
        assert_eq!(vuyhanip::build_bags(&[given]), Ok(element(0x30, &[&bag(KEY_BAG, ELEMENT, &[])])));
    }
}

/// Of the file, as it is, and with another name.
#[test]
fn a_listed_store_is_built_again() {
    let found = vuyhanip::bags(STORE).unwrap();
    let mut key = BagGiven::from(&found[1]);
    let bags = vuyhanip::build_bags(&[key]).unwrap();
    assert_eq!(bags, &STORE[671..943]);
    let store = Store::new(&[ContentGiven::Info(found[0].element), ContentGiven::Data(&bags)]).unwrap();
    assert_eq!(store.covered(), &STORE[30..943]);
    let mac = MacGiven::new(SHA256, &STORE[964..996], &STORE[998..1006], 2048);
    assert_eq!(store.finish(Some(&mac)).as_deref(), Ok(STORE));
    let name = vuyhanip::text_utf16("schlüssel 🔑").unwrap();
    key.friendly_name = Some(&name);
    let renamed = store_of(&vuyhanip::build_bags(&[key]).unwrap());
    let renamed = vuyhanip::bags(&renamed).unwrap()[0];
    assert_eq!((renamed.name().as_deref(), renamed.local_key_id), (Some("schlüssel 🔑"), found[1].local_key_id));
    assert_eq!((renamed.kind, renamed.value), (found[1].kind, found[1].value));
    // it has no set without them
    key.friendly_name = None;
    key.local_key_id = None;
    let bare = vuyhanip::build_bags(&[key]);
    assert_eq!(bare, Ok(element(0x30, &[&bag(SHROUDED_KEY_BAG, found[1].value, &[])])));
}

/// RFC 2985, 5.5.1, has a BMPString: "pfx" refuses surrogates in it.
#[test]
fn names_past_u_ffff_are_written() {
    for (text, is_pfx) in [("", true), ("日本", true), ("\u{FFFF}", true), ("😀", false), ("a\u{10FFFF}", false)] {
        let name = vuyhanip::text_utf16(text).unwrap();
        let mut given = BagGiven::new(BagKind::Certificate, ELEMENT);
        given.friendly_name = Some(&name);
        let file = store_of(&vuyhanip::build_bags(&[given]).unwrap());
        assert_eq!(vuyhanip::bags(&file).unwrap()[0].name().as_deref(), Some(text));
        assert_eq!(vuyhanip::check("pfx", &file).is_ok(), is_pfx);
        assert!(vuyhanip::check("rawpfx", &file).unwrap().is_normal);
    }
}

/// A bag that can be written, the part of it that is made wrong, and how.
type WrongBag = (BagPart, BagGiven<'static>, fn(&mut BagGiven<'static>));

/// Each but a local key identifier, which may be any octets.
#[test]
fn a_part_of_a_bag_that_is_wrong_is_named() {
    let [(key, ..), (shrouded, ..), (certificate, ..), (crl, ..), (secret, ..), (safe, ..), (other, ..)] = each_kind();
    let wrong: [WrongBag; 31] = [
        (BagPart::Kind, key, |it| it.kind = BagKind::Unread),
        (BagPart::Kind, certificate, |it| it.kind = BagKind::OtherCertificate),
        (BagPart::Kind, crl, |it| it.kind = BagKind::OtherCrl),
        (BagPart::Identifier, other, |it| it.identifier = None),
        (BagPart::Identifier, other, |it| it.identifier = Some(&[])),
        (BagPart::Identifier, other, |it| it.identifier = NEITHER),
        (BagPart::Identifier, key, |it| it.kind = BagKind::Other),
        // those of other kinds
        (BagPart::Identifier, other, |it| it.identifier = Some(&KEY_BAG[2..])),
        (BagPart::Identifier, other, |it| it.identifier = Some(&SHROUDED_KEY_BAG[2..])),
        (BagPart::Identifier, other, |it| it.identifier = Some(&CERTIFICATE_BAG[2..])),
        (BagPart::Identifier, other, |it| it.identifier = Some(&CRL_BAG[2..])),
        (BagPart::Identifier, other, |it| it.identifier = Some(&SECRET_BAG[2..])),
        (BagPart::Identifier, other, |it| it.identifier = Some(&SAFE_CONTENTS_BAG[2..])),
        // none, one that is cut, and two
        (BagPart::Value, key, |it| it.value = &[]),
        (BagPart::Value, certificate, |it| it.value = &[4, 1]),
        (BagPart::Value, crl, |it| it.value = &[5, 0, 5, 0]),
        (BagPart::Value, other, |it| it.value = &[0x80]),
        // an element that isn't what the kind holds
        (BagPart::Value, shrouded, |it| it.value = ELEMENT),
        (BagPart::Value, shrouded, |it| it.value = SECRET),
        (BagPart::Value, secret, |it| it.value = ENCRYPTED_KEY),
        (BagPart::Value, secret, |it| it.value = &[0x30, 5, 6, 3, 0x2A, 3, 4]),
        (BagPart::Value, safe, |it| it.value = &[0x31, 0]),
        (BagPart::Value, safe, |it| it.value = &[0x30, 2, 0x30, 0]),
        // an odd number of octets, and half a surrogate
        (BagPart::FriendlyName, key, |it| it.friendly_name = Some(&[0])),
        (BagPart::FriendlyName, shrouded, |it| it.friendly_name = Some(&[0xD8, 0, 0, 0x41])),
        (BagPart::Attributes, key, |it| it.attributes = Some(&[])),
        (BagPart::Attributes, safe, |it| it.attributes = Some(&[0x30, 0])),
        (BagPart::Attributes, secret, |it| it.attributes = Some(&[0x31, 2, 5, 0])),
        (BagPart::Attributes, crl, |it| it.attributes = Some(&[0x31, 0, 0x31, 0])),
        // several parts
        (BagPart::Kind, other, |it| {
            (it.kind, it.identifier, it.value) = (BagKind::Unread, NEITHER, &[]);
        }),
        (BagPart::FriendlyName, key, |it| (it.friendly_name, it.attributes) = (NEITHER, NEITHER)),
    ];
    for (part, given, change) in wrong {
        let (mut bags, mut bad) = (vec![key, given, certificate, given], given);
        assert!(vuyhanip::build_bags(&bags).is_ok());
        change(&mut bad);
        // the last one alone, and then the first of two
        for index in [3, 1] {
            bags[index] = bad;
            assert_eq!(vuyhanip::build_bags(&bags), Err(BuildBagsError::Refused { bag: index, part }));
        }
    }
    let said = BuildBagsError::Refused { bag: 3, part: BagPart::FriendlyName }.to_string();
    assert_eq!(said, "refused: friendly name of bag 3");
    assert_eq!(BuildBagsError::TooLong.to_string(), "too long");
}

/// What a kind doesn't have may be anything.
#[test]
fn identifiers_of_known_kinds_are_not_looked_at() {
    for (mut given, oid, held) in each_kind().into_iter().take(6) {
        for identifier in [NEITHER, Some(&KEY_BAG[2..])] {
            given.identifier = identifier;
            assert_eq!(vuyhanip::build_bags(&[given]), Ok(element(0x30, &[&bag(oid, &held, &[])])));
        }
    }
}

/// Up to 64 bags around one.
#[test]
fn bags_in_bags_have_levels() {
    let held_by = |bags: &[u8]| vuyhanip::build_bags(&[BagGiven::new(BagKind::SafeContents, bags)]);
    let mut bags = vuyhanip::build_bags(&[BagGiven::new(BagKind::Key, ELEMENT)]).unwrap();
    for _ in 0..64 {
        bags = held_by(&bags).unwrap();
    }
    let file = store_of(&bags);
    let found = vuyhanip::bags(&file).unwrap();
    assert!(found.iter().map(|it| it.level).eq(0..65));
    assert_eq!((found[64].kind, found[64].value), (BagKind::Key, ELEMENT));
    assert_eq!(vuyhanip::build_bags(&[BagGiven::from(&found[0])]), Ok(bags.clone()));
    let refused = BuildBagsError::Refused { bag: 0, part: BagPart::Value };
    assert_eq!(held_by(&bags), Err(refused));
    let deeper = element(0x30, &[&bag(SAFE_CONTENTS_BAG, &bags, &[])]);
    assert_eq!(vuyhanip::build_safe(&[ContentGiven::Data(&deeper)]), Err(BuildSafeError::Refused { content: 0 }));
    // what other bags in it hold isn't looked at
    let unread = element(0x30, &[&bag(SHROUDED_KEY_BAG, ELEMENT, &[])]);
    assert_eq!(held_by(&unread), Ok(element(0x30, &[&bag(SAFE_CONTENTS_BAG, &unread, &[])])));
}

/// Also where there are more than a reading has room for at first.
#[test]
fn many_bags_are_built() {
    let kinds = [BagKind::Key, BagKind::Certificate, BagKind::Crl];
    let name = |number: usize| vuyhanip::text_utf16(&format!("bag {number}")).unwrap();
    let parts: Vec<_> = (0..1000usize).map(|number| (element(2, &[&number.to_be_bytes()]), name(number))).collect();
    for count in [1, 64, 65, 1000] {
        let mut bags = Vec::new();
        for (number, (value, name)) in parts[..count].iter().enumerate() {
            let mut given = BagGiven::new(kinds[number % 3], value);
            given.friendly_name = Some(name);
            bags.push(given);
        }
        let file = store_of(&vuyhanip::build_bags(&bags).unwrap());
        let found = vuyhanip::bags(&file).unwrap();
        let of_found = found.iter().map(|it| (it.kind, it.value, it.friendly_name));
        assert!(of_found.eq(bags.iter().map(|it| (it.kind, it.value, it.friendly_name))));
    }
}

/// A ContentInfo of data.
fn data(octets: &[u8]) -> Vec<u8> {
    element(0x30, &[DATA, &element(0xA0, &[&element(4, &[octets])])])
}

/// In clear and not, and one without content.
#[test]
fn contents_are_built_in_their_order() {
    let given = PasswordParameters::pbes2(&WITH_VECTOR[4..7], &[5, 6], &[7, 8], 9, None);
    let encrypted = vuyhanip::build_parameters(PasswordHolder::Contents, &given).unwrap();
    let bags = vuyhanip::build_bags(&each_kind().map(|(given, ..)| given)).unwrap();
    let contents = [
        ContentGiven::Info(&encrypted),
        ContentGiven::Data(&bags),
        ContentGiven::Info(BARE),
        ContentGiven::Data(&[0x30, 0]),
        ContentGiven::Info(ENVELOPE),
    ];
    let wanted = element(0x30, &[&encrypted, &data(&bags), BARE, &data(&[0x30, 0]), ENVELOPE]);
    assert_eq!(vuyhanip::build_safe(&contents).as_ref(), Ok(&wanted));
    let store = Store::new(&contents).unwrap();
    assert_eq!(store.covered(), wanted);
    let file = store.finish(None).unwrap();
    assert_eq!(vuyhanip::mac_range(&file).unwrap().map(|it| &file[it]), Some(&wanted[..]));
    let kinds: Vec<_> = vuyhanip::bags(&file).unwrap().iter().map(|it| it.kind).collect();
    assert_eq!(kinds.iter().filter(|kind| **kind == BagKind::Unread).count(), 3);
    assert_eq!((kinds[0], kinds[1], kinds.len()), (BagKind::Unread, BagKind::Key, 10));
    assert_eq!(vuyhanip::build_safe(&[]), Ok(vec![0x30, 0]));
}

/// No SafeContents, no ContentInfo, and one of data.
#[test]
fn a_content_that_is_wrong_is_named() {
    let (good, of_data) = ([ContentGiven::Data(&[0x30, 0]), ContentGiven::Info(BARE)], data(&[0x30, 0]));
    for wrong in [
        ContentGiven::Data(&[]),
        ContentGiven::Data(&[5, 0]),
        ContentGiven::Data(&[0x30, 1]),
        ContentGiven::Data(&[0x30, 0, 0x30, 0]),
        ContentGiven::Data(&of_data),
        ContentGiven::Info(&[]),
        ContentGiven::Info(&[0x30, 0]),
        ContentGiven::Info(&[5, 0]),
        ContentGiven::Info(&of_data),
        ContentGiven::Info(&of_data[..of_data.len() - 1]),
    ] {
        let mut contents = [good[0], good[1], good[0], good[1]];
        assert!(vuyhanip::build_safe(&contents).is_ok());
        for index in [3, 1] {
            contents[index] = wrong;
            let refused = BuildSafeError::Refused { content: index };
            assert_eq!((vuyhanip::build_safe(&contents), Store::new(&contents).err()), (Err(refused), Some(refused)));
        }
    }
    assert_eq!(BuildSafeError::Refused { content: 2 }.to_string(), "refused: content 2");
    assert_eq!(BuildSafeError::Unknown(99).to_string(), "unknown status 99");
}

/// By hand, over no contents: a digest algorithm, and a salt with what follows it.
fn with_mac(algorithm: &[&[u8]], salt_and_count: &[&[u8]]) -> Vec<u8> {
    let digest = element(0x30, &[&element(0x30, algorithm), &[4, 2, 7, 8]]);
    let mac = element(0x30, &[&digest, &salt_and_count.concat()]);
    element(0x30, &[&[2, 1, 3], &data(&[0x30, 0]), &mac])
}

/// With counts at their ends, of which 1 is the default, and with a salt and a digest of any length.
#[test]
fn a_store_with_a_mac_reads_back() {
    let counts: [(usize, &[u8]); 5] =
        [(0, &[2, 1, 0]), (1, &[]), (2, &[2, 1, 2]), (2048, &[2, 2, 8, 0]), (0xFFFF_FFFF, GREATEST)];
    let sha256 = element(6, &[SHA256]);
    for (iterations, count) in counts {
        let file = vuyhanip::build_store(&[0x30, 0], Some(&MacGiven::new(SHA256, &[7, 8], &[9], iterations))).unwrap();
        assert_eq!(file, with_mac(&[&sha256, &[5, 0]], &[&[4, 1, 9], count]));
        assert!(vuyhanip::check("pfx", &file).unwrap().is_normal);
        let mac = vuyhanip::mac(&file).unwrap().unwrap();
        assert_eq!((&file[mac.covered], mac.iterations), (&[0x30, 0][..], iterations));
        assert_eq!((mac.digest_algorithm.as_slice(), mac.digest.as_slice()), (SHA256, &[7, 8][..]));
        assert_eq!(mac.salt, [9]);
    }
    for octets in [&[][..], &[6; 300]] {
        let file = vuyhanip::build_store(&[0x30, 0], Some(&MacGiven::new(SHA256, octets, octets, 9))).unwrap();
        let mac = vuyhanip::mac(&file).unwrap().unwrap();
        assert_eq!((mac.digest.as_slice(), mac.salt.as_slice()), (octets, octets));
    }
    let bare = vuyhanip::build_store(&[0x30, 0], None).unwrap();
    assert_eq!((vuyhanip::mac(&bare), vuyhanip::mac_range(&bare)), (Ok(None), Ok(Some(bare.len() - 2..bare.len()))));
}

/// An algorithm that isn't known has its own, and NULL where it has none.
#[test]
fn parameters_of_a_digest_algorithm() {
    for (oid, parameters, written) in [
        (&BARE[4..], None, &[5, 0][..]),
        (&BARE[4..], Some(ENCRYPTED_KEY), ENCRYPTED_KEY),
        (SHA256, None, &[5, 0]),
        (SHA256, Some(ENCRYPTED_KEY), &[5, 0]),
    ] {
        let mut mac = MacGiven::new(oid, &[7, 8], &[9], 1);
        mac.digest_parameters = parameters;
        let file = vuyhanip::build_store(&[0x30, 0], Some(&mac));
        assert_eq!(file, Ok(with_mac(&[&element(6, &[oid]), written], &[&[4, 1, 9]])));
    }
}

/// A part, and what makes it wrong in a MAC that can be written.
type WrongMac = (StorePart, fn(&mut MacGiven<'static>));

/// Each but the MAC and its salt, which may be any octets.
#[test]
fn a_part_of_a_store_that_is_wrong_is_named() {
    let mac = MacGiven::new(SHA256, &[7, 8], &[9], 2048);
    for safe in [&[][..], &[5, 0], &[0x30, 1], &[0x30, 0, 5, 0], &[0x30, 2, 5, 0]] {
        for mac in [None, Some(&mac), Some(&MacGiven::new(&[], &[], &[], usize::MAX))] {
            assert_eq!(vuyhanip::build_store(safe, mac), Err(BuildStoreError::Refused(StorePart::Safe)));
        }
    }
    let wrong: [WrongMac; 8] = [
        (StorePart::DigestAlgorithm, |it| it.digest_algorithm = &[]),
        (StorePart::DigestAlgorithm, |it| it.digest_algorithm = &[0x2A, 0x83]),
        (StorePart::DigestParameters, |it| it.digest_parameters = Some(&[])),
        (StorePart::DigestParameters, |it| it.digest_parameters = Some(&[4, 1])),
        (StorePart::DigestParameters, |it| it.digest_parameters = Some(&[5, 0, 5, 0])),
        (StorePart::Iterations, |it| it.iterations = 1 << 32),
        (StorePart::Iterations, |it| it.iterations = usize::MAX),
        (StorePart::DigestAlgorithm, |it| {
            (it.digest_algorithm, it.digest_parameters, it.iterations) = (&[], NEITHER, usize::MAX);
        }),
    ];
    let store = Store::new(&[]).unwrap();
    for (part, change) in wrong {
        let mut bad = mac;
        change(&mut bad);
        assert_eq!(store.finish(Some(&bad)), Err(BuildStoreError::Refused(part)));
    }
    assert!(store.finish(Some(&mac)).is_ok());
    assert_eq!(BuildStoreError::Refused(StorePart::DigestAlgorithm).to_string(), "refused: digest algorithm");
    assert_eq!(BuildStoreError::NoMemory.to_string(), "no memory");
}

/// Of the files: their three, and S/MIME capabilities.
#[test]
fn attributes_of_files_are_built() {
    let capabilities = element(0x31, &[&TWO_SIGNERS[722..845]]);
    for (file, time, further) in [
        (SIGNED, "20261126042149Z", None),
        (BY_KEY, "20261127151847Z", None),
        (TWO_SIGNERS, "20261130180037Z", Some(&capabilities[..])),
    ] {
        let digest = vuyhanip::signers(file).unwrap()[0].unwrap().message_digest.unwrap();
        let mut given = AttributesGiven::new(&DATA[2..], digest);
        given.signing_time = Some(time);
        given.attributes = further;
        assert_eq!(build_attributes(&given).ok(), vuyhanip::part(Part::SignedAttributes, 0, file).unwrap());
    }
}

/// What gives attributes, and those that are written.
type Written = (fn(&mut AttributesGiven<'static>), Vec<Vec<u8>>);

/// In the order of X.690, 11.6.
#[test]
fn each_attribute_is_built() {
    let content_type = attribute(CONTENT_TYPE, &[DATA]);
    let (digest, empty) = (attribute(MESSAGE_DIGEST, &[&[4, 2, 7, 8]]), attribute(MESSAGE_DIGEST, &[&[4, 0]]));
    let time = attribute(SIGNING_TIME, &[b"\x17\x0D260102030405Z"]);
    let further = attribute(&BARE[2..], &[&[5, 0]]);
    let written: [Written; 8] = [
        (|_| (), vec![]),
        (|it| it.content_type = Some(&DATA[2..]), vec![content_type.clone()]),
        (|it| it.message_digest = Some(&[7, 8]), vec![digest.clone()]),
        (|it| it.message_digest = Some(&[]), vec![empty]),
        (|it| it.signing_time = Some("20260102030405Z"), vec![time.clone()]),
        (|it| it.attributes = Some(&[0x31, 0]), vec![]),
        (|it| it.attributes = Some(FURTHER), vec![further.clone()]),
        (
            |it| {
                *it = AttributesGiven::new(&DATA[2..], &[7, 8]);
                (it.signing_time, it.attributes) = (Some("20260102030405Z"), Some(FURTHER));
            },
            vec![further, digest, content_type, time],
        ),
    ];
    for (give, attributes) in written {
        let mut given = AttributesGiven::default();
        give(&mut given);
        assert_eq!(build_attributes(&given), Ok(element(0x31, &[&attributes.concat()])));
    }
}

/// RFC 5652, 11.3: UTCTime has two digits of the year.
#[test]
fn times_of_signing_are_of_two_types() {
    for (time, tag, written) in [
        ("19500101000000Z", 0x17, "500101000000Z"),
        ("19991231235959Z", 0x17, "991231235959Z"),
        ("20000229123456Z", 0x17, "000229123456Z"),
        ("20491231235959Z", 0x17, "491231235959Z"),
        ("00000101000000Z", 0x18, "00000101000000Z"),
        ("19491231235959Z", 0x18, "19491231235959Z"),
        ("20500101000000Z", 0x18, "20500101000000Z"),
        ("99991231235959Z", 0x18, "99991231235959Z"),
    ] {
        let mut given = AttributesGiven::default();
        given.signing_time = Some(time);
        let wanted = attribute(SIGNING_TIME, &[&element(tag, &[written.as_bytes()])]);
        assert_eq!(build_attributes(&given), Ok(element(0x31, &[&wanted])));
    }
}

/// Each as often as it is given, with its values in their order, but for those of the three types.
#[test]
fn further_attributes_are_put_in_order() {
    let types = [CONTENT_TYPE, MESSAGE_DIGEST, SIGNING_TIME].map(|oid| attribute(oid, &[&[5, 0], &[5, 0]]));
    let (short, two) = (attribute(&BARE[2..], &[&[5, 0]]), attribute(&BARE[2..], &[&[5, 0], &[2, 1, 1]]));
    let long = attribute(&[6, 3, 0x2A, 3, 1], &[&element(4, &[&[7; 200]])]);
    let set = element(0x31, &[&types[0], &long, &short, &types[1], &two, &types[2], &short]);
    let mut given = AttributesGiven::default();
    given.attributes = Some(&set);
    assert_eq!(build_attributes(&given), Ok(element(0x31, &[&short, &short, &two, &long])));
    given.content_type = Some(&BARE[4..]);
    let its = attribute(CONTENT_TYPE, &[&BARE[2..]]);
    assert_eq!(build_attributes(&given), Ok(element(0x31, &[&short, &short, &two, &its, &long])));
}

/// A part, and what makes it wrong in attributes that can be written.
type WrongAttributes = (AttributesPart, fn(&mut AttributesGiven<'static>));

/// Each but a digest, which may be any octets.
#[test]
fn a_part_of_attributes_that_is_wrong_is_named() {
    let wrong: [WrongAttributes; 20] = [
        (AttributesPart::ContentType, |it| it.content_type = Some(&[])),
        (AttributesPart::ContentType, |it| it.content_type = NEITHER),
        (AttributesPart::ContentType, |it| it.content_type = Some(&[0x2A, 0x83])),
        // other lengths, other forms, and a character of two octets
        (AttributesPart::SigningTime, |it| it.signing_time = Some("")),
        (AttributesPart::SigningTime, |it| it.signing_time = Some("260102030405Z")),
        (AttributesPart::SigningTime, |it| it.signing_time = Some("20260102030405")),
        (AttributesPart::SigningTime, |it| it.signing_time = Some("20260102030405Z ")),
        (AttributesPart::SigningTime, |it| it.signing_time = Some("20260102030405z")),
        (AttributesPart::SigningTime, |it| it.signing_time = Some("2026010203040é")),
        // no such second
        (AttributesPart::SigningTime, |it| it.signing_time = Some("20261302030405Z")),
        (AttributesPart::SigningTime, |it| it.signing_time = Some("20260102240405Z")),
        (AttributesPart::SigningTime, |it| it.signing_time = Some("20260102036005Z")),
        (AttributesPart::SigningTime, |it| it.signing_time = Some("20260102030460Z")),
        (AttributesPart::SigningTime, |it| it.signing_time = Some("20260229030405Z")),
        (AttributesPart::SigningTime, |it| it.signing_time = Some("19000229030405Z")),
        (AttributesPart::Attributes, |it| it.attributes = Some(&[])),
        (AttributesPart::Attributes, |it| it.attributes = Some(&[0xA0, 0])),
        (AttributesPart::Attributes, |it| it.attributes = Some(&[0x31, 1])),
        (AttributesPart::Attributes, |it| it.attributes = Some(&[0x31, 2, 5, 0])),
        (AttributesPart::Attributes, |it| it.attributes = Some(&[0x31, 0, 0x31, 0])),
    ];
    let mut good = AttributesGiven::new(&DATA[2..], &[7, 8]);
    (good.signing_time, good.attributes) = (Some("20240229235959Z"), Some(FURTHER));
    assert!(build_attributes(&good).is_ok());
    for (part, change) in wrong {
        for mut given in [good, AttributesGiven::default()] {
            change(&mut given);
            assert_eq!(build_attributes(&given), Err(BuildAttributesError::Refused(part)));
        }
    }
    let said = BuildAttributesError::Refused(AttributesPart::SigningTime).to_string();
    assert_eq!(said, "refused: signing time");
    assert_eq!(BuildAttributesError::TooLong.to_string(), "too long");
}

/// An algorithm without parameters, by its object identifier.
fn algorithm(oid: &str) -> Result<Vec<u8>, Box<dyn std::error::Error>> {
    algorithm_with(oid, None)
}

/// An algorithm with these parameters.
fn algorithm_with(oid: &str, parameters: Option<&[u8]>) -> Result<Vec<u8>, Box<dyn std::error::Error>> {
    let oid = oid_octets(oid)?;
    Ok(build_parameters(PasswordHolder::Algorithm, &PasswordParameters::other(&oid, parameters))?)
}

/// Signed data of one signer, whose certificate is the first of the chain. The digest is the content's, by SHA-256.
fn signed_file(
    content: &[u8],
    digest: &[u8],
    time: &str,
    chain: &[&[u8]],
    sign: impl Fn(&[u8]) -> Vec<u8>,
) -> Result<Vec<u8>, Box<dyn std::error::Error>> {
    let data = oid_octets("1.2.840.113549.1.7.1")?;
    let mut attributes = AttributesGiven::new(&data, digest);
    attributes.signing_time = Some(time);
    let covered = build_attributes(&attributes)?;
    let signature = sign(&covered);
    let (sha256, ecdsa) = (algorithm("2.16.840.1.101.3.4.2.1")?, algorithm("1.2.840.10045.4.3.2")?);
    let mut signer = SignerGiven::new(SignerName::Certificate(chain[0]), &sha256, &ecdsa, &signature);
    signer.signed_attributes = Some(&covered);
    let mut signed = Signed::new(&data);
    signed.content(content).signer(signer);
    for certificate in chain {
        signed.certificate(certificate);
    }
    Ok(signed.finish()?)
}

/// What openssl signed, and the file around its signature.
#[test]
fn a_file_is_built_around_a_signature() {
    let sign = |covered: &[u8]| {
        assert_eq!(covered, [&[0x31], &SIGNED[685..791]].concat());
        SIGNED[805..876].to_vec()
    };
    let chain = [&SIGNED[74..357], &SIGNED[357..643]];
    let built = signed_file(b"hello, world", &SIGNED[759..791], "20261126042149Z", &chain, sign);
    assert_eq!(built.unwrap(), SIGNED);
}

/// Of what is listed of each, added from the last to the first.
#[test]
fn signed_files_are_built_again() {
    for file in [SIGNED, BY_KEY, TWO_SIGNERS, TWO_DIGESTS] {
        let found: Vec<_> = vuyhanip::signers(file).unwrap().into_iter().map(Result::unwrap).collect();
        let covered: Vec<_> = found.iter().map(|it| it.covered(b"")).collect();
        let key = |index| vuyhanip::part(Part::KeyIdentifier, index, file).unwrap();
        let keys: Vec<_> = (0..found.len()).map(key).collect();
        let mut signed = Signed::new(&DATA[2..]);
        for (index, it) in found.iter().enumerate().rev() {
            let by_certificate = || SignerName::Certificate(it.certificate.unwrap());
            let name = keys[index].as_deref().map_or_else(by_certificate, SignerName::KeyIdentifier);
            let mut given = SignerGiven::new(name, it.digest_algorithm, it.signature_algorithm, it.signature);
            given.signed_attributes = it.message_digest.map(|_| &*covered[index]);
            signed.signer(given);
        }
        for certificate in vuyhanip::certificates(file).unwrap().into_iter().rev() {
            signed.certificate(certificate);
        }
        if let Some(content) = found[0].content {
            signed.content(content);
        }
        assert_eq!(signed.finish().as_deref(), Ok(file));
    }
}

/// Signed data by hand: its version, its digest algorithms, its content with the type, and what follows.
fn signed_data(version: u8, algorithms: &[&[u8]], content: &[&[u8]], after: &[&[u8]]) -> Vec<u8> {
    let parts: [&[u8]; 4] = [&[2, 1, version], &element(0x31, algorithms), &element(0x30, content), &after.concat()];
    element(0x30, &[&DETACHED[2..13], &element(0xA0, &[&element(0x30, &parts)])])
}

/// In the order of DER, also where one is added twice; and nothing.
#[test]
fn certificates_and_revocation_lists_are_built_alone() {
    let (first, second, crl) = (&LISTS[45..418], &LISTS[418..928], &LISTS[931..1100]);
    let mut signed = Signed::new(&DATA[2..]);
    assert_eq!(signed.finish(), Ok(signed_data(1, &[], &[DATA], &[&[0x31, 0]])));
    signed.certificate(second).crl(crl).certificate(first);
    assert_eq!(signed.finish().as_deref(), Ok(LISTS));
    let built = signed.certificate(second).crl(&[0x30, 0]).crl(crl).finish();
    let (certificates, crls) = (element(0xA0, &[first, second, second]), element(0xA1, &[&[0x30, 0], crl, crl]));
    assert_eq!(built, Ok(signed_data(1, &[], &[DATA], &[&certificates, &crls, &[0x31, 0]])));
}

/// What names a signer, the version of the signer and of the whole, and the name as it is written.
fn each_name() -> [(SignerName<'static>, u8, Vec<u8>); 3] {
    [
        (SignerName::Certificate(&SIGNED[74..357]), 1, element(0x30, &[&SIGNED[101..115], &SIGNED[86..89]])),
        (SignerName::KeyIdentifier(&[9]), 3, vec![0x80, 1, 9]),
        (SignerName::KeyIdentifier(&[]), 3, vec![0x80, 0]),
    ]
}

/// Signed attributes that have to be there, in another order than that of DER.
fn signed_set(content_type: &[u8]) -> Vec<u8> {
    let digest = attribute(MESSAGE_DIGEST, &[&[4, 2, 7, 8]]);
    element(0x31, &[&attribute(CONTENT_TYPE, &[content_type]), &digest])
}

/// A set of attributes as a signer has it, under another tag, or nothing.
fn tagged(tag: u8, set: Option<&[u8]>) -> Vec<u8> {
    set.map_or(vec![], |octets| [&[tag], &octets[1..]].concat())
}

/// A signer by hand: its version, its name, its digest algorithm, and its attributes.
fn signer(version: u8, name: &[u8], algorithm: &[u8], signed: Option<&[u8]>, unsigned: Option<&[u8]>) -> Vec<u8> {
    let (before, after) = (tagged(0xA0, signed), tagged(0xA1, unsigned));
    element(0x30, &[&[2, 1, version], name, algorithm, &before, WITH_VECTOR, &[4, 1, 7], &after])
}

/// With and without both sets of attributes, whose order stays.
#[test]
fn each_form_of_a_signer_is_built() {
    let (short, long) = (attribute(&BARE[2..], &[&[5, 0]]), attribute(&BARE[2..], &[&[5, 0], &[2, 1, 1]]));
    let (set, unsigned_set) = (signed_set(DATA), element(0x31, &[&long, &short]));
    let content = element(0xA0, &[&[4, 2, 5, 6]]);
    let (both, without) = ([&set[..], &unsigned_set[..]].map(Some), [None, None]);
    for (name, version, written) in each_name() {
        for [signed, unsigned] in [without, [both[0], None], [None, both[1]], both] {
            let mut given = SignerGiven::new(name, WITH_NULL, WITH_VECTOR, &[7]);
            (given.signed_attributes, given.unsigned_attributes) = (signed, unsigned);
            let built = Signed::new(&DATA[2..]).content(&[5, 6]).signer(given).finish().unwrap();
            let signers = element(0x31, &[&signer(version, &written, WITH_NULL, signed, unsigned)]);
            assert_eq!(built, signed_data(version, &[WITH_NULL], &[DATA, &content], &[&signers]));
            let found = vuyhanip::signers(&built).unwrap()[0].unwrap();
            assert_eq!((found.digest_algorithm, found.signature_algorithm), (WITH_NULL, WITH_VECTOR));
            assert_eq!((found.signature, found.message_digest), (&[7][..], signed.map(|_| &[7, 8][..])));
            assert_eq!(found.covered(&[5, 6]).as_ref(), signed.unwrap_or(&[5, 6]));
            let others = vuyhanip::attributes(&built, 0, false).unwrap().unwrap();
            assert_eq!(others, unsigned.map_or(vec![], |_| vec![&long[..], &short]));
        }
    }
}

/// Of the lists RFC 5652, 5.1, asks for another version by their tags alone.
#[test]
fn versions_are_those_of_certificates_and_lists() {
    for (version, certificates, crls) in [
        (1, &[0x30][..], &[0x30][..]),
        (1, &[0x30, 0xA0], &[]),
        (3, &[0x30, 0xA1], &[0x30]),
        (4, &[0xA0, 0xA1, 0xA2], &[]),
        (5, &[0xA1, 0xA2, 0xA3], &[0x30]),
        (5, &[0xA3], &[]),
        (5, &[], &[0xA1]),
        (5, &[0xA2], &[0x30, 0xA1]),
    ] {
        let of_tags = |tags: &[u8]| -> Vec<_> { tags.iter().map(|tag| [*tag, 0]).collect() };
        let (certificates, crls) = (of_tags(certificates), of_tags(crls));
        let mut signed = Signed::new(&DATA[2..]);
        for it in certificates.iter().rev() {
            signed.certificate(it);
        }
        for it in crls.iter().rev() {
            signed.crl(it);
        }
        let set = |tag, all: &[[u8; 2]]| if all.is_empty() { vec![] } else { element(tag, &[&all.concat()]) };
        let after: [&[u8]; 3] = [&set(0xA0, &certificates), &set(0xA1, &crls), &[0x31, 0]];
        assert_eq!(signed.finish(), Ok(signed_data(version, &[], &[DATA], &after)));
    }
}

/// Octets, an element, how either is written, and the version with another type than id-data and a signer of version 1.
type OfContent = (Option<&'static [u8]>, Option<&'static [u8]>, &'static [u8], u8);

/// Another type than id-data raises the version (RFC 5652, 5.1), but not of content of PKCS #7 (RFC 2315, 9.1).
#[test]
fn content_is_octets_or_an_element_or_elsewhere() {
    let forms: [OfContent; 5] = [
        (None, None, &[], 3),
        (Some(&[]), None, &[0xA0, 2, 4, 0], 3),
        (Some(&[5, 6]), None, &[0xA0, 4, 4, 2, 5, 6], 3),
        (None, Some(&[4, 2, 5, 6]), &[0xA0, 4, 4, 2, 5, 6], 3),
        (None, Some(&[0x30, 2, 5, 0]), &[0xA0, 4, 0x30, 2, 5, 0], 1),
    ];
    for (octets, other, content, version_of_other) in forms {
        for (content_type, version) in [(DATA, 1), (&BARE[2..], version_of_other)] {
            let set = signed_set(content_type);
            for (name, its, written) in each_name() {
                let mut given = SignerGiven::new(name, BARE, WITH_VECTOR, &[7]);
                given.signed_attributes = Some(&set);
                let mut signed = Signed::new(&content_type[2..]);
                signed.signer(given);
                if let Some(octets) = octets {
                    signed.content(octets);
                }
                if let Some(other) = other {
                    signed.element(other);
                }
                let signers = element(0x31, &[&signer(its, &written, BARE, Some(&set), None)]);
                let wanted = signed_data(version.max(its), &[BARE], &[content_type, content], &[&signers]);
                assert_eq!(signed.finish(), Ok(wanted));
            }
        }
    }
}

/// Of both ways to give content the later call counts.
#[test]
fn content_is_given_anew() {
    let given = SignerGiven::new(SignerName::KeyIdentifier(&[9]), BARE, WITH_VECTOR, &[7]);
    let signers = element(0x31, &[&signer(3, &[0x80, 1, 9], BARE, None, None)]);
    let mut signed = Signed::new(&DATA[2..]);
    let built = signed.element(&[5, 0]).signer(given).content(&[8]).finish();
    assert_eq!(built, Ok(signed_data(3, &[BARE], &[DATA, &[0xA0, 3, 4, 1, 8]], &[&signers])));
    let built = signed.element(&[5, 0]).finish();
    assert_eq!(built, Ok(signed_data(3, &[BARE], &[DATA, &[0xA0, 2, 5, 0]], &[&signers])));
}

/// In the order of DER, with each digest algorithm once.
#[test]
fn many_signers_are_built() {
    for count in [1, 2, 17, 400] {
        let keys: Vec<_> = (0..count).map(|number: u16| number.to_be_bytes()).collect();
        let digest = |index| if index % 2 == 0 { BARE } else { WITH_NULL };
        let mut signed = Signed::new(&DATA[2..]);
        let mut signers = Vec::new();
        for (index, key) in keys.iter().enumerate().rev() {
            signed.signer(SignerGiven::new(SignerName::KeyIdentifier(key), digest(index), WITH_VECTOR, &[7]));
            signers.push(signer(3, &element(0x80, &[key]), digest(index), None, None));
        }
        signers.sort();
        let algorithms = if count == 1 { &[BARE][..] } else { &[BARE, WITH_NULL] };
        let set = element(0x31, &[&signers.concat()]);
        assert_eq!(signed.finish(), Ok(signed_data(3, algorithms, &[DATA], &[&set])));
    }
}

/// They are written twice, and so need more room than the parts and their headers.
#[test]
fn parameters_of_a_digest_algorithm_may_be_long() {
    let long = element(0x30, &[&BARE[2..], &element(4, &[&[6; 1000]])]);
    let given = SignerGiven::new(SignerName::KeyIdentifier(&[9]), &long, WITH_VECTOR, &[7]);
    let built = Signed::new(&DATA[2..]).content(&[8]).signer(given).signer(given).finish();
    let one = signer(3, &[0x80, 1, 9], &long, None, None);
    let (content, signers) = ([0xA0, 3, 4, 1, 8], element(0x31, &[&one, &one]));
    assert_eq!(built, Ok(signed_data(3, &[&long], &[DATA, &content], &[&signers])));
}

/// Signed data of these signers.
fn signed_by(signers: &[SignerGiven<'_>]) -> Result<Vec<u8>, BuildSignedError> {
    let mut signed = Signed::new(&DATA[2..]);
    for signer in signers {
        signed.signer(*signer);
    }
    signed.content(&[5, 6]).finish()
}

/// A part of a signer, and what makes it wrong in one that can be written.
type WrongSigner = (SignedPart, fn(&mut SignerGiven<'_>));

/// Each but a signature, which may be any octets, as a key identifier may.
#[test]
fn a_part_of_a_signer_that_is_wrong_is_named() {
    let wrong: [WrongSigner; 23] = [
        (SignedPart::Identifier, |it| it.identifier = SignerName::Certificate(&[])),
        (SignedPart::Identifier, |it| it.identifier = SignerName::Certificate(ELEMENT)),
        (SignedPart::Identifier, |it| it.identifier = SignerName::Certificate(&[0x30, 0])),
        (SignedPart::Identifier, |it| it.identifier = SignerName::Certificate(SIGNED)),
        // one that is cut, and one with an octet more
        (SignedPart::Identifier, |it| it.identifier = SignerName::Certificate(&SIGNED[74..356])),
        (SignedPart::Identifier, |it| it.identifier = SignerName::Certificate(&SIGNED[74..358])),
        (SignedPart::DigestAlgorithm, |it| it.digest_algorithm = &[]),
        (SignedPart::DigestAlgorithm, |it| it.digest_algorithm = &BARE[2..]),
        (SignedPart::DigestAlgorithm, |it| it.digest_algorithm = &[0x30, 0]),
        (SignedPart::DigestAlgorithm, |it| it.digest_algorithm = &[0x30, 2, 5, 0]),
        (SignedPart::SignedAttributes, |it| it.signed_attributes = Some(&[])),
        (SignedPart::SignedAttributes, |it| it.signed_attributes = Some(&[0x31, 0])),
        (SignedPart::SignedAttributes, |it| it.signed_attributes = Some(&[0x31, 2, 5, 0])),
        (SignedPart::SignedAttributes, |it| it.signed_attributes = Some(FURTHER)),
        // as it is in the file
        (SignedPart::SignedAttributes, |it| it.signed_attributes = Some(&SIGNED[684..791])),
        (SignedPart::SignatureAlgorithm, |it| it.signature_algorithm = &[]),
        (SignedPart::SignatureAlgorithm, |it| it.signature_algorithm = &SHA256[1..]),
        (SignedPart::SignatureAlgorithm, |it| it.signature_algorithm = &[0x30, 5, 6, 3, 0x2A, 3, 4, 5, 0]),
        (SignedPart::UnsignedAttributes, |it| it.unsigned_attributes = Some(&[])),
        (SignedPart::UnsignedAttributes, |it| it.unsigned_attributes = Some(&[0x31, 0])),
        (SignedPart::UnsignedAttributes, |it| it.unsigned_attributes = Some(&[0x31, 2, 5, 0])),
        (SignedPart::UnsignedAttributes, |it| it.unsigned_attributes = Some(&[0x30, 0])),
        (SignedPart::UnsignedAttributes, |it| it.unsigned_attributes = Some(&[0x31, 1])),
    ];
    let set = signed_set(DATA);
    let mut good = SignerGiven::new(SignerName::Certificate(&SIGNED[74..357]), BARE, WITH_VECTOR, &[]);
    (good.signed_attributes, good.unsigned_attributes) = (Some(&set[..]), Some(FURTHER));
    assert!(signed_by(&[good; 4]).is_ok());
    for (part, change) in wrong {
        for index in [3, 1] {
            let mut signers = [good; 4];
            change(&mut signers[index]);
            assert_eq!(signed_by(&signers), Err(BuildSignedError::Refused { part, index: Some(index) }));
        }
    }
}

/// RFC 5652, 11.1 to 11.3: the content's type and a digest have to be there, and all three at most once, by one value.
#[test]
fn signed_attributes_that_break_rfc_5652_are_named() {
    let refused = |index| Err(BuildSignedError::Refused { part: SignedPart::SignedAttributes, index: Some(index) });
    let of_type = |values: &[&[u8]]| attribute(CONTENT_TYPE, values);
    let of_digest = |values: &[&[u8]]| attribute(MESSAGE_DIGEST, values);
    let of_time = |values: &[&[u8]]| attribute(SIGNING_TIME, values);
    let (digest, time): (&[u8], &[u8]) = (&[4, 2, 7, 8], b"\x17\x0D260102030405Z");
    let (its, hash, at) = (of_type(&[DATA]), of_digest(&[digest]), of_time(&[time]));
    let mut good = SignerGiven::new(SignerName::KeyIdentifier(&[9]), BARE, WITH_VECTOR, &[7]);
    let all = element(0x31, &[&at, FURTHER_ONE, &hash, FURTHER_ONE, &its]);
    good.signed_attributes = Some(&all);
    assert!(signed_by(&[good; 4]).is_ok());
    for attributes in [
        [&hash, &at, &[][..]],
        [&its, &at, &[]],
        [&its, &hash, &its],
        [&its, &hash, &hash],
        [&of_type(&[]), &hash, &[]],
        [&of_type(&[DATA, DATA]), &hash, &[]],
        [&of_type(&[&BARE[2..]]), &hash, &[]],
        [&of_type(&[&[4, 1, 7]]), &hash, &[]],
        [&its, &of_digest(&[]), &[]],
        [&its, &of_digest(&[digest, digest]), &[]],
        [&its, &of_digest(&[ELEMENT]), &[]],
        [&its, &hash, &[&at[..], &at].concat()],
        [&its, &hash, &of_time(&[])],
        [&its, &hash, &of_time(&[time, time])],
        [&its, &hash, &of_time(&[ELEMENT])],
    ] {
        let set = element(0x31, &attributes);
        for index in [3, 1] {
            let mut signers = [good; 4];
            signers[index].signed_attributes = Some(&set);
            assert_eq!(signed_by(&signers), refused(index));
        }
    }
    // those of data, and none, over another type (5.3)
    for attributes in [Some(&all[..]), None] {
        good.signed_attributes = attributes;
        assert_eq!(Signed::new(&BARE[4..]).content(&[5, 6]).signer(good).finish(), refused(0));
    }
}

/// Of several certificates or lists with its index.
#[test]
fn a_certificate_or_a_list_that_is_wrong_is_named() {
    let refused = |part, index| Err(BuildSignedError::Refused { part, index: Some(index) });
    for wrong in [&[][..], &[0x30], &[0x30, 1], &[0x30, 0, 0x30, 0], &[5, 0], &[0x31, 0], &[0xA4, 0], &[0xA5, 0]] {
        for index in [3, 1] {
            let (mut certificates, mut crls) = (Signed::new(&DATA[2..]), Signed::new(&DATA[2..]));
            for it in 0..4 {
                certificates.certificate(if it == index { wrong } else { &[0x30, 0] });
                crls.crl(if it == index { wrong } else { &[0xA1, 0] });
            }
            assert_eq!(certificates.finish(), refused(SignedPart::Certificate, index));
            assert_eq!(crls.finish(), refused(SignedPart::Crl, index));
        }
    }
    for wrong in [&[0xA0, 0], &[0xA2, 0], &[0xA3, 0]] {
        let built = Signed::new(&DATA[2..]).crl(&[0x30, 0]).crl(wrong).finish();
        assert_eq!(built, refused(SignedPart::Crl, 1));
    }
}

/// Without an index.
#[test]
fn content_that_is_wrong_is_named() {
    let refused = |part| Err(BuildSignedError::Refused { part, index: None });
    let given = SignerGiven::new(SignerName::KeyIdentifier(&[9]), BARE, WITH_VECTOR, &[7]);
    for content_type in [&[][..], &[0x80], &[0x2A, 0x83]] {
        assert_eq!(Signed::new(content_type).signer(given).finish(), refused(SignedPart::ContentType));
    }
    for wrong in NO_ELEMENTS {
        let built = Signed::new(&DATA[2..]).element(wrong).signer(given).finish();
        assert_eq!(built, refused(SignedPart::Content));
    }
    // without signers
    assert_eq!(Signed::new(&DATA[2..]).content(&[]).finish(), refused(SignedPart::Content));
    assert_eq!(Signed::new(&DATA[2..]).element(&[5, 0]).certificate(&[0x30, 0]).finish(), refused(SignedPart::Content));
    assert_eq!(Signed::new(&BARE[4..]).finish(), refused(SignedPart::Content));
}

#[test]
fn what_is_wrong_of_signed_data_is_said() {
    for (part, index, said) in [
        (SignedPart::ContentType, None, "refused: content type"),
        (SignedPart::Content, None, "refused: content"),
        (SignedPart::Certificate, Some(2), "refused: certificate 2"),
        (SignedPart::Crl, Some(0), "refused: revocation list 0"),
        (SignedPart::Identifier, Some(1), "refused: identifier of signer 1"),
        (SignedPart::DigestAlgorithm, Some(0), "refused: digest algorithm of signer 0"),
        (SignedPart::SignedAttributes, Some(3), "refused: signed attributes of signer 3"),
        (SignedPart::SignatureAlgorithm, Some(0), "refused: signature algorithm of signer 0"),
        (SignedPart::Signature, Some(0), "refused: signature of signer 0"),
        (SignedPart::UnsignedAttributes, Some(0), "refused: unsigned attributes of signer 0"),
    ] {
        assert_eq!(BuildSignedError::Refused { part, index }.to_string(), said);
    }
    assert_eq!(BuildSignedError::NoMemory.to_string(), "no memory");
    assert_eq!(BuildSignedError::Unknown(99).to_string(), "unknown status 99");
}

/// An Authenticode signature over indirect data, by ECDSA with SHA-256 and the key of the certificate. `hash` is by the
/// digest algorithm of the indirect data.
fn signed_program(
    given: &IndirectGiven<'_>,
    time: &str,
    further: &[u8],
    certificate: &[u8],
    hash: impl Fn(&[u8]) -> Vec<u8>,
    sign: impl Fn(&[u8]) -> Vec<u8>,
) -> Result<Vec<u8>, Box<dyn std::error::Error>> {
    let content = build_indirect(given)?;
    let hashed = hash(hashed_octets(&content).ok_or("no element")?);
    let indirect_data = oid_octets("1.3.6.1.4.1.311.2.1.4")?;
    let mut attributes = AttributesGiven::new(&indirect_data, &hashed);
    (attributes.signing_time, attributes.attributes) = (Some(time), Some(further));
    let covered = build_attributes(&attributes)?;
    let (ecdsa, signature) = (algorithm("1.2.840.10045.4.3.2")?, sign(&covered));
    let name = SignerName::Certificate(certificate);
    let mut signer = SignerGiven::new(name, given.digest_algorithm, &ecdsa, &signature);
    signer.signed_attributes = Some(&covered);
    let mut signed = Signed::new(&indirect_data);
    Ok(signed.element(&content).certificate(certificate).signer(signer).finish()?)
}

/// What osslsigncode signed, and the file around its signature.
#[test]
fn a_signature_of_a_program_is_built() {
    let hash = |octets: &[u8]| {
        assert_eq!(octets, &OF_PROGRAM[61..166]);
        OF_PROGRAM[734..766].to_vec()
    };
    let sign = |covered: &[u8]| {
        assert_eq!(covered, [&[0x31], &OF_PROGRAM[628..766]].concat());
        OF_PROGRAM[780..].to_vec()
    };
    let further = element(0x31, &[&OF_PROGRAM[687..717]]);
    let given = IndirectGiven::program(&OF_PROGRAM[117..132], &OF_PROGRAM[134..166]);
    let built = signed_program(&given, "20261130185415Z", &further, &OF_PROGRAM[170..563], hash, sign);
    assert_eq!(built.unwrap(), OF_PROGRAM);
}

/// Of what is listed, as it is, and with another digest and other flags.
#[test]
fn listed_indirect_data_are_built_again() {
    let found = vuyhanip::indirect(OF_PROGRAM).unwrap().unwrap();
    let mut given = IndirectGiven::from(&found);
    let (flags, link) = (Some(&OF_PROGRAM[79..81]), Some(&OF_PROGRAM[83..115]));
    assert_eq!(given.attribute, IndirectAttribute::Image { flags, link });
    assert_eq!((given.digest_algorithm, given.digest), (&OF_PROGRAM[117..132], &OF_PROGRAM[134..166]));
    assert_eq!(build_indirect(&given).as_deref(), Ok(&OF_PROGRAM[59..166]));
    given.digest = &[7; 32];
    assert_eq!(build_indirect(&given), Ok([&OF_PROGRAM[59..134], &[7; 32]].concat()));
    let digest = element(0x30, &[&OF_PROGRAM[117..132], &element(4, &[&[7; 32]])]);
    for (flags, written) in [(None, &[][..]), (Some(&[0][..]), &[3, 1, 0])] {
        given.attribute = IndirectAttribute::Image { flags, link };
        let image = element(0x30, &[written, &OF_PROGRAM[81..115]]);
        let wanted = element(0x30, &[&element(0x30, &[PROGRAM, &image]), &digest]);
        assert_eq!(build_indirect(&given), Ok(wanted));
    }
}

/// What is given, and the type and the value that are written.
type OfIndirect<'a> = (IndirectAttribute<'a>, [&'a [u8]; 2]);

/// Each with and without what may be absent, and as it is listed.
#[test]
fn each_attribute_of_indirect_data_is_built() {
    let image = |flags, link| IndirectAttribute::Image { flags, link };
    let other = |attribute_type, attribute_value| IndirectAttribute::Other { attribute_type, attribute_value };
    let long = element(4, &[&[7; 70_000]]);
    let (many, linked) = (element(3, &[&[0; 300]]), element(0x30, &[&element(0xA0, &[&long])]));
    let many_flags = element(0x30, &[&many]);
    let algorithm = element(0x30, &[&element(6, &[SHA256]), &[5, 0]]);
    let written: [OfIndirect<'_>; 13] = [
        (image(None, None), [PROGRAM, &[0x30, 0]]),
        (image(Some(&[0]), None), [PROGRAM, &[0x30, 3, 3, 1, 0]]),
        // the default, and bits that are unused and set
        (image(Some(&[5, 0x80]), None), [PROGRAM, &[0x30, 4, 3, 2, 5, 0x80]]),
        (image(Some(&[7, 0xFF]), None), [PROGRAM, &[0x30, 4, 3, 2, 7, 0xFF]]),
        (image(Some(&[0; 300]), None), [PROGRAM, &many_flags]),
        (image(None, Some(ELEMENT)), [PROGRAM, &[0x30, 5, 0xA0, 3, 2, 1, 7]]),
        (image(None, Some(&long)), [PROGRAM, &linked]),
        (image(Some(&[0, 6]), Some(ELEMENT)), [PROGRAM, &[0x30, 9, 3, 2, 0, 6, 0xA0, 3, 2, 1, 7]]),
        (other(&CABINET[2..], None), [CABINET, &[]]),
        (other(&CABINET[2..], Some(&[0x30, 0])), [CABINET, &[0x30, 0]]),
        (other(&CABINET[2..], Some(&long)), [CABINET, &long]),
        // of a program without image data
        (other(&PROGRAM[2..], None), [PROGRAM, &[]]),
        (other(&PROGRAM[2..], Some(&[5, 0])), [PROGRAM, &[5, 0]]),
    ];
    for (attribute, parts) in written {
        let given = IndirectGiven::new(attribute, &algorithm, &[7, 8]);
        let built = build_indirect(&given).unwrap();
        let file = signed_digest(&parts);
        assert_eq!(signed_over(&[INDIRECT_DATA, &element(0xA0, &[&built])]), file);
        let found = vuyhanip::indirect(&file).unwrap().unwrap();
        assert_eq!(IndirectGiven::from(&found), given);
    }
    // image data as a value
    let value = element(0x30, &[&[3, 1, 0], &[0xA0, 3, 2, 1, 7]]);
    let as_other = IndirectGiven::new(other(&PROGRAM[2..], Some(&value)), BARE, &[]);
    let as_image = IndirectGiven::new(image(Some(&[0]), Some(ELEMENT)), BARE, &[]);
    assert_eq!(build_indirect(&as_other), build_indirect(&as_image));
}

#[test]
fn digests_are_of_any_algorithm_and_length() {
    let attribute = IndirectAttribute::Other { attribute_type: &CABINET[2..], attribute_value: None };
    for algorithm in [BARE, WITH_NULL, WITH_VECTOR] {
        for len in [0, 1, 20, 64, 300, 70_000] {
            let digest = vec![9; len];
            let info = element(0x30, &[algorithm, &element(4, &[&digest])]);
            let built = build_indirect(&IndirectGiven::new(attribute, algorithm, &digest));
            assert_eq!(built, Ok(element(0x30, &[&element(0x30, &[CABINET]), &info])));
        }
    }
}

/// Octets that aren't exactly one element with a tag of one octet and a length as DER has it.
const NO_ELEMENTS: [&[u8]; 10] = [
    &[],
    &[5],
    &[4, 1],
    &[5, 0, 5, 0],
    &[4, 1, 7, 0],
    &[0x30, 0x80],
    &[0x30, 0x80, 0, 0],
    &[4, 0x81, 1, 7],
    &[0x1F, 0x81, 0, 0],
    &[0x3F, 2, 5, 0],
];

/// Each but a digest, which may be any octets.
#[test]
fn a_part_of_indirect_data_that_is_wrong_is_named() {
    let image = |flags, link| IndirectAttribute::Image { flags, link };
    let other = |attribute_type, attribute_value| IndirectAttribute::Other { attribute_type, attribute_value };
    let refused = |part| Err(BuildIndirectError::Refused(part));
    let built = |attribute| build_indirect(&IndirectGiven::new(attribute, BARE, &[7, 8]));
    for wrong in [&[][..], &[0x80], &[0x2A, 0x83]] {
        for value in [None, Some(ELEMENT)] {
            assert_eq!(built(other(wrong, value)), refused(IndirectPart::AttributeType));
        }
    }
    // no count, no such count, and unused bits of no octet
    for wrong in [&[][..], &[8], &[8, 0], &[0xFF, 0], &[1], &[7]] {
        for link in [None, Some(ELEMENT)] {
            assert_eq!(built(image(Some(wrong), link)), refused(IndirectPart::ImageFlags));
        }
    }
    for wrong in NO_ELEMENTS {
        assert_eq!(built(other(&CABINET[2..], Some(wrong))), refused(IndirectPart::AttributeValue));
        for flags in [None, Some(&[0][..])] {
            assert_eq!(built(image(flags, Some(wrong))), refused(IndirectPart::ImageLink));
        }
        for attribute in [image(Some(&[0]), Some(ELEMENT)), other(&CABINET[2..], Some(ELEMENT))] {
            let given = IndirectGiven::new(attribute, wrong, &[7, 8]);
            assert_eq!(build_indirect(&given), refused(IndirectPart::DigestAlgorithm));
        }
    }
    for wrong in [&[5, 0][..], &[0x30, 0], &[0x30, 2, 5, 0], &[0x31, 5, 6, 3, 0x2A, 3, 4]] {
        let given = IndirectGiven::new(other(&CABINET[2..], None), wrong, &[7, 8]);
        assert_eq!(build_indirect(&given), refused(IndirectPart::DigestAlgorithm));
    }
}

#[test]
fn what_is_wrong_of_indirect_data_is_said() {
    for (part, said) in [
        (IndirectPart::AttributeType, "refused: attribute type"),
        (IndirectPart::AttributeValue, "refused: attribute value"),
        (IndirectPart::DigestAlgorithm, "refused: digest algorithm"),
        (IndirectPart::Digest, "refused: digest"),
        (IndirectPart::ImageFlags, "refused: image flags"),
        (IndirectPart::ImageLink, "refused: image link"),
    ] {
        assert_eq!(BuildIndirectError::Refused(part).to_string(), said);
    }
    assert_eq!(BuildIndirectError::TooLong.to_string(), "too long");
    assert_eq!(BuildIndirectError::Unknown(99).to_string(), "unknown status 99");
}

#[test]
fn contents_octets_of_one_element_are_hashed() {
    for len in [0, 1, 0x7F, 0x80, 0xFF, 0x100, 0xFFFF, 0x1_0000] {
        let contents = vec![7; len];
        for tag in [4, 0x30, 0xA0] {
            assert_eq!(hashed_octets(&element(tag, &[&contents])), Some(&contents[..]));
        }
    }
    for octets in NO_ELEMENTS {
        assert_eq!(hashed_octets(octets), None);
    }
    // lengths with more octets than are needed, one past 64 bits, and one that isn't there
    for octets in [&[4, 0x82, 0, 1, 7][..], &[4, 0x89, 1, 0, 0, 0, 0, 0, 0, 0, 0], &[4, 0x82, 1]] {
        assert_eq!(hashed_octets(octets), None);
    }
}

/// Of the files, each but those by key agreement and by a password.
#[test]
fn recipients_of_files_are_built() {
    let (certificate, key_identifier) = (&LISTS[418..928], &LISTS[711..731]);
    for (name, algorithm, key, file, recipient) in [
        (RecipientName::Certificate(certificate), 75..90, 93..221, ENVELOPED, 29..221),
        (RecipientName::KeyIdentifier(key_identifier), 58..73, 76..204, RECIPIENTS, 30..204),
        (RecipientName::Kek(b"KEK"), 35..48, 50..74, BY_KEK, 23..74),
        (RecipientName::Kek(b"KEK"), 385..398, 400..424, RECIPIENTS, 373..424),
    ] {
        let built = build_recipient(&Recipient::new(name, &file[algorithm], &file[key]));
        assert_eq!(built.as_deref(), Ok(&file[recipient]));
    }
}

/// Enveloped data for the RSA key of a certificate, by AES with 128 bits in CBC mode with this vector.
fn enveloped_file(
    content: &[u8],
    certificate: &[u8],
    vector: &[u8],
    encrypt: impl Fn(&[u8]) -> Vec<u8>,
    encrypted_key: impl Fn() -> Vec<u8>,
) -> Result<Vec<u8>, Box<dyn std::error::Error>> {
    let rsa = algorithm_with("1.2.840.113549.1.1.1", Some(&[5, 0]))?;
    let aes = algorithm_with("2.16.840.1.101.3.4.1.2", Some(&element(4, &[vector])))?;
    let (data, key, encrypted) = (oid_octets("1.2.840.113549.1.7.1")?, encrypted_key(), encrypt(content));
    let recipient = build_recipient(&Recipient::new(RecipientName::Certificate(certificate), &rsa, &key))?;
    Ok(Enveloped::new(&data, &aes).content(&encrypted).recipient(&recipient).finish()?)
}

/// What openssl encrypted, and the file around it.
#[test]
fn a_file_is_built_around_an_encrypted_key() {
    let encrypt = |content: &[u8]| {
        assert_eq!(content, b"hello, world");
        ENVELOPED[267..].to_vec()
    };
    let key = || ENVELOPED[93..221].to_vec();
    let built = enveloped_file(b"hello, world", &LISTS[418..928], &ENVELOPED[249..265], encrypt, key);
    assert_eq!(built.unwrap(), ENVELOPED);
}

/// Of what is listed of each, added from the last to the first.
#[test]
fn enveloped_files_are_built_again() {
    for (file, count) in [(ENVELOPED, 1), (BY_KEK, 1), (RECIPIENTS, 4)] {
        let algorithm = vuyhanip::encryption_algorithm(file).unwrap().unwrap();
        let mut enveloped = Enveloped::new(&DATA[2..], algorithm);
        enveloped.content(vuyhanip::encrypted_content(file).unwrap().unwrap());
        let recipients = vuyhanip::recipients(file).unwrap();
        assert_eq!(recipients.len(), count);
        for recipient in recipients.into_iter().rev() {
            enveloped.recipient(recipient);
        }
        assert_eq!(enveloped.finish().as_deref(), Ok(file));
    }
}

/// What names a recipient, the tag and the version of the recipient, and the name as it is written.
fn each_name_of_a_recipient() -> [(RecipientName<'static>, u8, u8, Vec<u8>); 5] {
    let issuer_and_serial_number = element(0x30, &[&SIGNED[101..115], &SIGNED[86..89]]);
    [
        (RecipientName::Certificate(&SIGNED[74..357]), 0x30, 0, issuer_and_serial_number),
        (RecipientName::KeyIdentifier(&[9]), 0x30, 2, vec![0x80, 1, 9]),
        (RecipientName::KeyIdentifier(&[]), 0x30, 2, vec![0x80, 0]),
        (RecipientName::Kek(&[9]), 0xA2, 4, vec![0x30, 3, 4, 1, 9]),
        (RecipientName::Kek(&[]), 0xA2, 4, vec![0x30, 2, 4, 0]),
    ]
}

/// With keys of any length.
#[test]
fn each_form_of_a_recipient_is_built() {
    for (name, tag, version, written) in each_name_of_a_recipient() {
        for algorithm in [BARE, WITH_NULL, WITH_VECTOR] {
            for len in [0, 1, 127, 128, 256, 70_000] {
                let key = vec![7; len];
                let wanted = element(tag, &[&[2, 1, version], &written, algorithm, &element(4, &[&key])]);
                assert_eq!(build_recipient(&Recipient::new(name, algorithm, &key)).as_ref(), Ok(&wanted));
                let built = Enveloped::new(&DATA[2..], BARE).recipient(&wanted).finish().unwrap();
                assert_eq!(vuyhanip::recipients(&built), Ok(vec![&wanted[..]]));
            }
        }
    }
}

/// Recipients by key transport with nothing but their version.
const VERSION_0: &[u8] = &[0x30, 3, 2, 1, 0];
const VERSION_2: &[u8] = &[0x30, 3, 2, 1, 2];

/// Enveloped data by hand: its version, its recipients, what is encrypted, with its type and its algorithm, and
/// unprotected attributes.
fn enveloped_data(version: u8, recipients: &[&[u8]], info: &[&[u8]], attributes: Option<&[u8]>) -> Vec<u8> {
    let (recipients, attributes) = (element(0x31, recipients), tagged(0xA1, attributes));
    let parts: [&[u8]; 4] = [&[2, 1, version], &recipients, &element(0x30, info), &attributes];
    element(0x30, &[&ENVELOPE[2..13], &element(0xA0, &[&element(0x30, &parts)])])
}

/// RFC 5652, 6.1: without attributes and with them.
#[test]
fn versions_are_those_of_recipients_and_attributes() {
    let [agreed, by_kek, by_password, by_other]: [&[u8]; 4] = [&[0xA1, 0], &[0xA2, 0], &[0xA3, 0], &[0xA4, 0]];
    for (versions, recipients) in [
        ([0, 2], &[VERSION_0][..]),
        ([0, 2], &[VERSION_0, VERSION_0]),
        ([2, 2], &[VERSION_2]),
        ([2, 2], &[VERSION_0, VERSION_2]),
        ([2, 2], &[VERSION_0, agreed]),
        ([2, 2], &[VERSION_0, by_kek]),
        ([2, 2], &[agreed]),
        ([2, 2], &[by_kek]),
        ([3, 3], &[by_password]),
        ([3, 3], &[by_other]),
        ([3, 3], &[VERSION_0, by_password]),
        ([3, 3], &[VERSION_0, by_other]),
        ([3, 3], &[VERSION_0, VERSION_2, agreed, by_kek, by_password, by_other]),
    ] {
        let mut enveloped = Enveloped::new(&DATA[2..], BARE);
        for recipient in recipients.iter().rev() {
            enveloped.recipient(recipient);
        }
        assert_eq!(enveloped.finish(), Ok(enveloped_data(versions[0], recipients, &[DATA, BARE], None)));
        let built = enveloped.attributes(FURTHER).finish();
        assert_eq!(built, Ok(enveloped_data(versions[1], recipients, &[DATA, BARE], Some(FURTHER))));
    }
}

/// Of any type, by any algorithm.
#[test]
fn content_is_encrypted_octets_or_elsewhere() {
    let long = [7; 70_000];
    for content_type in [DATA, &BARE[2..]] {
        for algorithm in [BARE, WITH_NULL, WITH_VECTOR] {
            for content in [None, Some(&[][..]), Some(&[5, 6]), Some(&long[..])] {
                let mut enveloped = Enveloped::new(&content_type[2..], algorithm);
                enveloped.recipient(VERSION_0);
                if let Some(octets) = content {
                    enveloped.content(octets);
                }
                let built = enveloped.finish().unwrap();
                let encrypted = content.map_or(vec![], |octets| element(0x80, &[octets]));
                let info = [content_type, algorithm, &encrypted];
                assert_eq!(built, enveloped_data(0, &[VERSION_0], &info, None));
                assert_eq!(vuyhanip::encryption_algorithm(&built), Ok(Some(algorithm)));
                assert_eq!(vuyhanip::encrypted_content(&built), Ok(content));
            }
        }
    }
}

/// Their order stays. Of two calls that give content, or attributes, the later counts.
#[test]
fn unprotected_attributes_are_written_as_they_are() {
    let (short, long) = (attribute(&BARE[2..], &[&[5, 0]]), attribute(&BARE[2..], &[&[5, 0], &[2, 1, 1]]));
    let set = element(0x31, &[&long, &short, &long]);
    let mut enveloped = Enveloped::new(&DATA[2..], BARE);
    let built = enveloped.recipient(VERSION_0).attributes(FURTHER).content(&[5, 6]).attributes(&set).finish();
    assert_eq!(built, Ok(enveloped_data(2, &[VERSION_0], &[DATA, BARE, &[0x80, 2, 5, 6]], Some(&set))));
    let built = enveloped.attributes(FURTHER).content(&[8]).finish();
    assert_eq!(built, Ok(enveloped_data(2, &[VERSION_0], &[DATA, BARE, &[0x80, 1, 8]], Some(FURTHER))));
}

/// In the order of DER, and as often as they are added.
#[test]
fn many_recipients_are_built() {
    for count in [1, 2, 17, 400] {
        let keys: Vec<_> = (0..count).map(|number: u16| number.to_be_bytes()).collect();
        let built = |key| build_recipient(&Recipient::new(RecipientName::KeyIdentifier(key), BARE, &[7])).unwrap();
        let mut recipients: Vec<_> = keys.iter().map(|key| built(key)).collect();
        recipients.push(recipients[0].clone());
        let mut enveloped = Enveloped::new(&DATA[2..], BARE);
        for recipient in recipients.iter().rev() {
            enveloped.recipient(recipient);
        }
        let mut sorted: Vec<_> = recipients.iter().map(|it| &it[..]).collect();
        sorted.sort();
        let built = enveloped.finish().unwrap();
        assert_eq!(built, enveloped_data(2, &sorted, &[DATA, BARE], None));
        assert_eq!(vuyhanip::recipients(&built), Ok(sorted));
    }
}

/// A part of a recipient, and what makes it wrong in one that can be written.
type WrongRecipient = (RecipientPart, fn(&mut Recipient<'_>));

/// Each but a key, which may be any octets, as what names a key may.
#[test]
fn a_part_of_a_recipient_that_is_wrong_is_named() {
    let wrong: [WrongRecipient; 11] = [
        (RecipientPart::Identifier, |it| it.identifier = RecipientName::Certificate(&[])),
        (RecipientPart::Identifier, |it| it.identifier = RecipientName::Certificate(ELEMENT)),
        (RecipientPart::Identifier, |it| it.identifier = RecipientName::Certificate(&[0x30, 0])),
        (RecipientPart::Identifier, |it| it.identifier = RecipientName::Certificate(LISTS)),
        // one that is cut, and one with an octet more
        (RecipientPart::Identifier, |it| it.identifier = RecipientName::Certificate(&LISTS[418..927])),
        (RecipientPart::Identifier, |it| it.identifier = RecipientName::Certificate(&LISTS[418..929])),
        (RecipientPart::Algorithm, |it| it.algorithm = &BARE[2..]),
        (RecipientPart::Algorithm, |it| it.algorithm = &[0x30, 0]),
        (RecipientPart::Algorithm, |it| it.algorithm = &[0x30, 2, 5, 0]),
        (RecipientPart::Algorithm, |it| it.algorithm = &[0x31, 5, 6, 3, 0x2A, 3, 4]),
        (RecipientPart::Algorithm, |it| it.algorithm = &[0x30, 5, 6, 3, 0x2A, 3, 4, 5, 0]),
    ];
    let good = Recipient::new(RecipientName::Certificate(&LISTS[418..928]), WITH_NULL, &[7]);
    assert!(build_recipient(&good).is_ok());
    for (part, change) in wrong {
        let mut given = good;
        change(&mut given);
        assert_eq!(build_recipient(&given), Err(BuildRecipientError::Refused(part)));
    }
    for (name, ..) in each_name_of_a_recipient() {
        for algorithm in NO_ELEMENTS {
            let built = build_recipient(&Recipient::new(name, algorithm, &[7]));
            assert_eq!(built, Err(BuildRecipientError::Refused(RecipientPart::Algorithm)));
        }
    }
}

/// Enveloped data of these recipients.
fn enveloped_for(recipients: &[&[u8]]) -> Result<Vec<u8>, BuildEnvelopedError> {
    let mut enveloped = Enveloped::new(&DATA[2..], BARE);
    for recipient in recipients {
        enveloped.recipient(recipient);
    }
    enveloped.finish()
}

/// RFC 5652, 6.2 and 6.2.1: with its index among several.
#[test]
fn a_recipient_that_is_wrong_is_named() {
    let refused = |index| Err(BuildEnvelopedError::Refused { part: EnvelopedPart::Recipient, index: Some(index) });
    let others: [&[u8]; 18] = [
        // other tags
        &[5, 0],
        &[0x31, 3, 2, 1, 0],
        &[0x10, 3, 2, 1, 0],
        &[0xA0, 3, 2, 1, 0],
        &[0xA5, 3, 2, 1, 0],
        &[0x81, 0],
        &[0x82, 0],
        // no version of key transport
        &[0x30, 0],
        &[0x30, 2, 5, 0],
        &[0x30, 2, 2, 0],
        &[0x30, 3, 2, 1, 1],
        &[0x30, 3, 2, 1, 3],
        &[0x30, 3, 2, 1, 4],
        &[0x30, 3, 4, 1, 0],
        &[0x30, 4, 2, 2, 0, 0],
        // one that is cut, two, and one whose length has more octets than are needed
        &[0xA2, 1],
        &[0xA2, 0, 0xA2, 0],
        &[0xA2, 0x81, 0],
    ];
    let good = [VERSION_0, VERSION_2, &[0xA1, 0], &[0xA2, 0], &[0xA3, 0], &[0xA4, 0]];
    assert!(enveloped_for(&good).is_ok());
    for wrong in others.into_iter().chain(NO_ELEMENTS) {
        for index in [0, 3, 5] {
            let mut recipients = good;
            recipients[index] = wrong;
            assert_eq!(enveloped_for(&recipients), refused(index));
        }
        assert_eq!(enveloped_for(&[wrong]), refused(0));
    }
}

/// Without an index.
#[test]
fn a_part_of_enveloped_data_that_is_wrong_is_named() {
    let refused = |part| Err(BuildEnvelopedError::Refused { part, index: None });
    for content_type in [&[][..], &[0x80], &[0x2A, 0x83]] {
        let built = Enveloped::new(content_type, BARE).recipient(VERSION_0).finish();
        assert_eq!(built, refused(EnvelopedPart::ContentType));
    }
    let others: [&[u8]; 4] = [&[5, 0], &[0x30, 0], &[0x30, 2, 5, 0], &[0x31, 5, 6, 3, 0x2A, 3, 4]];
    for algorithm in others.into_iter().chain(NO_ELEMENTS) {
        let built = Enveloped::new(&DATA[2..], algorithm).recipient(VERSION_0).content(&[5, 6]).finish();
        assert_eq!(built, refused(EnvelopedPart::Algorithm));
    }
    assert_eq!(enveloped_for(&[]), refused(EnvelopedPart::Recipients));
    // none, no set, and as they are in the file
    let others: [&[u8]; 5] = [&[0x31, 0], &[0x30, 0], &[0x31, 1], &[0x31, 2, 5, 0], &[&[0xA1], &FURTHER[1..]].concat()];
    for attributes in others.into_iter().chain(NO_ELEMENTS) {
        let built = Enveloped::new(&DATA[2..], BARE).recipient(VERSION_0).attributes(attributes).finish();
        assert_eq!(built, refused(EnvelopedPart::Attributes));
    }
}

#[test]
fn what_is_wrong_of_enveloped_data_is_said() {
    for (part, said) in [
        (RecipientPart::Identifier, "refused: identifier"),
        (RecipientPart::Algorithm, "refused: algorithm"),
        (RecipientPart::Key, "refused: key"),
    ] {
        assert_eq!(BuildRecipientError::Refused(part).to_string(), said);
    }
    for (part, index, said) in [
        (EnvelopedPart::ContentType, None, "refused: content type"),
        (EnvelopedPart::Algorithm, None, "refused: algorithm"),
        (EnvelopedPart::Content, None, "refused: content"),
        (EnvelopedPart::Recipient, Some(2), "refused: recipient 2"),
        (EnvelopedPart::Recipients, None, "refused: recipients"),
        (EnvelopedPart::Attributes, None, "refused: attributes"),
    ] {
        assert_eq!(BuildEnvelopedError::Refused { part, index }.to_string(), said);
    }
    assert_eq!(BuildRecipientError::NoMemory.to_string(), "no memory");
    assert_eq!(BuildRecipientError::Unknown(99).to_string(), "unknown status 99");
    assert_eq!(BuildEnvelopedError::TooLong.to_string(), "too long");
    assert_eq!(BuildEnvelopedError::Unknown(99).to_string(), "unknown status 99");
}

/// Of a signer that is named by its key.
#[test]
fn parts_of_a_signer_of_version_3() {
    let part = |part, index| vuyhanip::part(part, index, BY_KEY).unwrap();
    assert_eq!(part(Part::HashedContent, 7).as_deref(), Some(&b"hello, world"[..]));
    assert_eq!(part(Part::Certificate, 0).as_deref(), Some(&BY_KEY[74..447]));
    assert_eq!(part(Part::SignedAttributes, 0), Some([&[0x31], &BY_KEY[492..598]].concat()));
    assert_eq!((part(Part::Issuer, 0), part(Part::SerialNumber, 0)), (None, None));
    assert_eq!(part(Part::KeyIdentifier, 0).as_deref(), Some(&BY_KEY[458..478]));
    assert_eq!(part(Part::DigestAlgorithm, 0).as_deref(), Some(SHA256));
    assert_eq!(part(Part::SignatureAlgorithm, 0).as_deref(), Some(&BY_KEY[598..610]));
    assert_eq!(part(Part::Signature, 0).as_deref(), Some(&BY_KEY[612..683]));
    assert_eq!((part(Part::Signature, 1), part(Part::KeyIdentifier, 1)), (None, None));
}

/// Content of a type that no standard has, a SEQUENCE, and none.
#[test]
fn parts_of_signed_data_over_any_content() {
    let content = [&[6, 3, 0x2A, 3, 4][..], &element(0xA0, &[&element(0x30, &[&[5, 0]])])].concat();
    let data = element(0x30, &[&DETACHED[17..22], &element(0x30, &[&content]), &DETACHED[29..]]);
    let file = element(0x30, &[&DETACHED[2..13], &element(0xA0, &[&data])]);
    let part = |part, input| vuyhanip::part(part, 0, input).unwrap();
    assert_eq!(part(Part::HashedContent, &file).as_deref(), Some(&[5, 0][..]));
    assert_eq!(part(Part::SignatureAlgorithm, &file).as_deref(), Some(&DETACHED[45..52]));
    assert_eq!((part(Part::HashedContent, DETACHED), part(Part::SignedAttributes, DETACHED)), (None, None));
    assert_eq!((part(Part::KeyIdentifier, DETACHED), part(Part::Signature, DETACHED)), (Some(vec![]), Some(vec![])));
}

#[test]
fn signers_of_versions_1_and_3() {
    for (file, certificate, digest_algorithm, attributes, digest, signature) in [
        (SIGNED, 74..357, 671..684, 684..791, 759..791, 805..876),
        (BY_KEY, 74..447, 478..491, 491..598, 566..598, 612..683),
    ] {
        let signer = vuyhanip::signers(file).unwrap()[0].unwrap();
        assert_eq!(signer.content, Some(&b"hello, world"[..]));
        assert_eq!(signer.certificate, Some(&file[certificate]));
        assert_eq!(signer.digest_algorithm, &file[digest_algorithm]);
        assert_eq!(signer.message_digest, Some(&file[digest]));
        assert_eq!(signer.signature_algorithm, &file[attributes.end..attributes.end + 12]);
        assert_eq!(signer.signature, &file[signature]);
        let covered = [&[0x31], &file[attributes][1..]].concat();
        assert_eq!(signer.covered(b"any content").as_ref(), covered);
    }
}

/// Its content has to be data, since no attributes are signed.
#[test]
fn a_detached_signature_covers_what_is_passed() {
    let info = element(0x30, &[&[6, 9, 0x2A, 0x86, 0x48, 0x86, 0xF7, 0x0D, 1, 7, 1]]);
    let data = element(0x30, &[&DETACHED[17..22], &info, &DETACHED[29..]]);
    let file = element(0x30, &[&DETACHED[2..13], &element(0xA0, &[&data])]);
    let signer = vuyhanip::signers(&file).unwrap()[0].unwrap();
    assert_eq!((signer.content, signer.message_digest, signer.certificate), (None, None, None));
    assert_eq!(signer.covered(b"content").as_ref(), b"content");
    assert_eq!(signer.signature_algorithm, &DETACHED[45..52]);
    assert!(signer.signature.is_empty());
}

/// RFC 5652, 5.3: contentType is the content's, and is one, as messageDigest is. Content that isn't data needs them.
#[test]
fn bad_attributes_leave_nothing_to_verify() {
    // contentType's value, its own type, and that of messageDigest
    for at in [518, 505, 561] {
        let mut file = BY_KEY.to_vec();
        file[at] ^= 1;
        assert_eq!(vuyhanip::signers(&file).unwrap(), [Err(BadAttributes)]);
    }
    assert_eq!(vuyhanip::signers(DETACHED).unwrap(), [Err(BadAttributes)]);
}

#[test]
fn many_signers_are_all_there() {
    let (data, sid) = (&DETACHED[15..31], &DETACHED[31..]);
    for count in [0, 1, 15, 16, 17, 400] {
        let sets = element(0x30, &[&data[2..14], &element(0x31, &[&sid.repeat(count)])]);
        let file = element(0x30, &[&DETACHED[2..13], &element(0xA0, &[&sets])]);
        assert_eq!(vuyhanip::signers(&file).unwrap().len(), count);
    }
}

#[test]
fn what_is_no_signed_data_has_no_signers() {
    let refused = |reason, place| Err(Error::Refused { reason, place });
    assert_eq!(vuyhanip::signers(&[]), refused(Reason::Missing, 0));
    assert_eq!(vuyhanip::signers(&[SIGNED, &[0]].concat()), refused(Reason::Malformed, 876));
    assert_eq!(vuyhanip::signers(STORE), refused(Reason::Invalid, 4));
}

/// RFC 4514, and X.690, 8.19.
#[test]
fn names_and_object_identifiers_as_text() {
    assert_eq!(vuyhanip::name_text(&SIGNED[654..668]).as_deref(), Ok("CN=A"));
    assert_eq!(vuyhanip::name_text(&BY_KEY[121..137]).as_deref(), Ok("CN=key"));
    assert_eq!(vuyhanip::oid_text(SHA256).as_deref(), Ok("2.16.840.1.101.3.4.2.1"));
    // as openssl prints them
    assert_eq!(vuyhanip::oid_name(SHA256).as_deref(), Some("sha256"));
    assert_eq!(vuyhanip::oid_name(&[0x55, 0x1D, 0x0E]).as_deref(), Some("X509v3 Subject Key Identifier"));
    assert_eq!(vuyhanip::oid_name(&[0x2A, 0x03, 0x04]), None);
    let refused = |reason| Err(Error::Refused { reason, place: 0 });
    assert_eq!(vuyhanip::oid_text(&[]), refused(Reason::Invalid));
    assert_eq!(vuyhanip::name_text(&SIGNED[654..667]), refused(Reason::Malformed));
}

/// X.660 and X.690, 8.19, at the ends of second arcs, of what an octet holds, and of 64 bits.
#[test]
fn object_identifiers_are_octets() {
    let texts: [(&str, &[u8]); 12] = [
        ("2.16.840.1.101.3.4.2.1", SHA256),
        ("2.999.3", &[0x88, 0x37, 3]),
        ("0.0", &[0]),
        ("0.39", &[39]),
        ("1.0", &[40]),
        ("1.39.0", &[79, 0]),
        ("2.0", &[80]),
        ("2.47", &[0x7F]),
        ("2.48", &[0x81, 0]),
        ("1.2.127.128", &[0x2A, 0x7F, 0x81, 0]),
        ("2.18446744073709551535", &[0x81, 0xFF, 0xFF, 0xFF, 0xFF, 0xFF, 0xFF, 0xFF, 0xFF, 0x7F]),
        ("1.2.18446744073709551615", &[0x2A, 0x81, 0xFF, 0xFF, 0xFF, 0xFF, 0xFF, 0xFF, 0xFF, 0xFF, 0x7F]),
    ];
    for (text, octets) in texts {
        assert_eq!(vuyhanip::oid_octets(text).as_deref(), Ok(octets));
        assert_eq!(vuyhanip::oid_text(octets).as_deref(), Ok(text));
    }
    let refused = Err(Error::Refused { reason: Reason::Invalid, place: 0 });
    // too few arcs, and arcs that are empty
    let short = ["", "1", "1.", ".1", ".", "1..2", "1.2."];
    // a first arc above 2, and a second above 39
    let large = ["3.1", "10.1", "0.40", "1.40", "2.18446744073709551536", "1.2.18446744073709551616"];
    // zeros at the front, signs, blanks, and what is no digit
    let other = ["01.2", "1.02", "1.2.00", "1.+2", "1.-2", " 1.2", "1. 2", "1.2 ", "1.2\0", "1,2", "1.x", "1.²"];
    for text in short.into_iter().chain(large).chain(other) {
        assert_eq!(vuyhanip::oid_octets(text), refused, "{text}");
    }
}

#[test]
fn the_mac_of_a_store() {
    let mac = vuyhanip::mac(STORE).unwrap().unwrap();
    assert_eq!((mac.covered, mac.iterations), (30..943, 2048));
    assert_eq!((mac.digest_algorithm.as_slice(), mac.digest.as_slice()), (SHA256, &STORE[964..996]));
    assert_eq!(mac.salt, &STORE[998..1006]);
    assert_eq!(vuyhanip::mac_range(STORE), Ok(Some(30..943)));
}

#[test]
fn parts_of_a_store() {
    let part = |part, index| vuyhanip::part(part, index, STORE).unwrap();
    assert_eq!(part(Part::StoreEncryptedKey, 0).as_deref(), Some(&STORE[695..875]));
    assert_eq!(part(Part::StoreEncryptedKey, 1), None);
    let bag = part(Part::StoreBag, 0).unwrap();
    assert!(bag.windows(180).any(|octets| octets == &STORE[695..875]));
    assert_eq!((part(Part::StoreKey, 0), part(Part::StoreCertificate, 0)), (None, None));
}

/// Bags in a bag, a certificate of another type, which isn't one of X.509, and a name past U+FFFF.
#[test]
fn parts_of_a_store_are_those_that_its_bags_borrow() {
    let octets = element(0xA0, &[&element(4, &[b"any octets"])]);
    let x509 = element(0x30, &[X509_CERTIFICATE, &octets]);
    let sdsi = element(0x30, &[SDSI_CERTIFICATE, &element(0xA0, &[&element(0x16, &[b"AAAA"])])]);
    let units: Vec<u8> = "smile 😀".encode_utf16().flat_map(u16::to_be_bytes).collect();
    let named = bag(CERTIFICATE_BAG, &x509, &element(0x31, &[&name_attribute(&units)]));
    let inner = element(0x30, &[&named, &bag(CERTIFICATE_BAG, &sdsi, &[])]);
    let file = store(&[&bag(SAFE_CONTENTS_BAG, &inner, &[]), &bag(CRL_BAG, &sdsi, &[])]);
    let bags = vuyhanip::bags(&file).unwrap();
    let kinds: Vec<_> = bags.iter().map(|it| (it.kind, it.level)).collect();
    let (certificate, other) = (BagKind::Certificate, BagKind::OtherCertificate);
    assert_eq!(kinds, [(BagKind::SafeContents, 0), (certificate, 1), (other, 1), (BagKind::OtherCrl, 0)]);
    for (index, bag) in bags.iter().enumerate() {
        assert_eq!(vuyhanip::part(Part::StoreBag, index, &file).unwrap().as_deref(), Some(bag.element));
    }
    assert_eq!(vuyhanip::part(Part::StoreBag, bags.len(), &file), Ok(None));
    assert_eq!(vuyhanip::part(Part::StoreCertificate, 0, &file).unwrap().as_deref(), Some(bags[1].value));
    assert_eq!(vuyhanip::part(Part::StoreCertificate, 1, &file), Ok(None));
    assert_eq!((bags[1].value, bags[2].value), (&b"any octets"[..], &element(0x16, &[b"AAAA"])[..]));
    assert_eq!(bags[1].name().as_deref(), Some("smile 😀"));
    assert_eq!(bags[1].friendly_name.map(vuyhanip::utf16_text), Some(Ok("smile 😀".to_owned())));
}

/// RFC 7292, 4.2.3: the DER of an X.509 certificate is in an OCTET STRING. An encrypted key begins with a SEQUENCE.
#[test]
fn what_is_no_part_of_a_store_is_refused_where_it_is() {
    let no_octets = element(0x30, &[X509_CERTIFICATE, &[0xA0, 2, 5, 0]]);
    let no_key = element(0x30, &[&[2, 1, 7], &element(4, &[b"encrypted"])]);
    for (oid, held, part) in [(CERTIFICATE_BAG, no_octets, &[5, 0][..]), (SHROUDED_KEY_BAG, no_key, &[2, 1, 7])] {
        let file = store(&[&bag(oid, &held, &[])]);
        let refused = Error::Refused { reason: Reason::Invalid, place: place(&file, part) };
        for number in [Part::StoreCertificate, Part::StoreKey, Part::StoreEncryptedKey, Part::StoreBag] {
            assert_eq!(vuyhanip::part(number, 0, &file), Err(refused));
        }
        assert_eq!(vuyhanip::bags(&file), Err(refused));
        assert!(vuyhanip::check("rawpfx", &file).is_ok());
    }
}

/// RFC 2781, 2.2, and Unicode's table 3-7 of well-formed UTF-8, at their ends.
#[test]
fn utf_16_is_text() {
    let ends = ["\u{7F}", "\u{80}", "\u{7FF}", "\u{800}", "\u{D7FF}\u{E000}", "\u{FFFF}", "\u{10000}", "\u{10FFFF}"];
    for text in ends.into_iter().chain(["", "a\0b", "\u{FEFF}ß", "日本 😀"]) {
        let octets: Vec<u8> = text.encode_utf16().flat_map(u16::to_be_bytes).collect();
        assert_eq!(vuyhanip::utf16_text(&octets).as_deref(), Ok(text));
        assert_eq!(vuyhanip::text_utf16(text), Ok(octets));
    }
    let refused = Err(Error::Refused { reason: Reason::Invalid, place: 0 });
    let halves = [&[0xD8, 0][..], &[0xDC, 0], &[0xDC, 0, 0xD8, 0], &[0xD8, 0, 0, 97], &[0xDB, 0xFF, 0xDB, 0xFF]];
    for octets in halves.into_iter().chain([&[0][..], &[0, 97, 0], &[0xD8, 0, 0xDC]]) {
        assert_eq!(vuyhanip::utf16_text(octets), refused);
    }
}

/// X.690, 8.1.3.6 and 8.7.3: an OCTET STRING of indefinite length in two segments.
#[test]
fn ber_has_its_der() {
    assert_eq!(vuyhanip::from_ber(&[0x24, 0x80, 4, 1, 0x41, 4, 1, 0x42, 0, 0]), Ok(vec![4, 2, 0x41, 0x42]));
    assert_eq!(vuyhanip::from_ber(STORE).as_deref(), Ok(STORE));
    let refused = Error::Refused { reason: Reason::Missing, place: 5 };
    assert_eq!(vuyhanip::from_ber(&[0x24, 0x80, 4, 1, 0x41]), Err(refused));
}

/// A store in BER (X.690, 8.1.3.6 and 8.7.3), with BER in two segments that its MAC covers (RFC 7292, 4).
#[test]
fn the_mac_of_a_store_in_ber() {
    let data = [6, 9, 0x2A, 0x86, 0x48, 0x86, 0xF7, 0x0D, 1, 7, 1];
    let segments = [0xA0, 0x80, 0x24, 0x80, 4, 2, 0x30, 0x80, 4, 2, 0, 0];
    let digest = [0x30, 0x0D, 0x30, 7, 6, 5, 0x2B, 0x0E, 3, 2, 0x1A, 4, 2, 7, 7];
    let salt_and_count = [4, 4, 1, 2, 3, 4, 2, 3, 1, 0, 0];
    let mac_data = [&[0x30, 0x1A][..], &digest, &salt_and_count].concat();
    let ber = [&[0x30, 0x80, 2, 1, 3, 0x30, 0x80][..], &data, &segments, &[0; 6], &mac_data, &[0; 2]].concat();
    let der = vuyhanip::from_ber(&ber).unwrap();
    let mac = vuyhanip::mac_ber(&der).unwrap().unwrap();
    assert_eq!((&der[mac.covered], mac.iterations), (&[0x30, 0x80, 0, 0][..], 65536));
    assert_eq!((mac.digest_algorithm.as_slice(), mac.digest.as_slice()), (&digest[6..11], &[7, 7][..]));
    assert_eq!(mac.salt, [1, 2, 3, 4]);
    assert!(matches!(vuyhanip::mac(&der), Err(Error::Refused { reason: Reason::Malformed, .. })));
    assert_eq!(vuyhanip::mac_ber(STORE), vuyhanip::mac(STORE));
    assert_eq!(vuyhanip::mac_ber(SIGNED), vuyhanip::mac(SIGNED));
}

#[test]
fn kinds_have_words() {
    let kinds = vuyhanip::kinds();
    assert!(kinds.len() >= 77 && kinds.iter().any(|word| word == "pfx"));
}

#[test]
fn certificates_are_parts_of_the_file() {
    let found = vuyhanip::certificates(SIGNED).unwrap();
    for (index, certificate) in found.iter().enumerate() {
        assert_eq!(vuyhanip::part(Part::Certificate, index, SIGNED), Ok(Some(certificate.to_vec())));
        assert!(SIGNED.as_ptr_range().contains(&certificate.as_ptr()));
    }
    assert_eq!((found.len(), vuyhanip::part(Part::Certificate, found.len(), SIGNED)), (2, Ok(None)));
    assert_eq!(vuyhanip::certificates(BY_KEY).map(|it| it.len()), Ok(1));
    assert_eq!(vuyhanip::certificates(DETACHED), Ok(vec![]));
    let refused = Error::Refused { reason: Reason::Invalid, place: 4 };
    assert_eq!(vuyhanip::certificates(STORE), Err(refused));
}

#[test]
fn integers_are_in_decimal() {
    let texts: [(&[u8], &str); 6] = [
        (&[0], "0"),
        (&[0x7F], "127"),
        (&[0x80], "-128"),
        (&[0, 0x80], "128"),
        (&[0xFF], "-1"),
        (&[1, 0, 0, 0, 0, 0, 0, 0, 0], "18446744073709551616"),
    ];
    for (contents, text) in texts {
        assert_eq!(vuyhanip::integer_text(contents).as_deref(), Ok(text));
    }
    assert!(vuyhanip::integer_text(&[]).is_err() && vuyhanip::integer_text(&[1; 1025]).is_err());
}

#[test]
fn parts_of_enveloped_data_are_where_they_are() {
    assert_eq!(vuyhanip::recipients(ENVELOPE), Ok(vec![&ENVELOPE[22..24]]));
    assert_eq!(vuyhanip::encryption_algorithm(ENVELOPE), Ok(Some(&ENVELOPE[37..44])));
    assert_eq!(vuyhanip::encrypted_content(ENVELOPE), Ok(Some(&ENVELOPE[46..48])));
    assert_eq!(vuyhanip::certificates(ENVELOPE), Err(Error::Refused { reason: Reason::Invalid, place: 2 }));
    let places = [30..204, 204..373, 373..424, 424..538];
    assert_eq!(vuyhanip::recipients(RECIPIENTS), Ok(places.map(|place| &RECIPIENTS[place]).to_vec()));
    assert_eq!(vuyhanip::encryption_algorithm(RECIPIENTS), Ok(Some(&RECIPIENTS[551..582])));
    assert_eq!(vuyhanip::encrypted_content(RECIPIENTS), Ok(Some(&RECIPIENTS[584..600])));
}

#[test]
fn attributes_are_elements() {
    let attributes = vuyhanip::attributes(SIGNED, 0, true).unwrap().unwrap();
    assert!(attributes.len() > 1 && attributes.iter().all(|it| it[0] == 0x30));
    assert_eq!(attributes[0].as_ptr_range().end, attributes[1].as_ptr());
    assert_eq!(vuyhanip::attributes(SIGNED, 0, false), Ok(Some(vec![])));
    assert_eq!(vuyhanip::attributes(SIGNED, 1, true), Ok(None));
}
