//! `parts FILE` lists the parts of a container, one after another, in hexadecimal, or says why each is refused.
use std::error::Error;
use vuyhanip::{part, Part};

/// Each part, and how many a container may have of it.
const PARTS: [(Part, usize); 16] = [
    (Part::HashedContent, 1),
    (Part::Certificate, usize::MAX),
    (Part::SignedAttributes, usize::MAX),
    (Part::Issuer, usize::MAX),
    (Part::SerialNumber, usize::MAX),
    (Part::KeyIdentifier, usize::MAX),
    (Part::DigestAlgorithm, usize::MAX),
    (Part::SignatureAlgorithm, usize::MAX),
    (Part::Signature, usize::MAX),
    (Part::StoreCertificate, usize::MAX),
    (Part::StoreKey, usize::MAX),
    (Part::StoreEncryptedKey, usize::MAX),
    (Part::StoreBag, usize::MAX),
    (Part::MacDigestAlgorithm, 1),
    (Part::MacDigest, 1),
    (Part::MacSalt, 1),
];

fn main() -> Result<(), Box<dyn Error>> {
    let path = std::env::args().nth(1).ok_or("usage: parts FILE")?;
    let file = std::fs::read(path)?;
    let signers = vuyhanip::signers(&file).map_or(0, |signers| signers.len());
    for (which, most) in PARTS {
        for index in 0..most {
            match part(which, index, &file) {
                Ok(Some(octets)) => {
                    let digits: String = octets.iter().map(|octet| format!("{octet:02X}")).collect();
                    println!("{which:?} {index} {digits}");
                }
                // a signer after this one may have what it lacks
                Ok(None) if index < signers => (),
                Ok(None) => break,
                Err(error) => {
                    println!("{which:?} {error}");
                    break;
                }
            }
        }
    }
    Ok(())
}
