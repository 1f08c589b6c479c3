//! `store FILE` says of a key store whether it is normal, and what its MAC covers.
use std::error::Error;

fn main() -> Result<(), Box<dyn Error>> {
    let path = std::env::args().nth(1).ok_or("usage: store FILE")?;
    let file = std::fs::read(path)?;
    let verdict = vuyhanip::check("rawpfx", &file)?;
    println!("{}, {} octets", if verdict.is_normal { "normal" } else { "loose" }, file.len());
    if let Some(mac) = vuyhanip::mac(&file)? {
        println!("its MAC covers {} octets, by {} iterations", mac.covered.len(), mac.iterations);
    }
    Ok(())
}
