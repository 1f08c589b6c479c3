//! `bags FILE` lists the bags of a key store that aren't encrypted: what each holds, how long that is, and its name.
use std::error::Error;

fn main() -> Result<(), Box<dyn Error>> {
    let path = std::env::args().nth(1).ok_or("usage: bags FILE")?;
    let file = std::fs::read(path)?;
    for bag in vuyhanip::bags(&file)? {
        let name = bag.name().map_or(String::new(), |name| format!(", {name:?}"));
        println!("{}{:?}, {} octets{name}", "  ".repeat(bag.level), bag.kind, bag.value.len());
    }
    Ok(())
}
