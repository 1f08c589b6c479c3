//! Finds the static library: in the folder that VUYHANIP_LIB_DIR names, or where the crate was installed with it, or by
//! pkg-config. The library has to be of the version of the crate, since its structs may be others in another version.
use std::env;
use std::path::{Path, PathBuf};
use std::process::Command;

const FILE: &str = "libvuyhanip.a";

fn by_pkg_config() -> Option<PathBuf> {
    let said = Command::new("pkg-config").args(["--variable=libdir", "vuyhanip"]).output().ok()?;
    let folder = String::from_utf8(said.stdout).ok()?;
    said.status.success().then(|| PathBuf::from(folder.trim()))
}

fn folder() -> Option<PathBuf> {
    if let Some(folder) = env::var_os("VUYHANIP_LIB_DIR") {
        return Some(folder.into());
    }
    let installed = Path::new(&env::var_os("CARGO_MANIFEST_DIR")?).join("../../..");
    let mut beside = ["lib", "lib/x86_64-linux-gnu"].into_iter().map(|name| installed.join(name));
    beside.find(|folder| folder.join(FILE).exists()).or_else(by_pkg_config)
}

/// Whether the library says that it is of the version of this crate, which package/install wrote into both. The crate of
/// a clone has none.
fn is_of_this_version(library: &Path) -> bool {
    let version = env!("CARGO_PKG_VERSION").replacen("-dev.", ".dev", 1);
    // as der_version returns it: a string of C, with its end
    let wanted = format!("{version}\0");
    let octets = std::fs::read(library).unwrap_or_default();
    version == "0.0.0" || octets.windows(wanted.len()).any(|it| it == wanted.as_bytes())
}

fn main() {
    println!("cargo:rerun-if-env-changed=VUYHANIP_LIB_DIR");
    let found = folder().filter(|folder| folder.join(FILE).exists());
    let folder = found.unwrap_or_else(|| panic!("{FILE} is not found: set VUYHANIP_LIB_DIR to its folder"));
    if !is_of_this_version(&folder.join(FILE)) {
        panic!("{} isn't of version {}, as this crate is", folder.join(FILE).display(), env!("CARGO_PKG_VERSION"));
    }
    println!("cargo:rerun-if-changed={}", folder.join(FILE).display());
    println!("cargo:rustc-link-search=native={}", folder.display());
    println!("cargo:rustc-link-lib=static=vuyhanip");
}
