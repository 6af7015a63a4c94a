//! Tells the compiler where the installed archive is: in the folder that GBASAVE_PREFIX names, relative to this one, or else
//! where the repository's `./install` puts it.

use std::{env, path::Path};

fn main() {
    let prefix = env::var("GBASAVE_PREFIX").unwrap_or_else(|_| "../../target/gbasave".into());
    let here = env::var("CARGO_MANIFEST_DIR").expect("cargo names the crate's folder");
    let prefix = Path::new(&here).join(prefix);
    let (lib, header) = (prefix.join("lib"), prefix.join("include/gbasave.h"));
    let archive = lib.join("libgbasave.a");
    assert!(archive.is_file(), "{} is missing; run ./install, or set GBASAVE_PREFIX to its prefix", archive.display());
    println!("cargo:rustc-link-search=native={}", lib.display());
    println!("cargo:rustc-env=GBASAVE_HEADER={}", header.display());
    println!("cargo:rerun-if-changed={}", archive.display());
    println!("cargo:rerun-if-env-changed=GBASAVE_PREFIX");
}
