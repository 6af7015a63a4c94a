//! Tells the compiler where the original module stands; `compare/build` knows the place.

use std::{env, path::Path};

fn main() {
    let source = env::var("CART_SOURCE").expect("compare/build sets CART_SOURCE");
    let module = Path::new(&source).join("core/src/cart/mod.rs");
    println!("cargo:rustc-env=CART_MODULE={}", module.display());
    println!("cargo:rerun-if-changed={}", module.display());
    println!("cargo:rerun-if-env-changed=CART_SOURCE");
}
