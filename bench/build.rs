// Links the library that `rt lib` made, and the C archive that it stands on.
use std::{env, path::Path};

fn main() {
    let exported = Path::new(env!("CARGO_MANIFEST_DIR")).join("../crates/exported/out");
    let kit = env::var("KIT").expect("KIT, the toolchain's folder, as bench/run sets it");
    println!("cargo:rerun-if-env-changed=KIT");
    println!("cargo:rerun-if-changed={}", exported.join("libexported.a").display());
    println!("cargo:rustc-link-search=native={}", exported.display());
    println!("cargo:rustc-link-lib=static=exported");
    println!("cargo:rustc-link-search=native={kit}/c");
    println!("cargo:rustc-link-lib=static=libc_c");
}
