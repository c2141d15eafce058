//! Links the desk's static library, libvastrudhil.a. It is looked for in the folder that
//! VASTRUDHIL_LIB names, or else where `rt lib` leaves it, crates/vastrudhil/out. VASTRUDHIL_LIB
//! must be an absolute path: cargo runs this script and the linker in folders of its own choice.
//!
//! The library is for x86-64. For another target nothing is linked, so that the crate can still be
//! checked there; VASTRUDHIL_LINK=1 links all the same, for a library of one's own making.

use std::env;
use std::path::PathBuf;

fn main() {
    println!("cargo:rerun-if-env-changed=VASTRUDHIL_LIB");
    println!("cargo:rerun-if-env-changed=VASTRUDHIL_LINK");
    let set_by_cargo = |name| env::var(name).expect("cargo sets it");
    if set_by_cargo("CARGO_CFG_TARGET_ARCH") != "x86_64" && env::var_os("VASTRUDHIL_LINK").is_none()
    {
        return;
    }
    let folder = match env::var_os("VASTRUDHIL_LIB") {
        Some(folder) => PathBuf::from(folder),
        None => PathBuf::from(set_by_cargo("CARGO_MANIFEST_DIR")).join("../crates/vastrudhil/out"),
    };
    if folder.is_relative() {
        println!(
            "cargo:warning=VASTRUDHIL_LIB must be an absolute path, and is {}",
            folder.display()
        );
    }
    let library = folder.join("libvastrudhil.a");
    println!("cargo:rerun-if-changed={}", library.display());
    if !library.exists() {
        println!(
            "cargo:warning=no {}: make it by rt lib --cpu x86-64 in crates/vastrudhil",
            library.display()
        );
    }
    println!("cargo:rustc-link-search=native={}", folder.display());
    println!("cargo:rustc-link-lib=static=vastrudhil");
}
