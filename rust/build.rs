//! Links the library: EMBASSY_BOOT_LIB is the folder that holds libembassy_boot.a. A relative path is taken from this folder;
//! without the variable it is where the toolchain writes static libraries.

use std::env;
use std::path::Path;

/// What the toolchain makes code for.
const ARCHITECTURE: &str = "x86_64";

fn main() {
    println!("cargo::rerun-if-env-changed=EMBASSY_BOOT_LIB");
    let given = env::var("EMBASSY_BOOT_LIB").unwrap_or("../target/staticlib".to_string());
    let here = env::var("CARGO_MANIFEST_DIR").expect("cargo sets CARGO_MANIFEST_DIR");
    let folder = Path::new(&here).join(given);
    let library = folder.join("libembassy_boot.a");
    // looked at again when it is made
    println!("cargo::rerun-if-changed={}", library.display());

    let target = env::var("CARGO_CFG_TARGET_ARCH").expect("cargo sets CARGO_CFG_TARGET_ARCH");
    if target != ARCHITECTURE {
        return say_no(&format!(
            "libembassy_boot.a is made for {ARCHITECTURE}, and this build is for {target}"
        ));
    }
    if !library.is_file() {
        return say_no(&format!(
            "{} isn't there: run `./build` in the repository's root, or set EMBASSY_BOOT_LIB to its folder",
            library.display()
        ));
    }
    println!("cargo::rustc-link-search=native={}", folder.display());
    // linked where a program is, and not copied into this crate: it may be a Rust library with its own copy of the standard one
    println!("cargo::rustc-link-lib=static:-bundle=embassy_boot");
}

/// Stops the build with one line.
fn say_no(why: &str) {
    println!("cargo::error={why}");
}
