//! Links the archives in the directory that RULE_LIBRARIES names.

use std::path::PathBuf;

fn main() {
    println!("cargo:rerun-if-env-changed=RULE_LIBRARIES");
    let directory = std::env::var_os("RULE_LIBRARIES").expect("RULE_LIBRARIES names a directory");
    let directory = PathBuf::from(directory)
        .canonicalize()
        .expect("the directory is there");
    println!("cargo:rustc-link-search=native={}", directory.display());
    for name in ["libfirmware.a", "libstepping.a", "libdesk.a"] {
        let archive = directory.join(name);
        println!("cargo:rerun-if-changed={}", archive.display());
        println!("cargo:rustc-link-lib=static:+verbatim={name}");
    }
}
