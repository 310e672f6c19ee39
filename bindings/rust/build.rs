//! Finds `libcrms_export.a`: in the folder that `CRMS_LIB_DIR` names, else in `crates/crms_export/out` of the repository.
use std::env;
use std::path::PathBuf;

fn main() {
    println!("cargo:rerun-if-env-changed=CRMS_LIB_DIR");
    let folder = match env::var_os("CRMS_LIB_DIR") {
        Some(named) => PathBuf::from(named),
        None => {
            let here = env::var_os("CARGO_MANIFEST_DIR").expect("cargo names the crate's folder");
            PathBuf::from(here).join("../../crates/crms_export/out")
        }
    };
    let archive = folder.join("libcrms_export.a");
    println!("cargo:rerun-if-changed={}", archive.display());
    assert!(
        archive.exists(),
        "{} is not there: write it by `rt lib` in crates/crms_export, or name its folder in CRMS_LIB_DIR",
        archive.display()
    );
    println!("cargo:rustc-link-search=native={}", folder.display());
    println!("cargo:rustc-link-lib=static=crms_export");
}
