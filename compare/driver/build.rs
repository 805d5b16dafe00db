//! Links libslot.a, which stands in the folder that SLOT_ARCHIVE_DIR names.

use std::path::Path;

fn main() {
    println!("cargo:rerun-if-env-changed=SLOT_ARCHIVE_DIR");
    println!("cargo:rerun-if-changed=build.rs");
    let folder = std::env::var("SLOT_ARCHIVE_DIR")
        .expect("SLOT_ARCHIVE_DIR names the folder of libslot.a; the scripts run and bench set it");
    let archive = Path::new(&folder).join("libslot.a");
    assert!(archive.is_file(), "no libslot.a in SLOT_ARCHIVE_DIR");
    println!("cargo:rerun-if-changed={}", archive.display());
    println!("cargo:rustc-link-search=native={folder}");
    println!("cargo:rustc-link-lib=static=slot");
}
