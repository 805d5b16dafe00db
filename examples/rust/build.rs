// Links the archive that scripts/archive has written, or the one that SLOT_ARCHIVE names.
use std::{env, path::PathBuf, process};

fn main() {
    println!("cargo:rerun-if-env-changed=SLOT_ARCHIVE");
    let archive = match env::var_os("SLOT_ARCHIVE") {
        Some(named) => PathBuf::from(named),
        None => PathBuf::from("../../target/staticlib/libslot.a"),
    };
    let Ok(archive) = archive.canonicalize() else {
        println!("cargo:warning=there is no {}: run scripts/archive first", archive.display());
        process::exit(1);
    };
    println!("cargo:rerun-if-changed={}", archive.display());
    let folder = archive.parent().expect("a file has a folder");
    println!("cargo:rustc-link-search=native={}", folder.display());
    println!("cargo:rustc-link-lib=static=slot");
}
