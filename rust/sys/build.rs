//! Links the proved library: the file that WAL_COORDINATION_LIB names, or the one that ../../build writes.

use std::ffi::OsStr;
use std::fs::File;
use std::io::Read;
use std::path::{Path, PathBuf};

/// How every archive that `ar` writes begins, and every shared library.
const ARCHIVE: &[u8] = b"!<arch>\n";
const SHARED: &[u8] = b"\x7fELF";

fn main() {
    println!("cargo:rerun-if-env-changed=WAL_COORDINATION_LIB");
    if std::env::var_os("CARGO_FEATURE_FUNCTIONS").is_none() {
        return;
    }
    let root = PathBuf::from(std::env::var_os("CARGO_MANIFEST_DIR").expect("cargo sets it"));
    let named = std::env::var_os("WAL_COORDINATION_LIB").map(PathBuf::from);
    let library = match &named {
        Some(path) if path.is_absolute() => path.clone(),
        Some(path) => panic!("WAL_COORDINATION_LIB is no absolute path: {}", path.display()),
        None => root.join("../../target/staticlib/libwal_coordination.a"),
    };
    println!("cargo:rerun-if-changed={}", library.display());
    let mut beginning = Vec::new();
    match File::open(&library).and_then(|file| file.take(ARCHIVE.len() as u64).read_to_end(&mut beginning)) {
        Ok(_) => {}
        Err(error) if named.is_some() => panic!("WAL_COORDINATION_LIB: {}: {error}", library.display()),
        Err(error) => panic!("{}: {error}: run ./build in the repository first", library.display()),
    }
    let kind = match beginning {
        bytes if bytes == ARCHIVE => "static",
        bytes if bytes.starts_with(SHARED) => "dylib",
        _ => panic!("{} is no static library, and no shared one", library.display()),
    };
    // By its whole file name: the name that rustc would make of the crate's could be another file of the folder.
    let place = library.parent().and_then(Path::to_str).zip(library.file_name().and_then(OsStr::to_str));
    let (folder, name) = place.unwrap_or_else(|| panic!("{} is no path in UTF-8", library.display()));
    println!("cargo:rustc-link-search=native={folder}");
    println!("cargo:rustc-link-lib={kind}:+verbatim={name}");
}
