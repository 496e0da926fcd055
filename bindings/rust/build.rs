//! Links the archive `liborgamish_c.a`.

use std::env;
use std::path::{Path, PathBuf};
use std::process::exit;

const ARCHIVE: &str = "liborgamish_c.a";

fn main() {
    println!("cargo:rerun-if-env-changed=ORGAMISH_LIB_DIR");
    let folder = folder_of_archive();
    println!("cargo:rerun-if-changed={}", folder.join(ARCHIVE).display());
    let Ok(archive) = folder.join(ARCHIVE).canonicalize() else {
        complain(&folder);
    };
    let folder = archive.parent().expect("a file lies in a folder");
    println!("cargo:rustc-link-search=native={}", folder.display());
    println!("cargo:rustc-link-lib=static=orgamish_c");
}

fn folder_of_archive() -> PathBuf {
    env::var_os("ORGAMISH_LIB_DIR").map_or("../../target/staticlib".into(), PathBuf::from)
}

fn complain(folder: &Path) -> ! {
    eprintln!("There is no {ARCHIVE} in {}.", folder.display());
    eprintln!("Make it at the root of Orgamish's repository: make target/staticlib/liborgamish_c.a");
    eprintln!("An archive that lies elsewhere: name its folder in ORGAMISH_LIB_DIR.");
    exit(1)
}
