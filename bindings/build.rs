//! Links the archive that GRADES_LIBRARY names, or the one that tools/build last made.

use std::env;
use std::path::PathBuf;

fn main() {
    println!("cargo::rerun-if-env-changed=GRADES_LIBRARY");
    let built = || PathBuf::from(env!("CARGO_MANIFEST_DIR")).join("../target/staticlib/libpanel.a");
    let archive = env::var_os("GRADES_LIBRARY").map_or_else(built, PathBuf::from);
    let folder = archive.parent().expect("an archive stands in a folder");
    let name = archive.file_name().expect("an archive has a name");
    println!("cargo::rerun-if-changed={}", archive.display());
    println!("cargo::rustc-link-search=native={}", folder.display());
    println!("cargo::rustc-link-lib=static:+verbatim={}", name.to_string_lossy());
}
