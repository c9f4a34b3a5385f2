//! Links the proved archive.

use std::path::Path;

/// The archive's file.
const ARCHIVE: &str = "libadv7195_c.a";
/// Where it stands, from this package.
const FOLDER: &str = "../../target/staticlib";

fn main() {
    let folder = Path::new(env!("CARGO_MANIFEST_DIR")).join(FOLDER);
    let archive = folder.join(ARCHIVE);
    assert!(
        archive.exists(),
        "the archive {} isn't made yet: `tools/build adv7195_c` makes it",
        archive.display()
    );
    println!("cargo:rustc-link-search=native={}", folder.display());
    println!("cargo:rustc-link-lib=static=adv7195_c");
    println!("cargo:rerun-if-changed={}", archive.display());
    println!("cargo:rerun-if-changed=build.rs");
}
