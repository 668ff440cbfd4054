//! Links the archive that INTAKE_ARCHIVE names; a relative path starts at the root of the repository.
use std::{env, path::Path};

fn main() {
    let root = Path::new(env!("CARGO_MANIFEST_DIR")).join("../..");
    let archive = root.join(env::var("INTAKE_ARCHIVE").unwrap_or("target/staticlib/libintake.a".into()));
    let (Some(folder), Some(file)) = (archive.parent(), archive.file_name()) else { panic!("no path of an archive") };
    println!("cargo:rerun-if-env-changed=INTAKE_ARCHIVE");
    println!("cargo:rerun-if-changed={}", archive.display());
    println!("cargo:rustc-link-search=native={}", folder.display());
    println!("cargo:rustc-link-lib=static:+verbatim={}", file.to_string_lossy());
}
