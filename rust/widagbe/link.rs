//! For build scripts: links an archive.

use std::path::Path;

/// Links the archive, or warns that there is none.
pub fn link(archive: &Path) {
    println!("cargo:rerun-if-changed={}", archive.display());
    match link_name(archive) {
        Some((directory, name)) if archive.is_file() => {
            println!("cargo:rustc-link-search=native={}", directory.display());
            println!("cargo:rustc-link-lib=static={name}");
        }
        _ => println!(
            "cargo:warning=no library at {}: programs that call it will not link",
            archive.display()
        ),
    }
}

/// The directory, and the name without `lib` and `.a`.
fn link_name(archive: &Path) -> Option<(&Path, &str)> {
    let file = archive.file_name()?.to_str()?;
    let name = file.strip_prefix("lib")?.strip_suffix(".a")?;
    Some((archive.parent()?, name))
}
