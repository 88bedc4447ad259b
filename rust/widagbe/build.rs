//! Links the compiled library: the archive that WIDAGBE_LIB names, or the one
//! that `rt lib` leaves in `crates/c_api/out`.

mod link;

use std::env;
use std::path::{Path, PathBuf};

const DEFAULT: &str = "../../crates/c_api/out/libc_api.a";

fn main() {
    println!("cargo:rerun-if-env-changed=WIDAGBE_LIB");
    link::link(&archive());
}

fn archive() -> PathBuf {
    match env::var_os("WIDAGBE_LIB") {
        Some(path) => PathBuf::from(path),
        None => Path::new(&env::var_os("CARGO_MANIFEST_DIR").expect("set by cargo")).join(DEFAULT),
    }
}
