//! With the feature `before`, links an earlier library: the archive that WIDAGBE_BEFORE
//! names, whose functions have `before_` in front of their names.

#[path = "../widagbe/link.rs"]
mod link;

use std::env;
use std::path::Path;

fn main() {
    println!("cargo:rerun-if-env-changed=WIDAGBE_BEFORE");
    if env::var_os("CARGO_FEATURE_BEFORE").is_some() {
        let archive = env::var_os("WIDAGBE_BEFORE").expect("WIDAGBE_BEFORE names the archive");
        link::link(Path::new(&archive));
    }
}
