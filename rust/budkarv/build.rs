//! Links the archive `libdesk.a`, which `rt lib` writes in `crates/desk`, into its folder `out`.
//! BUDKARV_ARCHIVE may name another folder that holds it, by its absolute path.

use std::env;
use std::path::PathBuf;
use std::process;

fn main() {
    println!("cargo:rerun-if-env-changed=BUDKARV_ARCHIVE");
    let folder = match env::var_os("BUDKARV_ARCHIVE") {
        Some(folder) => PathBuf::from(folder),
        None => PathBuf::from(env!("CARGO_MANIFEST_DIR")).join("../../crates/desk/out"),
    };
    let archive = folder.join("libdesk.a");
    println!("cargo:rerun-if-changed={}", archive.display());
    if !archive.is_file() {
        eprintln!("{} is missing: run `rt lib` in crates/desk first", archive.display());
        process::exit(1);
    }
    println!("cargo:rustc-link-search=native={}", folder.display());
    println!("cargo:rustc-link-lib=static=desk");
}
