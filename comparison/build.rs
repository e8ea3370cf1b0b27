//! Links the archive of the verified library.

use std::env;
use std::path::Path;

fn main() {
    let package = env::var("CARGO_MANIFEST_DIR").expect("cargo names the package folder");
    let folder = Path::new(&package).join("../lib/x86_64-linux");
    let archive = folder.join("libmultisize.a");
    println!("cargo::rerun-if-changed={}", archive.display());
    if !archive.exists() {
        println!(
            "cargo::error=lib/x86_64-linux/libmultisize.a is missing: run `./carve renew` first"
        );
        return;
    }
    println!("cargo::rustc-link-search=native={}", folder.display());
    println!("cargo::rustc-link-lib=static=multisize");
}
