//! Says where libzengilvar.a is: in the folder that ZENGILVAR_LIB names, or where `tools/archive` puts it.

use std::env;
use std::path::PathBuf;

fn main() {
    println!("cargo:rerun-if-env-changed=ZENGILVAR_LIB");
    let here = PathBuf::from(env::var("CARGO_MANIFEST_DIR").expect("cargo sets CARGO_MANIFEST_DIR"));
    let named = env::var("ZENGILVAR_LIB").ok().filter(|name| !name.is_empty());
    let folder = match named {
        Some(name) => PathBuf::from(name),
        None => here.join("../../target/staticlib"),
    };
    let archive = folder.join("libzengilvar.a");
    println!("cargo:rerun-if-changed={}", archive.display());
    if !archive.is_file() {
        eprintln!(
            "There is no {}. Make it with `tools/archive`, or name its folder in ZENGILVAR_LIB.",
            archive.display()
        );
        std::process::exit(1);
    }
    let folder = folder.canonicalize().unwrap_or(folder);
    println!("cargo:rustc-link-search=native={}", folder.display());
    println!("cargo:rustc-link-lib=static=zengilvar");
}
