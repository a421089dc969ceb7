//! Finds the crate's source and writes down where it is. The four files are compiled where they stand, unchanged;
//! of lib.rs, whose other modules are not at hand, the items named below are taken out as they stand.

use std::path::{Path, PathBuf};
use std::{env, fs};

/// How each item that is taken from lib.rs begins. It ends at the first line that is a closing brace alone.
const ITEMS: [&str; 4] = [
    "#[derive(Debug, Clone, Ord, PartialOrd, Eq, PartialEq, Hash, Error, Serialize, Deserialize)]\n#[error(\"{}:{line_number}",
    "#[derive(Debug, Clone, PartialEq, Error)]\npub enum PhoneticError {",
    "fn build_error(",
    "pub trait Encoder {",
];

fn main() {
    println!("cargo:rerun-if-env-changed=RPHONETIC_SRC");
    println!("cargo:rustc-check-cfg=cfg(rphonetic)");
    println!("cargo:rustc-check-cfg=cfg(feature, values(\"embedded_dm\"))");
    let source = source();
    let files = ["daitch_mokotoff.rs", "rules_parser.rs", "helper.rs", "lib.rs"];
    let missing = files.iter().find(|file| !source.join(file).is_file());
    if let Some(file) = missing {
        println!(
            "cargo:warning=the source of rphonetic is not at hand ({} is missing; RPHONETIC_SRC names its folder): nothing is compared with it",
            source.join(file).display()
        );
        println!("cargo:rerun-if-changed={}", source.display());
        return;
    }
    println!("cargo:rustc-cfg=rphonetic");
    for file in files {
        println!("cargo:rerun-if-changed={}", source.join(file).display());
    }
    let lib = fs::read_to_string(source.join("lib.rs")).expect("lib.rs is not text");
    let mut text = String::new();
    for file in ["daitch_mokotoff", "rules_parser", "helper"] {
        let path = source.join(file).with_extension("rs");
        text += &format!("#[path = {path:?}]\npub mod {file};\n");
    }
    for item in ITEMS {
        text += &taken(&lib, item);
    }
    let out = env::var("OUT_DIR").expect("cargo sets OUT_DIR");
    fs::write(Path::new(&out).join("rphonetic.rs"), text).expect("OUT_DIR takes a file");
}

/// The folder of the source: RPHONETIC_SRC, or the papers beside the repository.
fn source() -> PathBuf {
    let here = PathBuf::from(env::var("CARGO_MANIFEST_DIR").expect("cargo sets CARGO_MANIFEST_DIR"));
    let named = env::var("RPHONETIC_SRC").ok().filter(|name| !name.is_empty());
    let folder = match named {
        Some(name) => PathBuf::from(name),
        None => here.join("../../../shared/docs/src/src"),
    };
    folder.canonicalize().unwrap_or(folder)
}

/// The item of lib.rs that begins so, as it stands.
fn taken(lib: &str, begins: &str) -> String {
    let start = lib.find(begins).unwrap_or_else(|| panic!("lib.rs has no item that begins {begins:?}"));
    let length = lib[start..].find("\n}\n").unwrap_or_else(|| panic!("the item {begins:?} has no end"));
    lib[start..start + length + 3].to_string()
}
