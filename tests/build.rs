//! Links the proved static library when it has been made, and tells the
//! programs the size of an engine's image.
//!
//! `../target/libyoldrim.a` is the library; the size stands in
//! `../include/yoldrim.h`, or in the environment variable
//! `YOLDRIM_ENGINE_BYTES`, which governs. Without the library everything else
//! still builds; a program asked to use it then says so and fails.

use std::{env, fs, path::Path};

const LIBRARY_FOLDER: &str = "../target";
const HEADER: &str = "../include/yoldrim.h";
const SIZE_NAME: &str = "YOLDRIM_ENGINE_BYTES";

fn main() {
    let root = env::var("CARGO_MANIFEST_DIR").expect("Cargo names the project's folder");
    let folder = Path::new(&root).join(LIBRARY_FOLDER);
    let header = Path::new(&root).join(HEADER);
    let library = folder.join("libyoldrim.a");

    println!("cargo:rustc-check-cfg=cfg(library)");
    println!("cargo:rerun-if-env-changed={SIZE_NAME}");
    println!("cargo:rerun-if-changed={}", library.display());
    println!("cargo:rerun-if-changed={}", header.display());
    if !library.exists() {
        return;
    }
    let bytes = env::var(SIZE_NAME)
        .ok()
        .or_else(|| size_in_header(&header))
        .unwrap_or_else(|| panic!("no {SIZE_NAME} in the environment or in {HEADER}"));
    println!("cargo:rustc-cfg=library");
    println!("cargo:rustc-env={SIZE_NAME}={bytes}");
    println!("cargo:rustc-link-search=native={}", folder.display());
    println!("cargo:rustc-link-lib=static=yoldrim");
}

/// The number in the header's line `#define YOLDRIM_ENGINE_BYTES n`.
fn size_in_header(header: &Path) -> Option<String> {
    let text = fs::read_to_string(header).ok()?;
    text.lines().find_map(|line| {
        let mut words = line.split_whitespace();
        let defined = words.next() == Some("#define") && words.next() == Some(SIZE_NAME);
        let digits = words.next()?.trim_matches(|c: char| !c.is_ascii_digit());
        (defined && !digits.is_empty()).then(|| digits.to_string())
    })
}
