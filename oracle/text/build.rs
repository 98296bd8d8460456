//! Copies the published files to OUT_DIR, under the names that src/lib.rs includes them by.
//!
//! For the package `text` they stay as they are; for `text-patched` the patch is applied to the copy.
//! `../build` looks for folder and files first, so that what is missing is said in one sentence before cargo starts.

use std::path::{Path, PathBuf};
use std::process::{exit, Command};
use std::{env, fs};

/// Files compiled whole.
const WHOLE: [&str; 8] = [
    "classic/clvm/__type_compatibility__.rs",
    "classic/clvm/casts.rs",
    "classic/clvm/sexp.rs",
    "classic/clvm_tools/node_path.rs",
    "classic/clvm_tools/pattern_match.rs",
    "classic/clvm_tools/stages/stage_2/helpers.rs",
    "classic/clvm_tools/stages/stage_2/optimize.rs",
    "util/mod.rs",
];

/// Files of which some neighbouring items are taken: from the first line given to the end of the item
/// that begins at the second.
const PARTS: [(&str, &str, &str); 2] = [
    (
        "classic/clvm_tools/stages/stage_0.rs",
        "#[derive(Default)]\npub struct RunProgramOption {\n",
        "pub trait TRunProgram {\n",
    ),
    (
        "classic/clvm_tools/stages/stage_2/operators.rs",
        "#[derive(Debug, Clone, PartialEq, Eq, Hash)]\npub enum AllocatorRefOrTreeHash {\n",
        "impl AllocatorRefOrTreeHash {\n",
    ),
];

fn stop(sentence: String) -> ! {
    eprintln!("{sentence}");
    exit(1)
}

fn folder(oracle: &Path) -> PathBuf {
    if let Some(given) = env::var_os("UMLAZGRIN_SRC").filter(|v| !v.is_empty()) {
        return PathBuf::from(given);
    }
    let own = oracle.join("../docs/src");
    if own.is_dir() {
        own
    } else {
        oracle.join("../../shared/docs/src")
    }
}

fn read(folder: &Path, file: &str) -> String {
    let flat = format!("src--src--{}.txt", file.replace('/', "--"));
    for name in [flat, format!("src/{file}"), file.to_string()] {
        let path = folder.join(name);
        if path.is_file() {
            println!("cargo:rerun-if-changed={}", path.display());
            return fs::read_to_string(&path)
                .unwrap_or_else(|e| stop(format!("The file {} cannot be read: {e}.", path.display())));
        }
    }
    stop(format!(
        "The published file src/{file} is not in the folder {}; UMLAZGRIN_SRC names the folder.",
        folder.display()
    ))
}

fn part(file: &str, text: &str, from: &str, last: &str) -> String {
    let found = text.find(from).and_then(|start| {
        let last = start + text[start..].find(last)?;
        let end = last + text[last..].find("\n}\n")? + 3;
        Some(text[start..end].to_string())
    });
    found.unwrap_or_else(|| stop(format!("The published file src/{file} is not as expected.")))
}

fn main() {
    println!("cargo:rerun-if-env-changed=UMLAZGRIN_SRC");
    let package = PathBuf::from(env::var_os("CARGO_MANIFEST_DIR").unwrap());
    let oracle = package.parent().unwrap();
    let out = PathBuf::from(env::var_os("OUT_DIR").unwrap());
    let folder = folder(oracle);

    for file in WHOLE {
        let copy = out.join(file.replace('/', "--"));
        fs::write(copy, read(&folder, file)).unwrap();
    }
    for (file, from, last) in PARTS {
        let copy = out.join(file.replace('/', "--"));
        fs::write(copy, part(file, &read(&folder, file), from, last)).unwrap();
    }

    if env::var("CARGO_PKG_NAME").unwrap() == "text-patched" {
        let diff = oracle.join("patches/optimize.diff");
        println!("cargo:rerun-if-changed={}", diff.display());
        let copy = out.join("classic--clvm_tools--stages--stage_2--optimize.rs");
        let applied = Command::new("patch")
            .args(["--silent", "--fuzz=0", "--no-backup-if-mismatch"])
            .arg(&copy)
            .arg(&diff)
            .status();
        match applied {
            Ok(status) if status.success() => {}
            _ => stop(format!("The patch {} does not apply.", diff.display())),
        }
    }
}
