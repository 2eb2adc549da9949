//! Finds the library: below the folder `SERDE_QS_DIR` if that is set, or else by `pkg-config`.
//!
//! Links the static library, so that a program needs no other file. If that is missing or `SERDE_QS_SHARED` is set, links the shared one.
//! Without the library the crate can't be compiled, and says why; its documentation can be built.

use std::env;
use std::path::{Path, PathBuf};
use std::process::Command;

/// The version of the library that this crate is written for. A later one of the same major version is right too.
const WANTED: [u32; 3] = [1, 1, 3];

fn main() {
    println!("cargo:rerun-if-changed=build.rs");
    println!("cargo:rustc-check-cfg=cfg(serde_qs_missing)");
    for name in ["SERDE_QS_DIR", "SERDE_QS_SHARED", "PKG_CONFIG", "PKG_CONFIG_PATH", "PKG_CONFIG_LIBDIR", "DOCS_RS"] {
        println!("cargo:rerun-if-env-changed={name}");
    }
    match library() {
        Ok(file) => link(&file),
        Err(_) if env::var_os("DOCS_RS").is_some() => (),
        Err(why) => {
            let why = why.split_whitespace().collect::<Vec<_>>().join(" ");
            // A file that isn't there lets this script run again each time.
            println!("cargo:rerun-if-changed=no-library-was-found");
            println!("cargo:rustc-cfg=serde_qs_missing");
            println!(
                "cargo:rustc-env=SERDE_QS_MISSING=the library serde_qs isn't found: {why} (set SERDE_QS_DIR to the folder that it is installed below, \
                 or PKG_CONFIG_PATH to the folder that has serde_qs.pc)"
            );
        }
    }
}

/// Links the library. If the file changes, programs are linked anew.
fn link(file: &Path) {
    let kind = if file.extension().map_or(false, |end| end == "a") { "static" } else { "dylib" };
    println!("cargo:rerun-if-changed={}", file.display());
    println!("cargo:rustc-link-search=native={}", file.parent().unwrap_or(Path::new(".")).display());
    println!("cargo:rustc-link-lib={kind}=serde_qs");
}

/// The file of the library.
fn library() -> Result<PathBuf, String> {
    let folders = match env::var_os("SERDE_QS_DIR") {
        Some(folder) => ["lib", "lib64", "lib/x86_64-linux-gnu", ""].map(|below| Path::new(&folder).join(below)).to_vec(),
        None => vec![folder_by_pkg_config()?],
    };
    let names = if env::var_os("SERDE_QS_SHARED").is_some() { ["libserde_qs.so", "libserde_qs.a"] } else { ["libserde_qs.a", "libserde_qs.so"] };
    let mut files = folders.iter().flat_map(|folder| names.map(|name| folder.join(name)));
    files.find(|file| file.exists()).ok_or_else(|| format!("{} has neither libserde_qs.a nor libserde_qs.so", folders[0].display()))
}

fn folder_by_pkg_config() -> Result<PathBuf, String> {
    let program = env::var_os("PKG_CONFIG").unwrap_or_else(|| "pkg-config".into());
    let ask = |words: &[&str]| {
        let run = Command::new(&program).args(words).output().map_err(|error| format!("{}: {error}", program.to_string_lossy()))?;
        let text = |bytes: &[u8]| String::from_utf8_lossy(bytes).trim().to_owned();
        if run.status.success() { Ok(text(&run.stdout)) } else { Err(format!("{}: {}", program.to_string_lossy(), text(&run.stderr))) }
    };
    let [major, minor, patch] = WANTED;
    let (least, next) = (format!("serde_qs >= {major}.{minor}.{patch}"), format!("serde_qs < {}", major + 1));
    ask(&["--print-errors", "--exists", &least, &next])?;
    ask(&["--variable=libdir", "serde_qs"]).map(PathBuf::from)
}
