//! Says where the proved library lies: in the folder that `HAZOMENY_LIB` names, else where `tools/library` writes it.

use std::os::unix::process::parent_id;
use std::path::{Path, PathBuf};
use std::process::exit;
use std::{env, fs};

/// Where `tools/library` writes the library, seen from this folder.
const DEFAULT: &str = "../../target/staticlib";

fn main() {
    println!("cargo:rerun-if-changed=build.rs");
    println!("cargo:rerun-if-env-changed=HAZOMENY_LIB");
    match folder().and_then(|folder| find(&folder)) {
        Ok(folder) => {
            println!("cargo:rustc-link-search=native={}", folder.display());
            println!("cargo:rustc-link-lib=static=hazomeny");
        }
        Err(why) => {
            eprintln!("{why}");
            exit(1);
        }
    }
}

/// A library of another machine would only be found out by the linker, in its
/// own words; who names a folder knows what lies there.
fn folder() -> Result<PathBuf, String> {
    if let Some(folder) = env::var_os("HAZOMENY_LIB").map(PathBuf::from) {
        return match folder.is_absolute() {
            true => Ok(folder),
            false => Ok(called_in()?.join(folder)),
        };
    }
    let target = env::var("TARGET").unwrap_or_default();
    match target.starts_with("x86_64-") && target.contains("-linux-") {
        true => Ok(DEFAULT.into()),
        false => Err(format!(
            "{DEFAULT}/libhazomeny.a is for x86-64 Linux, not for {target}"
        )),
    }
}

/// The folder that cargo was called in, from which a relative `HAZOMENY_LIB` counts. Cargo, which runs this, is still there, while this runs in
/// the crate's folder.
fn called_in() -> Result<PathBuf, String> {
    println!("cargo:rerun-if-env-changed=PWD");
    let cargo = format!("/proc/{}/cwd", parent_id());
    let unknown = |why| format!("{cargo}: {why}; HAZOMENY_LIB has to be a full path here");
    fs::read_link(&cargo).map_err(unknown)
}

fn find(folder: &Path) -> Result<PathBuf, String> {
    let library = folder.join("libhazomeny.a");
    println!("cargo:rerun-if-changed={}", library.display());
    let missing = |why| {
        let library = library.display();
        format!("{library}: {why}; `tools/library` makes it, and HAZOMENY_LIB names another folder")
    };
    fs::metadata(&library).map_err(missing)?;
    fs::canonicalize(folder).map_err(missing)
}
