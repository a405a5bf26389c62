//! Brings the Rust original into the build, unchanged, after making sure that it is the original.

use std::path::{Path, PathBuf};
use std::process::{exit, Command};
use std::{env, fs};

/// Where the original lies if `PRETTY_RS` does not say, seen from this folder.
const DEFAULT: &str = "../../shared/docs/src/src/print/pretty.rs";

/// The SHA-256 of the original.
const SHA256: &str = "9b294136f66544301bb5f6a0b81a6e3892f5bd4a0e584a3c36df86a3913f5830";

/// Added below the copy: a file may be rendered without a layout, and the tree
/// after a layout has to be seen, while the original keeps the field private.
const DOOR: &str = "
impl FragmentPostLayout {
    pub fn from_fragment(fragment: Fragment) -> Self {
        Self(fragment)
    }

    pub fn into_fragment(self) -> Fragment {
        self.0
    }
}
";

fn main() {
    println!("cargo:rerun-if-env-changed=PRETTY_RS");
    println!("cargo:rerun-if-changed=build.rs");
    if let Err(why) = bring_in() {
        eprintln!("{why}\n\n{}", how_to_get_it());
        exit(1);
    }
}

fn bring_in() -> Result<(), String> {
    let original = PathBuf::from(env::var("PRETTY_RS").unwrap_or(DEFAULT.into()));
    println!("cargo:rerun-if-changed={}", original.display());
    let text = fs::read_to_string(&original)
        .map_err(|e| format!("cannot read the original {}: {e}", original.display()))?;
    let found = sha256(&original)?;
    if found != SHA256 {
        let place = original.display();
        return Err(format!(
            "{place} is not the original: its SHA-256 is {found}"
        ));
    }
    let out = PathBuf::from(env::var("OUT_DIR").map_err(|e| e.to_string())?);
    let copy = out.join("pretty.rs");
    write(&copy, &(text + DOOR))?;
    // Much of the original is not covered by the port, hence not used here.
    let line = format!("#[allow(dead_code)]\n#[path = {copy:?}]\npub mod pretty;\n");
    write(&out.join("print.rs"), &line)
}

fn sha256(file: &Path) -> Result<String, String> {
    let done = Command::new("sha256sum")
        .arg(file)
        .output()
        .map_err(|e| format!("cannot run sha256sum: {e}"))?;
    let line = String::from_utf8_lossy(&done.stdout).into_owned();
    let word = line.split_whitespace().next().unwrap_or_default();
    Ok(word.trim_start_matches('\\').to_string())
}

fn write(file: &Path, text: &str) -> Result<(), String> {
    fs::write(file, text).map_err(|e| format!("cannot write {}: {e}", file.display()))
}

fn how_to_get_it() -> String {
    format!(
        "The judge wraps src/print/pretty.rs of https://github.com/Rust-GPU/spirt,\n\
         with the SHA-256 {SHA256}.\n\
         In a clone of that repository\n\
         \n    git show e8757adba8:src/print/pretty.rs > pretty.rs\n\
         \nwrites it. Set PRETTY_RS to its full path and build again.\n\
         \nWithout PRETTY_RS it is looked for at {DEFAULT}, seen from this folder."
    )
}
