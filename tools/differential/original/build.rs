//! Names the original's source file to the compiler: it is read where it lies, and nothing of it is copied.

use std::path::{Path, PathBuf};
use std::{env, fs};

fn main() {
    println!("cargo::rerun-if-env-changed=ORIGINAL");
    let named = env::var_os("ORIGINAL").expect(
        "ORIGINAL must name the folder in which the original's first_last.rs and first_last/state.rs lie",
    );
    let folder = fs::canonicalize(PathBuf::from(named)).expect("the folder that ORIGINAL names");
    for file in ["first_last.rs", "first_last/state.rs"] {
        let file = folder.join(file);
        assert!(file.is_file(), "there is no {}", file.display());
        println!("cargo::rerun-if-changed={}", file.display());
    }
    // A module in that folder, so that the files' own modules are looked for beside them.
    let text = format!("#[path = {folder:?}]\nmod source {{\n    pub mod first_last;\n}}\n");
    let out = env::var_os("OUT_DIR").expect("cargo names a folder for what is made");
    fs::write(Path::new(&out).join("source.rs"), text).expect("a file of two lines");
}
