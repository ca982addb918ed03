//! Puts the texts of the original Rust and the stand-ins for its surroundings together in the folder of the build's output; nothing
//! of them goes into the repository. MOROS_SRC names the folder of the original, which holds src/sys/fs; a relative one counts from
//! the top of the repository. Without it the package holds calls that can't be made.
use std::env;
use std::fs;
use std::path::{Path, PathBuf};

fn main() {
    println!("cargo::rustc-check-cfg=cfg(original)");
    println!("cargo::rerun-if-env-changed=MOROS_SRC");
    println!("cargo::rerun-if-env-changed=RUSTC_BOOTSTRAP");
    let out = PathBuf::from(var("OUT_DIR"));
    let package = PathBuf::from(var("CARGO_MANIFEST_DIR"));
    write_k(&out);
    let Some(source) = source_folder(&package.join("../../..")) else { return };
    if env::var_os("RUSTC_BOOTSTRAP").is_none() {
        println!("cargo::error=the original has the unstable attribute test_case: set RUSTC_BOOTSTRAP=1, or unset MOROS_SRC");
        return;
    }
    let crate_root = out.join("moros");
    copy_texts(&source.join("sys/fs"), &crate_root.join("sys/fs"));
    copy(&source.join("api/fs.rs"), &crate_root.join("api/fs.rs"));
    copy_texts(&package.join("../../standins/moros"), &crate_root);
    println!("cargo::rustc-cfg=original");
}

fn var(name: &str) -> String {
    env::var(name).unwrap_or_else(|_| panic!("cargo gives {name}"))
}

/// The number at the end of the package's name is K.
fn write_k(out: &Path) {
    let name = var("CARGO_PKG_NAME");
    let k = name.strip_prefix("original_k").expect("a package named original_kNUMBER");
    let text = format!("/// The superblock's block number.\npub const K: u32 = {k};\n");
    fs::write(out.join("k.rs"), text).expect("the build's output can be written");
}

/// The original's folder `src`, if it is at hand.
fn source_folder(top: &Path) -> Option<PathBuf> {
    let source = top.join(env::var_os("MOROS_SRC")?).join("src");
    println!("cargo::rerun-if-changed={}", source.join("sys/fs").display());
    println!("cargo::rerun-if-changed={}", source.join("api/fs.rs").display());
    source.join("sys/fs/mod.rs").is_file().then_some(source)
}

/// Copies the Rust texts of a folder and of those in it. Stand-ins come last, over what a whole checkout of the original has in
/// their place.
fn copy_texts(from: &Path, to: &Path) {
    println!("cargo::rerun-if-changed={}", from.display());
    let entries = fs::read_dir(from).unwrap_or_else(|e| panic!("{}: {e}", from.display()));
    for entry in entries {
        let path = entry.expect("a folder's entry").path();
        let target = to.join(path.file_name().expect("an entry has a name"));
        if path.is_dir() {
            copy_texts(&path, &target);
        } else if path.extension().is_some_and(|e| e == "rs") {
            copy(&path, &target);
        }
    }
}

fn copy(from: &Path, to: &Path) {
    let folder = to.parent().expect("a file is in a folder");
    fs::create_dir_all(folder).unwrap_or_else(|e| panic!("{}: {e}", folder.display()));
    let text = fs::read(from).unwrap_or_else(|e| panic!("{}: {e}", from.display()));
    fs::write(to, text).unwrap_or_else(|e| panic!("{}: {e}", to.display()));
}
