//! Finds the archive of the proved library: in the folder MFS_LIB_DIR, or where `scripts/archive` leaves it.
use std::env;
use std::path::PathBuf;

fn main() {
    println!("cargo::rerun-if-env-changed=MFS_LIB_DIR");
    match archive_folder().and_then(with_archive) {
        Ok(folder) => {
            println!("cargo::rerun-if-changed={}", folder.join("libmfs_c.a").display());
            println!("cargo::rustc-link-search=native={}", folder.display());
            println!("cargo::rustc-link-lib=static=mfs_c");
        }
        Err(reason) => println!("cargo::error={reason}"),
    }
}

fn archive_folder() -> Result<PathBuf, String> {
    let Some(given) = env::var_os("MFS_LIB_DIR").map(PathBuf::from) else {
        let bindings = env::var_os("CARGO_MANIFEST_DIR").expect("Cargo says where the package is");
        return Ok(PathBuf::from(bindings).join("../target/staticlib"));
    };
    // Cargo runs this program in another folder than the one that a relative path was meant for.
    if given.is_absolute() {
        Ok(given)
    } else {
        Err(format!("MFS_LIB_DIR is {}: give the archive's folder by its full path", given.display()))
    }
}

fn with_archive(folder: PathBuf) -> Result<PathBuf, String> {
    if folder.join("libmfs_c.a").is_file() {
        Ok(folder)
    } else {
        Err(format!("no libmfs_c.a in {}: run `scripts/archive` first, or give its folder as MFS_LIB_DIR", folder.display()))
    }
}
