//! A library with other exports than these bindings call: a program is built with such a one, whose every export but
//! the version ends it.
use std::fs;
use std::path::Path;
use std::process::Command;

const RAW: &str = include_str!("../src/raw.rs");

const PROGRAM: &str = r#"fn main() {
    let mut image = vec![7; 4200 * mfs::BLOCK_SIZE];
    let mut handle = mfs::Handle::from_parts(0, 0, 0, 0, [0; mfs::NAME_LEN], 1);
    let other = mfs::Refusal::OtherVersion(mfs::EXPORTS_VERSION + 1);
    let mut volume = mfs::Volume::new(&mut image, 8, mfs::CODE_512);
    assert_eq!(volume.check(), Err(other));
    assert_eq!(volume.usage(), Err(other));
    assert_eq!(volume.open("/x"), Err(other));
    assert_eq!(volume.info("/x"), Err(other));
    assert_eq!(volume.list("/x"), Err(other));
    assert_eq!(volume.read(&mut handle, &mut [0]), Err(other));
    assert_eq!(handle.seek(mfs::SeekFrom::Start(0)), Err(other));
    assert_eq!(volume.create_file("/x", 1), Err(other));
    assert_eq!(volume.create_dir("/x", 1), Err(other));
    assert_eq!(volume.delete("/x", 1), Err(other));
    assert_eq!(volume.write(&mut handle, b"x", 1), Err(other));
    println!("{}", mfs::Volume::format(&mut image, 8, mfs::CODE_512).unwrap_err());
}
"#;

/// Sees that the command ends well, and gives what it printed.
#[track_caller]
fn run(command: &mut Command) -> String {
    let output = command.output().expect("the command is there");
    assert!(output.status.success(), "{command:?}: {}", String::from_utf8_lossy(&output.stderr));
    String::from_utf8(output.stdout).unwrap()
}

/// An archive with every name of the exports, and a version that is one too high.
fn make_archive(folder: &Path) {
    let mut text = String::from("#include <stdint.h>\n#include <stdlib.h>\n");
    for name in RAW.split("pub fn ").skip(1).map(|rest| rest.split('(').next().unwrap()) {
        let body = if name == "mfs_c_version" { format!("return {};", mfs::EXPORTS_VERSION + 1) } else { "abort();".to_owned() };
        text += &format!("uint32_t {name}(void) {{ {body} }}\n");
    }
    fs::write(folder.join("other.c"), text).unwrap();
    run(Command::new("cc").current_dir(folder).args(["-c", "other.c", "-o", "other.o"]));
    run(Command::new("ar").current_dir(folder).args(["rcs", "libmfs_c.a", "other.o"]));
}

#[test]
fn no_export_of_another_version_is_called() {
    let folder = Path::new(env!("CARGO_TARGET_TMPDIR")).join("other_version");
    fs::create_dir_all(folder.join("src")).unwrap();
    make_archive(&folder);
    fs::write(folder.join("src/main.rs"), PROGRAM).unwrap();
    let manifest = format!(
        "[package]\nname = \"other\"\nedition = \"2021\"\n[dependencies]\nmfs = {{ path = {:?} }}\n[workspace]\n",
        env!("CARGO_MANIFEST_DIR")
    );
    fs::write(folder.join("Cargo.toml"), manifest).unwrap();
    let mut cargo = Command::new(env!("CARGO"));
    cargo.args(["run", "--quiet", "--offline", "--target-dir", "target"]);
    let printed = run(cargo.current_dir(&folder).env("MFS_LIB_DIR", &folder));
    assert_eq!(printed, "the library's exports have version 3, these bindings call version 2\n");
}
