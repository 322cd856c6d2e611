//! Where build.rs looks for the library of each target, as README.md says.
use std::path::{Path, PathBuf};

#[allow(dead_code)] // what it does for cargo
#[path = "../build.rs"]
mod build;

const README: &str = include_str!("../README.md");

fn places(target: &str, file: Option<&str>, folder: Option<&str>) -> Result<Vec<PathBuf>, String> {
    build::places(Path::new("/top"), target, file.map(PathBuf::from), folder.map(PathBuf::from))
}

fn paths<const COUNT: usize>(paths: [&str; COUNT]) -> Result<Vec<PathBuf>, String> {
    Ok(paths.map(PathBuf::from).to_vec())
}

/// Each target of README.md's table with the name of its library.
fn targets() -> Vec<(String, &'static str)> {
    let rows = README.lines().filter_map(|line| line.strip_prefix("| `")?.strip_suffix("` |")?.split_once("` | `"));
    rows.map(|(target, name)| (target.replace('*', "gnueabi"), name)).collect()
}

#[test]
fn each_target() {
    let names: Vec<_> = targets().iter().map(|(_, name)| *name).collect();
    assert_eq!(names, ["x86_64-linux", "aarch64-linux", "armv7-linux", "riscv64-linux", "cortex-m4", "riscv32"]);
    for (target, name) in &targets()[1..] {
        let [release, built] = ["lib", "target/targets"].map(|folder| format!("/top/{folder}/{name}/libdoor.a"));
        assert_eq!(places(target, None, None), paths([&release, &built]));
    }
    let here = places("x86_64-unknown-linux-gnu", None, None);
    assert_eq!(here, paths(["/top/lib/x86_64-linux/libdoor.a", "/top/target/staticlib/libdoor.a"]));
}

#[test]
fn what_the_environment_names_is_the_only_place() {
    for (target, name) in targets() {
        let (absolute, relative) = (format!("/other/{name}/libdoor.a"), format!("/top/other/{name}/libdoor.a"));
        assert_eq!(places(&target, None, Some("/other")), paths([&absolute]));
        assert_eq!(places(&target, None, Some("other")), paths([&relative]));
        assert_eq!(places(&target, Some("/own.a"), Some("other")), paths(["/own.a"]));
        assert_eq!(places(&target, Some("own.a"), None), paths(["/top/own.a"]));
    }
}

#[test]
fn a_target_without_a_name_needs_a_file() {
    for target in ["i686-unknown-linux-gnu", "thumbv7em-none-eabihf", "armv7-unknown-linux-gnueabi"] {
        assert!(places(target, None, None).unwrap_err().contains(target));
        assert!(places(target, None, Some("/other")).unwrap_err().contains("DOOR_LIBRARY"));
        assert_eq!(places(target, Some("/own.a"), None), paths(["/own.a"]));
    }
}

#[test]
fn the_message_names_each_place() {
    let looked = places("riscv32imac-unknown-none-elf", None, None).expect("places");
    let message = build::not_there(&looked);
    for line in ["    /top/lib/riscv32/libdoor.a", "    /top/target/targets/riscv32/libdoor.a"] {
        assert!(message.lines().any(|found| found == line), "{message}");
    }
}
