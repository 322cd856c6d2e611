//! Tells the linker where the target's libdoor.a is: where the environment says, or the first place that has one.
use std::env;
use std::path::{Path, PathBuf};

/// How Rust's name of a target begins and ends, and the target's name in a folder of libraries.
const TARGETS: [(&str, &str, &str); 6] = [
    ("x86_64-unknown-linux-", "", "x86_64-linux"),
    ("aarch64-unknown-linux-", "", "aarch64-linux"),
    ("armv7-unknown-linux-", "hf", "armv7-linux"),
    ("riscv64gc-unknown-linux-", "", "riscv64-linux"),
    ("thumbv7em-none-eabi", "eabi", "cortex-m4"),
    ("riscv32imac-unknown-none-elf", "", "riscv32"),
];

const HELP: &str = "\
In the repository `bash tools/library` builds it for x86-64 Linux, and `bash tools/targets` for the other targets. Or set
DOOR_LIBRARY to the file, or DOOR_LIBRARIES to a folder of NAME/libdoor.a.";

fn main() {
    if let Err(message) = link() {
        eprintln!("{message}");
        std::process::exit(1);
    }
}

fn link() -> Result<(), String> {
    let top = Path::new(env!("CARGO_MANIFEST_DIR")).ancestors().nth(2).expect("rust/door is two folders down");
    let target = env::var("TARGET").expect("cargo sets TARGET");
    let places = places(top, &target, named("DOOR_LIBRARY"), named("DOOR_LIBRARIES"))?;
    let library = places.iter().find(|place| place.is_file()).ok_or_else(|| not_there(&places))?;
    println!("cargo:rerun-if-changed={}", library.display());
    // The linker finds a library by its folder and name, whatever the file is called.
    let folder = PathBuf::from(env::var_os("OUT_DIR").expect("cargo sets OUT_DIR"));
    std::fs::copy(library, folder.join("libdoor.a")).map_err(|error| format!("{}: {error}", library.display()))?;
    println!("cargo:rustc-link-search=native={}", folder.display());
    println!("cargo:rustc-link-lib=static=door");
    Ok(())
}

/// What an environment variable names; nothing where it is empty.
fn named(variable: &str) -> Option<PathBuf> {
    println!("cargo:rerun-if-env-changed={variable}");
    env::var_os(variable).filter(|path| !path.is_empty()).map(PathBuf::from)
}

/// Where the target's library may be, in the order in which it is looked for. What the environment names, a file or a
/// folder, is the only place.
pub fn places(
    top: &Path,
    target: &str,
    file: Option<PathBuf>,
    folder: Option<PathBuf>,
) -> Result<Vec<PathBuf>, String> {
    if let Some(file) = file {
        return Ok(vec![top.join(file)]);
    }
    let name = name(target).ok_or_else(|| format!("no library has a name for {target}: set DOOR_LIBRARY to a file"))?;
    if let Some(folder) = folder {
        return Ok(vec![top.join(folder).join(name).join("libdoor.a")]);
    }
    let built = if name == "x86_64-linux" { "staticlib".to_string() } else { format!("targets/{name}") };
    Ok([format!("lib/{name}/libdoor.a"), format!("target/{built}/libdoor.a")].map(|place| top.join(place)).to_vec())
}

fn name(target: &str) -> Option<&'static str> {
    let found = TARGETS.iter().find(|(first, last, _)| target.starts_with(first) && target.ends_with(last));
    found.map(|(_, _, name)| *name)
}

pub fn not_there(places: &[PathBuf]) -> String {
    let places: Vec<String> = places.iter().map(|place| format!("    {}\n", place.display())).collect();
    format!("there is no libdoor.a; looked for\n{}{HELP}", places.concat())
}
