//! Finds `librange_map.a` and links it.
//!
//! It uses the first of these folders: the one that the environment variable `RANGE_MAP_LIB_DIR`
//! names as an absolute path, `../out` beside this crate, and the one that `pkg-config` prints. It
//! rejects a target other than x86-64 Linux with glibc, and an archive for another processor.

use std::env;
use std::fs;
use std::path::{Path, PathBuf};
use std::process::{exit, Command};

const ARCHIVE: &str = "librange_map.a";

fn main() {
    for name in ["RANGE_MAP_LIB_DIR", "PKG_CONFIG", "PKG_CONFIG_PATH"] {
        println!("cargo:rerun-if-env-changed={}", name);
    }
    let folder = usable_folder().unwrap_or_else(|message| {
        eprintln!("range_map: {}", message);
        exit(1);
    });
    let folder = fs::canonicalize(&folder).unwrap_or(folder);
    println!("cargo:rerun-if-changed={}", folder.join(ARCHIVE).display());
    println!("cargo:rustc-link-search=native={}", folder.display());
    println!("cargo:rustc-link-lib=static=range_map");
}

/// The folder of an archive that the target can link.
fn usable_folder() -> Result<PathBuf, String> {
    check_target()?;
    let folder = folder_of_archive()?;
    check_archive(&folder.join(ARCHIVE))?;
    Ok(folder)
}

fn check_target() -> Result<(), String> {
    let is = |name: &str, value: &str| env::var(name).map_or(false, |found| found == value);
    if is("CARGO_CFG_TARGET_ARCH", "x86_64")
        && is("CARGO_CFG_TARGET_POINTER_WIDTH", "64")
        && is("CARGO_CFG_TARGET_OS", "linux")
        && is("CARGO_CFG_TARGET_ENV", "gnu")
    {
        return Ok(());
    }
    Err(format!(
        "the target {} is not supported: the library is for x86-64 Linux with glibc, \
         which is the target x86_64-unknown-linux-gnu",
        env::var("TARGET").unwrap_or_default()
    ))
}

fn folder_of_archive() -> Result<PathBuf, String> {
    if let Some(folder) = env::var_os("RANGE_MAP_LIB_DIR") {
        return named(PathBuf::from(folder));
    }
    if env::var_os("HOST") != env::var_os("TARGET") {
        return Err(format!(
            "set RANGE_MAP_LIB_DIR to the folder of a {} that was built for the target",
            ARCHIVE
        ));
    }
    let crate_folder = env::var_os("CARGO_MANIFEST_DIR").map(PathBuf::from);
    let built = crate_folder.unwrap_or_default().join("../out");
    if has_archive(&built) {
        return Ok(built);
    }
    installed().filter(|folder| has_archive(folder)).ok_or_else(|| {
        format!(
            "{archive} was not found. Do one of these:\n\
             - run bindings/build.sh in the repository of range_map, which makes {built}/{archive};\n\
             - install the library, so that `pkg-config --variable=libdir range_map` prints its folder;\n\
             - set the environment variable RANGE_MAP_LIB_DIR to the folder that contains {archive}",
            archive = ARCHIVE,
            built = built.display()
        )
    })
}

/// The folder that RANGE_MAP_LIB_DIR names. Cargo runs this script in the folder of the crate, so a
/// relative path would not be that of the folder where cargo was called.
fn named(folder: PathBuf) -> Result<PathBuf, String> {
    if folder.is_relative() {
        return Err(format!(
            "RANGE_MAP_LIB_DIR is the relative path '{}', which means {} here: set an absolute path",
            folder.display(),
            env::current_dir().unwrap_or_default().join(&folder).display()
        ));
    }
    if !has_archive(&folder) {
        return Err(format!(
            "RANGE_MAP_LIB_DIR is {}, which does not contain {}",
            folder.display(),
            ARCHIVE
        ));
    }
    Ok(folder)
}

fn has_archive(folder: &Path) -> bool {
    folder.join(ARCHIVE).is_file()
}

/// The folder of an installed library, if `pkg-config` is there and knows it.
fn installed() -> Option<PathBuf> {
    let program = env::var_os("PKG_CONFIG").unwrap_or_else(|| "pkg-config".into());
    let output = Command::new(program)
        .args(["--variable=libdir", "range_map"])
        .output()
        .ok()?;
    let folder = String::from_utf8(output.stdout).ok()?;
    let folder = folder.trim_end();
    (output.status.success() && !folder.is_empty()).then(|| PathBuf::from(folder))
}

fn check_archive(path: &Path) -> Result<(), String> {
    let archive = fs::read(path).map_err(|error| format!("{}: {}", path.display(), error))?;
    if first_object(&archive).map_or(false, is_for_x86_64) {
        return Ok(());
    }
    Err(format!(
        "{} is not an archive of objects for x86-64 Linux",
        path.display()
    ))
}

/// The first member of an archive that is an object in the format ELF. Before each member there are
/// 60 bytes, which have its size in decimal. A member with an odd size has one more byte behind it.
fn first_object(archive: &[u8]) -> Option<&[u8]> {
    let mut members = archive.strip_prefix(b"!<arch>\n")?;
    loop {
        let size = std::str::from_utf8(members.get(48..58)?).ok()?;
        let size: usize = size.trim_end().parse().ok()?;
        let member = members.get(60..)?.get(..size)?;
        if member.starts_with(b"\x7fELF") {
            return Some(member);
        }
        members = members.get(60 + size + size % 2..)?;
    }
}

/// Whether an ELF object has 64 bits, is little endian, and is for the machine 62, x86-64.
fn is_for_x86_64(object: &[u8]) -> bool {
    object.get(4..6) == Some(&[2, 1]) && object.get(18..20) == Some(&[62, 0])
}
