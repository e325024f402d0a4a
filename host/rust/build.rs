//! Links the static library of the storage unit.
//!
//! It is the file that `STORAGE_UNIT_LIBRARY` names, or that below the folder of an installation
//! that `STORAGE_UNIT_PREFIX` names, or that which `host/library` writes in the repository.

use std::env;
use std::path::{Path, PathBuf};

const FILE_VARIABLE: &str = "STORAGE_UNIT_LIBRARY";
const PREFIX_VARIABLE: &str = "STORAGE_UNIT_PREFIX";
const FILE_IN_PREFIX: &str = "lib/libstorage_unit.a";
const FILE_IN_REPOSITORY: &str = "../../target/staticlib/libstorage_unit.a";

fn main() {
    println!("cargo::rerun-if-env-changed={FILE_VARIABLE}");
    println!("cargo::rerun-if-env-changed={PREFIX_VARIABLE}");
    println!("cargo::rerun-if-changed=build.rs");
    let library = library();
    println!("cargo::rerun-if-changed={}", library.display());
    if let Err(message) = platform().and_then(|()| link(&library)) {
        println!("cargo::error={message}");
    }
}

/// The value of a variable, if it is set and not empty.
fn variable(name: &str) -> Option<PathBuf> {
    let value = env::var_os(name).filter(|value| !value.is_empty());
    value.map(PathBuf::from)
}

/// The file to link. A relative path is taken from this package.
fn library() -> PathBuf {
    let package = variable("CARGO_MANIFEST_DIR").unwrap_or_default();
    let installed = || variable(PREFIX_VARIABLE).map(|prefix| prefix.join(FILE_IN_PREFIX));
    let file = variable(FILE_VARIABLE).or_else(installed);
    package.join(file.unwrap_or_else(|| FILE_IN_REPOSITORY.into()))
}

/// The library is for one platform.
fn platform() -> Result<(), String> {
    let target = |part: &str| env::var(format!("CARGO_CFG_TARGET_{part}")).unwrap_or_default();
    let (processor, system) = (target("ARCH"), target("OS"));
    if (processor.as_str(), system.as_str()) == ("x86_64", "linux") {
        return Ok(());
    }
    Err(format!(
        "the storage unit is for x86-64 Linux, not for {processor} {system}"
    ))
}

/// Tells cargo to link the file.
fn link(library: &Path) -> Result<(), String> {
    let shown = library.display();
    if !library.is_file() {
        return Err(format!(
            "there is no file {shown}; write it with `host/library` in the repository of the \
             storage unit, or set {PREFIX_VARIABLE} to the folder that was given to \
             `host/install`, or {FILE_VARIABLE} to the file itself"
        ));
    }
    let name = library
        .file_name()
        .and_then(|name| name.to_str()?.strip_prefix("lib")?.strip_suffix(".a"));
    let (Some(folder), Some(name)) = (library.parent(), name) else {
        return Err(format!("{shown} is not named lib<name>.a"));
    };
    println!("cargo::rustc-link-search=native={}", folder.display());
    println!("cargo::rustc-link-lib=static={name}");
    Ok(())
}
