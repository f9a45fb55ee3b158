//! Links libcastgroup.a. It is in the folder that CASTGROUP_LIB names, in `lib` beside this file, or in the folder that
//! pkg-config reports.
use std::path::PathBuf;
use std::process::{exit, Command};
use std::env;

const ARCHIVE: &str = "libcastgroup.a";

/// The folder of the library by pkg-config, or why there is none.
fn by_pkg_config() -> Result<PathBuf, String> {
    let program = env::var_os("PKG_CONFIG").unwrap_or_else(|| "pkg-config".into());
    let told = Command::new(program).args(["--variable=libdir", "castgroup"]).output();
    let told = told.map_err(|fault| format!("pkg-config can't be run: {fault}"))?;
    let folder = String::from_utf8_lossy(&told.stdout).trim().to_string();
    if !told.status.success() || folder.is_empty() {
        return Err("pkg-config doesn't know castgroup".to_string());
    }
    Ok(PathBuf::from(folder))
}

fn folder() -> Result<PathBuf, String> {
    if let Some(named) = env::var_os("CASTGROUP_LIB") {
        return Ok(PathBuf::from(named));
    }
    let beside = PathBuf::from(env::var_os("CARGO_MANIFEST_DIR").unwrap_or_default()).join("lib");
    if beside.join(ARCHIVE).is_file() {
        return Ok(beside);
    }
    by_pkg_config().map_err(|why| format!("name the folder of {ARCHIVE} by CASTGROUP_LIB: {why}"))
}

fn main() {
    for name in ["CASTGROUP_LIB", "PKG_CONFIG", "PKG_CONFIG_PATH"] {
        println!("cargo:rerun-if-env-changed={name}");
    }
    let found = folder().and_then(|folder| match folder.join(ARCHIVE).is_file() {
        true => Ok(folder),
        false => Err(format!("there is no {ARCHIVE} in {}", folder.display())),
    });
    match found {
        Ok(folder) => {
            println!("cargo:rerun-if-changed={}", folder.join(ARCHIVE).display());
            println!("cargo:rustc-link-search=native={}", folder.display());
            println!("cargo:rustc-link-lib=static=castgroup");
        }
        Err(why) => {
            eprintln!("castgroup: {why}");
            exit(1);
        }
    }
}
