//! Finds libbplist.a in the directory that `BPLIST_LIB_DIR` names, or with pkg-config.

use std::env;
use std::path::{Path, PathBuf};
use std::process::{self, Command};

/// The oldest version of the library that has all calls of `src/ffi.rs`.
const LEAST: &str = "0.5.0";

/// Returns the directory in which `make install` put the library.
fn installed() -> Result<PathBuf, String> {
    let pkg_config = env::var_os("PKG_CONFIG").unwrap_or_else(|| "pkg-config".into());
    let asked = Command::new(&pkg_config)
        .args([
            "--variable=libdir",
            "--print-errors",
            &format!("bplist >= {LEAST}"),
        ])
        .output()
        .map_err(|error| {
            format!(
                "{} does not start: {error}",
                Path::new(&pkg_config).display()
            )
        })?;
    if !asked.status.success() {
        return Err(String::from_utf8_lossy(&asked.stderr).trim().to_owned());
    }
    Ok(PathBuf::from(String::from_utf8_lossy(&asked.stdout).trim()))
}

/// Returns the directory of the library.
fn found() -> Result<PathBuf, String> {
    let folder = match env::var_os("BPLIST_LIB_DIR") {
        Some(named) => PathBuf::from(named),
        None => installed()?,
    };
    if folder.join("libbplist.a").is_file() {
        Ok(folder)
    } else {
        Err(format!("{} has none", folder.display()))
    }
}

fn main() {
    println!("cargo:rerun-if-env-changed=BPLIST_LIB_DIR");
    println!("cargo:rerun-if-env-changed=PKG_CONFIG");
    println!("cargo:rerun-if-env-changed=PKG_CONFIG_PATH");
    match found() {
        Ok(folder) => {
            println!(
                "cargo:rerun-if-changed={}",
                folder.join("libbplist.a").display()
            );
            println!("cargo:rustc-link-search=native={}", folder.display());
            println!("cargo:rustc-link-lib=static=bplist");
        }
        Err(why) => {
            eprintln!("libbplist.a is not found; BPLIST_LIB_DIR names its directory, or pkg-config finds it: {why}");
            process::exit(1);
        }
    }
}
