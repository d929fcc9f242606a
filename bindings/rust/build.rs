//! Links libriskdesk.a: from the folder that RISKDESK_LIB_DIR names, else from
//! target/staticlib of the repository.

use std::env;
use std::path::{Path, PathBuf};

fn main() {
    println!("cargo::rerun-if-changed=build.rs");
    println!("cargo::rerun-if-env-changed=RISKDESK_LIB_DIR");
    if let Err(reason) = link() {
        println!("cargo::error={reason}");
    }
}

fn link() -> Result<(), String> {
    let target = |part: &str| env::var(format!("CARGO_CFG_TARGET_{part}")).unwrap_or_default();
    if target("ARCH") != "x86_64" || target("OS") != "linux" {
        return Err("libriskdesk.a is made for Linux on x86-64 alone".into());
    }
    let folder = folder()?;
    let archive = folder.join("libriskdesk.a");
    println!("cargo::rerun-if-changed={}", archive.display());
    if !archive.is_file() {
        return Err(format!(
            "{} is missing: run `tools/build-library` in the repository, or let RISKDESK_LIB_DIR name the folder that holds libriskdesk.a",
            archive.display()
        ));
    }
    println!("cargo::rustc-link-search=native={}", folder.display());
    println!("cargo::rustc-link-lib=static=riskdesk");
    Ok(())
}

/// The archive's folder.
fn folder() -> Result<PathBuf, String> {
    match env::var_os("RISKDESK_LIB_DIR") {
        Some(folder) if Path::new(&folder).is_absolute() => Ok(folder.into()),
        Some(_) => Err("RISKDESK_LIB_DIR is to be an absolute path".into()),
        None => Path::new(env!("CARGO_MANIFEST_DIR"))
            .ancestors()
            .nth(2)
            .map(|repository| repository.join("target/staticlib"))
            .ok_or("RISKDESK_LIB_DIR is not set".into()),
    }
}
