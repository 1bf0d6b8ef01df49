//! Says where the C library is: in the folder that `LIBSVID_DIR` names, in this crate, or in `dist/` of the checkout.
use std::env;
use std::path::{Path, PathBuf};
use std::process::exit;

fn main() {
    println!("cargo:rerun-if-env-changed=LIBSVID_DIR");
    let arch = env::var("CARGO_CFG_TARGET_ARCH").unwrap_or_default();
    let system = env::var("CARGO_CFG_TARGET_OS").unwrap_or_default();
    let crate_folder = env::var_os("CARGO_MANIFEST_DIR").unwrap_or_default();
    if let Err(why) = find(&arch, &system, Path::new(&crate_folder)) {
        eprintln!("svid: {why}");
        exit(1);
    }
}

fn find(arch: &str, system: &str, crate_folder: &Path) -> Result<(), String> {
    let named = env::var_os("LIBSVID_DIR").filter(|name| !name.is_empty());
    if named.is_none() && (system != "linux" || !["x86_64", "aarch64"].contains(&arch)) {
        return Err(format!(
            "the C library is there for Linux on x86_64 and aarch64, and not for {system} on {arch}: \
             let LIBSVID_DIR name a folder with a libsvid.a for it"
        ));
    }
    let folders: Vec<PathBuf> = match named {
        Some(name) => vec![PathBuf::from(name)],
        None => vec![crate_folder.join("lib").join(arch), crate_folder.join("../../../dist").join(arch)],
    };
    let found = folders.iter().find(|it| it.join("libsvid.a").is_file());
    let folder = found.ok_or_else(|| format!("no libsvid.a is in {folders:?}: let LIBSVID_DIR name the folder that has it"))?;
    println!("cargo:rerun-if-changed={}", folder.join("libsvid.a").display());
    println!("cargo:rustc-link-search=native={}", folder.display());
    println!("cargo:rustc-link-lib=static=svid");
    Ok(())
}
