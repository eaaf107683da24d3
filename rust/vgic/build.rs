//! Links libvgic.a: from the folder that VGIC_LIB_DIR names, else from target/archive/TARGET of the repository.
use std::{
    env,
    path::{Path, PathBuf},
};

fn main() {
    println!("cargo::rerun-if-env-changed=VGIC_LIB_DIR");
    let target = env::var("TARGET").unwrap_or_default();
    // For a bare machine one archive serves both of Rust's targets.
    let target = target.trim_end_matches("-softfloat");
    let made = format!("target/archive/{target}");
    let repository = Path::new(env!("CARGO_MANIFEST_DIR")).join("../..");
    let folder = env::var_os("VGIC_LIB_DIR").map_or_else(|| repository.join(&made), PathBuf::from);
    let archive = folder.join("libvgic.a");
    println!("cargo::rerun-if-changed={}", archive.display());
    println!("cargo::rustc-link-search=native={}", folder.display());
    println!("cargo::rustc-link-lib=static=vgic");
    if !archive.is_file() {
        println!(
            "cargo::error=no {}: make it by `tools/archive --target {target} {made}`, or name its folder in VGIC_LIB_DIR",
            archive.display()
        );
    }
}
