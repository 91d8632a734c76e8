//! Finds the library for the processor that is compiled for, and links it: by
//! pkg-config, in `OPEN_PANEL_LIB_DIR`, or in `dist/`, in this order.
//!
//! pkg-config is asked where it answers for that processor: where this is the
//! one at hand, or `PKG_CONFIG_ALLOW_CROSS` is set. `OPEN_PANEL_LIB_DIR` is a
//! folder with `libopen_panel.a`, or with a folder for each target as `dist/`
//! and `target/library/` are.

use std::env;
use std::path::{Path, PathBuf};
use std::process::{exit, Command};

fn main() {
    for name in [
        "OPEN_PANEL_LIB_DIR",
        "PKG_CONFIG",
        "PKG_CONFIG_PATH",
        "PKG_CONFIG_LIBDIR",
        "PKG_CONFIG_ALLOW_CROSS",
    ] {
        println!("cargo:rerun-if-env-changed={name}");
    }
    if cargo("CARGO_CFG_TARGET_POINTER_WIDTH") != "64" {
        fail("the library has lengths of 64 bits, and this target has not");
    }
    if by_pkg_config() {
        return;
    }
    let given = env::var_os("OPEN_PANEL_LIB_DIR").map(PathBuf::from);
    let kept = Path::new(&cargo("CARGO_MANIFEST_DIR")).join("../../dist");
    let places = given.as_deref().map_or(vec![], with_target);
    for folder in places.into_iter().chain([kept.join(target())]) {
        let library = folder.join("libopen_panel.a");
        if library.exists() {
            println!("cargo:rerun-if-changed={}", library.display());
            println!("cargo:rustc-link-search=native={}", folder.display());
            println!("cargo:rustc-link-lib=static=open_panel");
            return;
        }
    }
    fail(&format!(
        "no libopen_panel.a for {}: pkg-config knows no open_panel, {}, and dist/ has none; `bin/library` makes it, OPEN_PANEL_LIB_DIR says where it is",
        target(),
        given.map_or("OPEN_PANEL_LIB_DIR is not set".to_owned(), |folder| format!("{} has none", folder.display()))
    ));
}

/// What cargo says of the target.
fn cargo(name: &str) -> String {
    env::var(name).unwrap_or_else(|_| fail(&format!("cargo does not set {name}")))
}

/// What the target is called here. One library serves Linux and Android.
fn target() -> String {
    let system = cargo("CARGO_CFG_TARGET_OS").replace("android", "linux");
    format!("{}-{system}", cargo("CARGO_CFG_TARGET_ARCH"))
}

/// A folder of libraries by target, or of one library.
fn with_target(folder: &Path) -> Vec<PathBuf> {
    vec![folder.join(target()), folder.to_path_buf()]
}

/// Hands cargo what pkg-config says of an installed library.
fn by_pkg_config() -> bool {
    if env::var("HOST") != env::var("TARGET") && env::var_os("PKG_CONFIG_ALLOW_CROSS").is_none() {
        return false;
    }
    let program = env::var_os("PKG_CONFIG").unwrap_or("pkg-config".into());
    let said = Command::new(program)
        .args(["--libs", "open_panel"])
        .output();
    let Some(said) = said.ok().filter(|said| said.status.success()) else {
        return false;
    };
    // The archive where it is there: a program that holds it needs no folder at run time.
    let mut kind = "dylib";
    for word in String::from_utf8_lossy(&said.stdout).split_whitespace() {
        if let Some(folder) = word.strip_prefix("-L") {
            println!("cargo:rustc-link-search=native={folder}");
            if Path::new(folder).join("libopen_panel.a").exists() {
                kind = "static";
            }
        }
    }
    println!("cargo:rustc-link-lib={kind}=open_panel");
    true
}

/// Ends with one line: cargo shows it and fails. To a status that is not 0 it would add all that was printed before.
fn fail(line: &str) -> ! {
    println!("cargo::error={line}");
    exit(0)
}
