//! Says where liblumbixet.a is: in the folder that LUMBIXET_LIB_DIR names; where it names none, in this checkout
//! (`make archive`) or beside this crate in its package, else where pkg-config finds the installed one.

use std::path::{Path, PathBuf};
use std::process::Command;

fn main() {
    println!("cargo:rerun-if-env-changed=LUMBIXET_LIB_DIR");
    let target = std::env::var("TARGET").unwrap_or_default();
    if !(target.starts_with("x86_64-") && target.contains("-linux-")) || target.ends_with("x32") {
        eprintln!("Lumbixet's archive is x86-64 code for Linux, and the target is {target}: choose a target such as x86_64-unknown-linux-gnu");
        std::process::exit(1)
    }
    let named = std::env::var_os("LUMBIXET_LIB_DIR").map(PathBuf::from);
    let found = named.map_or_else(|| built().or_else(installed), holding_it);
    let folder = found.unwrap_or_else(|| {
        eprintln!("liblumbixet.a was not found: run 'make archive' in Lumbixet's checkout, install the library where");
        eprintln!("pkg-config finds it, or name the folder that holds it in LUMBIXET_LIB_DIR");
        std::process::exit(1)
    });
    println!("cargo:rerun-if-changed={}", folder.join("liblumbixet.a").display());
    println!("cargo:rustc-link-search=native={}", folder.display());
}

fn holding_it(folder: PathBuf) -> Option<PathBuf> {
    folder.join("liblumbixet.a").is_file().then_some(folder)
}

/// Of a checkout bindings/rust, of a package share/lumbixet/rust.
fn built() -> Option<PathBuf> {
    let here = std::env::var_os("CARGO_MANIFEST_DIR")?;
    ["../../target/lib", "../../../lib"].iter().find_map(|folder| holding_it(Path::new(&here).join(folder)))
}

fn installed() -> Option<PathBuf> {
    let asked = Command::new("pkg-config").args(["--variable=libdir", "lumbixet"]).output().ok()?;
    let folder = String::from_utf8(asked.stdout).ok()?;
    holding_it(PathBuf::from(folder.trim_end()))
}
