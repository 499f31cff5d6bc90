//! Links libkotskhin.a: from the folder that KOTSKHIN_LIB names, or where it names none, from that which pkg-config tells. `sdk/build` makes
//! such a folder.
use std::env;
use std::path::Path;
use std::process::Command;

/// The folder of the library, as pkg-config tells it.
fn ask_pkg_config() -> Option<String> {
    let program = env::var_os("PKG_CONFIG").unwrap_or_else(|| "pkg-config".into());
    let told = Command::new(program)
        .args(["--variable=prefix", "kotskhin"])
        .output()
        .ok()?;
    let prefix = String::from_utf8(told.stdout).ok()?.trim().to_owned();
    (told.status.success() && !prefix.is_empty()).then(|| format!("{prefix}/lib"))
}

fn main() {
    for name in ["KOTSKHIN_LIB", "PKG_CONFIG", "PKG_CONFIG_PATH", "DOCS_RS"] {
        println!("cargo::rerun-if-env-changed={name}");
    }
    // (pages are made without the library)
    if env::var_os("DOCS_RS").is_some() {
        return;
    }
    let Some(folder) = env::var("KOTSKHIN_LIB").ok().or_else(ask_pkg_config) else {
        println!(
            "cargo::error=libkotskhin.a is not found: set KOTSKHIN_LIB to its folder, or PKG_CONFIG_PATH to that of kotskhin.pc"
        );
        return;
    };
    let library = Path::new(&folder).join("libkotskhin.a");
    if !library.is_file() {
        println!("cargo::error=there is no {}", library.display());
        return;
    }
    println!("cargo::rerun-if-changed={}", library.display());
    println!("cargo::rustc-link-search=native={folder}");
    println!("cargo::rustc-link-lib=static=kotskhin");
}
