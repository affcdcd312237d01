//! Says where the library is: in the folder that `SUKPERIN_LIB` names, and then the static one is taken if it is there; else where
//! pkg-config finds `sukperin`. Where neither knows, the linker looks in its own folders.

use std::env;
use std::path::Path;
use std::process::Command;

fn main() {
    println!("cargo:rerun-if-env-changed=SUKPERIN_LIB");
    println!("cargo:rerun-if-env-changed=PKG_CONFIG_PATH");
    match env::var("SUKPERIN_LIB") {
        Ok(folder) => link_from(&folder),
        Err(_) => link_by(&flags_of_pkg_config()),
    }
}

fn link_from(folder: &str) {
    let archive = Path::new(folder).join("libsukperin.a");
    println!("cargo:rerun-if-changed={}", archive.display());
    println!("cargo:rustc-link-search=native={folder}");
    let kind = if archive.exists() { "static" } else { "dylib" };
    println!("cargo:rustc-link-lib={kind}=sukperin");
}

fn link_by(flags: &str) {
    for word in flags.split_whitespace() {
        if let Some(folder) = word.strip_prefix("-L") {
            println!("cargo:rustc-link-search=native={folder}");
        } else if let Some(name) = word.strip_prefix("-l") {
            println!("cargo:rustc-link-lib={name}");
        }
    }
}

fn flags_of_pkg_config() -> String {
    let told = Command::new("pkg-config")
        .args(["--libs", "sukperin"])
        .output();
    match told {
        Ok(told) if told.status.success() => String::from_utf8_lossy(&told.stdout).into_owned(),
        _ => String::from("-lsukperin"),
    }
}
