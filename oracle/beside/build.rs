//! Links the static library that ZIMLOKUR_LIB names; without it the programs know the model only.

use std::{env, path::Path};

fn main() {
    println!("cargo:rerun-if-env-changed=ZIMLOKUR_LIB");
    println!("cargo::rustc-check-cfg=cfg(zimlokur)");
    let Ok(path) = env::var("ZIMLOKUR_LIB") else { return };
    let path = Path::new(&path);
    let named = path.file_name().is_some_and(|n| n == "libzimlokur.a");
    assert!(
        path.is_absolute() && path.is_file() && named,
        "ZIMLOKUR_LIB must be the whole path of a libzimlokur.a, not {}",
        path.display()
    );
    let folder = path.parent().expect("a file has a folder");
    println!("cargo:rerun-if-changed={}", path.display());
    println!("cargo:rustc-link-search=native={}", folder.display());
    println!("cargo:rustc-link-lib=static=zimlokur");
    println!("cargo:rustc-cfg=zimlokur");
}
