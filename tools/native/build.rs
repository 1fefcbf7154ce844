//! Links `libexports.a` from the folder that `BAKTUVEN_LIB` names (from the repository's root on, if
//! relative), by default `crates/exports/out`. Without it the crate still builds, and says so.

use std::path::PathBuf;

fn main() {
    println!("cargo:rerun-if-env-changed=BAKTUVEN_LIB");
    println!("cargo:rustc-check-cfg=cfg(linked)");
    let root = PathBuf::from(env!("CARGO_MANIFEST_DIR")).join("../..");
    let folder = root.join(std::env::var_os("BAKTUVEN_LIB").unwrap_or_else(|| "crates/exports/out".into()));
    let library = folder.join("libexports.a");
    println!("cargo:rerun-if-changed={}", library.display());
    if library.exists() {
        println!("cargo:rustc-link-search=native={}", folder.display());
        println!("cargo:rustc-link-lib=static=exports");
        println!("cargo:rustc-cfg=linked");
    } else {
        println!("cargo:warning=no static library at {}: `rt lib` in crates/exports makes it", library.display());
    }
}
