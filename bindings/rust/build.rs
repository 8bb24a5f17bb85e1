//! Links the archive that `bindings/build` makes, from the folder that `SCALE_INFO_LIB` names, or from `../out`.

use std::env;
use std::path::PathBuf;

fn main() {
    let beside = PathBuf::from(env!("CARGO_MANIFEST_DIR")).join("../out");
    let folder = env::var_os("SCALE_INFO_LIB").map_or(beside, PathBuf::from);
    println!("cargo::rerun-if-env-changed=SCALE_INFO_LIB");
    println!(
        "cargo::rerun-if-changed={}",
        folder.join("libscale_info.a").display()
    );
    println!("cargo::rustc-link-search=native={}", folder.display());
    println!("cargo::rustc-link-lib=static=scale_info");
}
