//! Links the static library for the target: that of the folder RIICHI_DESK_LIB_DIR, or that which lies in `native/` of this package.
use std::env;
use std::path::PathBuf;

fn main() {
    println!("cargo:rerun-if-env-changed=RIICHI_DESK_LIB_DIR");
    let target = env::var("TARGET").unwrap();
    let own = PathBuf::from(env::var("CARGO_MANIFEST_DIR").unwrap()).join("native").join(&target);
    let folder = env::var_os("RIICHI_DESK_LIB_DIR").map_or(own, PathBuf::from);
    let archive = folder.join("libriichi_desk_c.a");
    println!("cargo:rerun-if-changed={}", archive.display());
    if !archive.is_file() {
        panic!("{} isn't there: RIICHI_DESK_LIB_DIR names a folder with a libriichi_desk_c.a for {target}", archive.display());
    }
    println!("cargo:rustc-link-search=native={}", folder.display());
    println!("cargo:rustc-link-lib=static=riichi_desk_c");
}
