//! Links `libgix_hash.a`: from `GIX_HASH_LIB`, a directory or a file in it, or else from where `make lib`, `make install` or
//! an archive put it. One that is made later in a nearer directory is taken after `cargo clean -p nunbirdstand`.

use std::path::{Path, PathBuf};

fn main() {
    println!("cargo:rerun-if-env-changed=GIX_HASH_LIB");
    let target = ["ARCH", "OS"].map(|name| std::env::var(format!("CARGO_CFG_TARGET_{name}")).unwrap());
    assert!(target == ["x86_64", "linux"], "libgix_hash is only for x86-64 Linux, not for {target:?}");
    let here = std::env::var("CARGO_MANIFEST_DIR").unwrap();
    let given = std::env::var("GIX_HASH_LIB").ok().map(PathBuf::from);
    // This crate has the library in it, or is bindings/rust of the repository, or share/gix_hash/rust of what was installed.
    let directories = match given {
        Some(file) if file.is_file() => vec![file.parent().unwrap().to_path_buf()],
        Some(directory) => vec![directory],
        None => ["lib", "../../out", "../../../lib", "/usr/local/lib"]
            .map(|it| Path::new(&here).join(it))
            .to_vec(),
    };
    // (rustc may run in another directory, which a relative path would lead to)
    let has_library = |it: &&PathBuf| it.is_absolute() && it.join("libgix_hash.a").exists();
    let Some(directory) = directories.iter().find(has_library) else {
        panic!(
            "libgix_hash.a is not in {directories:?}: set GIX_HASH_LIB to its absolute path, or run `make lib` first"
        );
    };
    println!("cargo:rerun-if-changed={}/libgix_hash.a", directory.display());
    println!("cargo:rustc-link-search=native={}", directory.display());
    println!("cargo:rustc-link-lib=static=gix_hash");
}
