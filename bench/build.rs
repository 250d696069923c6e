//! Links the proved session: `rt lib` in crates/batch_c has to have run. It needs the kit's C code beside it.
use std::path::{Path, PathBuf};
use std::process::Command;

fn main() {
    let guide = Command::new("rt").arg("doc").output().expect("the kit's rt on the path").stdout;
    let guide = String::from_utf8(guide).expect("a path");
    let kit = Path::new(guide.trim()).parent().expect("the kit's folder").join("c");
    let root = Path::new(env!("CARGO_MANIFEST_DIR")).parent().expect("the repository");
    let archive = root.join("crates/batch_c/out/libbatch_c.a");
    let out = PathBuf::from(std::env::var("OUT_DIR").expect("cargo's folder"));
    std::fs::copy(&archive, out.join("libbatch.a")).expect("the proved session's archive");
    println!("cargo:rustc-link-search=native={}", out.display());
    println!("cargo:rustc-link-search=native={}", kit.display());
    println!("cargo:rustc-link-lib=static=batch");
    println!("cargo:rustc-link-lib=static=libc_c");
    println!("cargo:rerun-if-changed={}", archive.display());
}
