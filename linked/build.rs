//! Says where the archives are that `./library` builds: those of archives.txt.

use std::env;
use std::fs;
use std::path::Path;

fn main() {
    let here = env::var("CARGO_MANIFEST_DIR").expect("cargo names the folder of the manifest");
    let top = Path::new(&here).join("..");
    let list = top.join("archives.txt");
    println!("cargo:rerun-if-changed=build.rs");
    println!("cargo:rerun-if-changed={}", list.display());
    let text = fs::read_to_string(&list).expect("archives.txt at the top lists the archives");
    let folder = top.join("target/lib");
    println!("cargo:rustc-link-search=native={}", folder.display());
    let lines = text.lines().filter(|line| !line.starts_with('#'));
    let listed = lines.filter_map(|line| line.split_once(':'));
    let before = env::var_os("CARGO_FEATURE_BEFORE").map(|_| "before");
    for name in listed.map(|(name, _)| name).chain(before) {
        let archive = folder.join(format!("lib{name}.a"));
        assert!(
            archive.exists(),
            "there is no target/lib/lib{name}.a: run ./library at the top, which builds it"
        );
        println!("cargo:rerun-if-changed={}", archive.display());
        println!("cargo:rustc-link-lib=static={name}");
    }
}
