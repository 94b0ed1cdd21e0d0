//! Links the archive `libcuckooormolu.a`. Its folder is that of the environment
//! variable CUCKOOORMOLU_LIB, or `target/staticlib` of the repository. Where no
//! folder is named, the library may be compiled from its C file instead, for any
//! machine: CUCKOOORMOLU_C names the folder of that. The archive that is proved is machine code for x86-64 Linux; where
//! another one is named for another target, CUCKOOORMOLU_ANY_TARGET says so.

mod build_from_c;

use std::env;
use std::path::{Path, PathBuf};

const VARIABLE: &str = "CUCKOOORMOLU_LIB";
const ANY_TARGET: &str = "CUCKOOORMOLU_ANY_TARGET";
const DEFAULT: &str = "../../target/staticlib";
const ARCHIVE: &str = "libcuckooormolu.a";

fn main() {
    println!("cargo::rerun-if-env-changed={VARIABLE}");
    println!("cargo::rustc-check-cfg=cfg(from_c)");
    println!("cargo::rerun-if-env-changed={ANY_TARGET}");
    println!("cargo::rerun-if-env-changed={}", build_from_c::VARIABLE);
    let named = env::var_os(VARIABLE).map(PathBuf::from);
    if named.is_some() && env::var_os(build_from_c::VARIABLE).is_some() {
        let ignored = build_from_c::VARIABLE;
        println!("cargo::warning={ignored} is ignored, since {VARIABLE} names an archive");
    }
    if named.is_none() {
        if let Some(folder) = build_from_c::compiled(&default().join(ARCHIVE)) {
            println!("cargo::rustc-cfg=from_c");
            return link(&folder);
        }
    }
    if !build_from_c::is_its_machine() && env::var_os(ANY_TARGET).is_none() {
        let text = "name the folder of the C file that `./amalgamate` writes in CUCKOOORMOLU_C";
        println!("cargo::error=the monitor's archive is machine code for x86-64 Linux: {text}");
    }
    let folder = named.unwrap_or_else(default);
    let archive = folder.join(ARCHIVE);
    println!("cargo::rerun-if-changed={}", archive.display());
    if archive.is_file() {
        link(&folder);
    } else {
        let text = "build it with `./archive` at the top, or name its folder in";
        println!("cargo::error=no {} here: {text} {VARIABLE}", archive.display());
    }
}

fn link(folder: &Path) {
    println!("cargo::rustc-link-search=native={}", folder.display());
    println!("cargo::rustc-link-lib=static=cuckooormolu");
}

fn default() -> PathBuf {
    let here = env::var_os("CARGO_MANIFEST_DIR").expect("cargo names the package's folder");
    Path::new(&here).join(DEFAULT)
}
