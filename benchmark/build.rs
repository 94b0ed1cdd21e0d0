//! Links SQLite where its development files are installed; the setting
//! `sqlite` says so to the code.

use std::env;
use std::fs;
use std::path::Path;
use std::process::{Command, Stdio};

fn main() {
    println!("cargo::rustc-check-cfg=cfg(sqlite)");
    println!("cargo::rerun-if-changed=build.rs");
    println!("cargo::rerun-if-env-changed=CC");
    if has_sqlite() {
        println!("cargo::rustc-cfg=sqlite");
        println!("cargo::rustc-link-lib=sqlite3");
    }
}

/// Whether a small C program with SQLite compiles and links.
fn has_sqlite() -> bool {
    let out = env::var_os("OUT_DIR").expect("cargo names the output folder");
    let source = Path::new(&out).join("probe.c");
    let program =
        "#include <sqlite3.h>\nint main(void) { return sqlite3_libversion_number() == 0; }\n";
    if fs::write(&source, program).is_err() {
        return false;
    }
    let mut compiler = Command::new(env::var_os("CC").unwrap_or("cc".into()));
    compiler.arg(&source).arg("-o").arg(Path::new(&out).join("probe")).arg("-lsqlite3");
    let status = compiler.stdout(Stdio::null()).stderr(Stdio::null()).status();
    status.is_ok_and(|status| status.success())
}
