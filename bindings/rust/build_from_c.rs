//! The library from its C file, which `./amalgamate` writes.

use std::env;
use std::path::{Path, PathBuf};
use std::process::Command;

/// Names the folder of the C file.
pub const VARIABLE: &str = "CUCKOOORMOLU_C";
const SOURCE: &str = "cuckooormolu.c";
const HEADER: &str = "cuckooormolu.h";

/// Makes an archive of the C file, by CC, else `cc`, and AR, else `ar`, and gives its folder. The
/// file is that of the folder CUCKOOORMOLU_C; where no folder is named and there is no archive,
/// one beside the build script or in `target/amalgamation`. None where there is no such file.
pub fn compiled(archive: &Path) -> Option<PathBuf> {
    for name in ["CC", "AR"] {
        println!("cargo::rerun-if-env-changed={name}");
    }
    let folder = match env::var_os(VARIABLE) {
        Some(folder) => PathBuf::from(folder),
        None if archive.is_file() && is_its_machine() => return None,
        None => ["", "../../target/amalgamation"]
            .map(|folder| Path::new(&variable("CARGO_MANIFEST_DIR")).join(folder))
            .into_iter()
            .find(|folder| [SOURCE, HEADER].iter().all(|file| folder.join(file).is_file()))?,
    };
    for file in [SOURCE, HEADER] {
        println!("cargo::rerun-if-changed={}", folder.join(file).display());
        if !folder.join(file).is_file() {
            println!("cargo::error=no {file} in {VARIABLE}={}", folder.display());
            return Some(folder);
        }
    }
    let out = PathBuf::from(variable("OUT_DIR"));
    let object = out.join("cuckooormolu.o");
    let mut compiler = command("CC", "cc");
    compiler.args(["-std=c11", "-O3", "-fPIC", "-c", "-o"]).arg(&object).arg(folder.join(SOURCE));
    run(compiler);
    let mut archiver = command("AR", "ar");
    archiver.arg("rcs").arg(out.join(archive.file_name()?)).arg(&object);
    run(archiver);
    Some(out)
}

/// The archive is machine code for x86-64 Linux.
pub fn is_its_machine() -> bool {
    variable("CARGO_CFG_TARGET_ARCH") == "x86_64" && variable("CARGO_CFG_TARGET_OS") == "linux"
}

fn variable(name: &str) -> String {
    env::var(name).unwrap_or_else(|_| panic!("cargo sets {name}"))
}

fn command(variable: &str, default: &str) -> Command {
    Command::new(env::var_os(variable).unwrap_or(default.into()))
}

fn run(mut command: Command) {
    match command.status() {
        Ok(status) if status.success() => {}
        Ok(status) => println!("cargo::error={command:?}: {status}"),
        Err(error) => println!("cargo::error={command:?}: {error}"),
    }
}
