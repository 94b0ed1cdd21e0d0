//! The script `./cuckooormolu`: what it says where something is missing, and
//! that what is built runs. Each test has a checkout of its own, in which the
//! program is built already or nothing is.

mod run_support;

use run_support::Folder;
use std::fs;
use std::os::unix::fs::{symlink, PermissionsExt};
use std::path::{Path, PathBuf};
use std::process::{Command, Output};

const SCRIPT: &str = concat!(env!("CARGO_MANIFEST_DIR"), "/../cuckooormolu");
const ARCHIVE: &str = concat!(env!("CARGO_MANIFEST_DIR"), "/../archive");

/// What the script calls, besides rt and cargo.
const CALLED: [&str; 15] = [
    "sh", "cat", "chmod", "cmp", "cp", "dirname", "find", "head", "mkdir", "mv", "printf", "pwd",
    "readlink", "rm", "touch",
];

/// A checkout with the script, and a path without rt and cargo.
fn checkout() -> Folder {
    let folder = Folder::new();
    for name in ["bin", "tool/src", "keeper", "bindings/rust", "home"] {
        fs::create_dir_all(folder.file(name)).unwrap();
    }
    fs::copy(SCRIPT, folder.file("cuckooormolu")).unwrap();
    fs::copy(ARCHIVE, folder.file("archive")).unwrap();
    fs::copy(overview(), folder.file("tool/overview.txt")).unwrap();
    for name in ["Cargo.toml", "Cargo.lock", "tool/Cargo.toml"] {
        folder.write(name, "");
    }
    for name in CALLED {
        let found = ["/usr/bin", "/bin"].map(|place| Path::new(place).join(name));
        if let Some(found) = found.iter().find(|place| place.exists()) {
            symlink(found, folder.file("bin").join(name)).unwrap();
        }
    }
    folder
}

fn overview() -> PathBuf {
    Path::new(env!("CARGO_MANIFEST_DIR")).join("overview.txt")
}

/// A checkout in which the program is built.
fn built() -> Folder {
    let folder = checkout();
    let place = folder.file("target/cargo/release");
    fs::create_dir_all(&place).unwrap();
    fs::copy(env!("CARGO_BIN_EXE_cuckooormolu"), place.join("cuckooormolu")).unwrap();
    folder
}

fn call(folder: &Folder, script: &Path, arguments: &[&str], target: Option<&str>) -> Output {
    let mut command = Command::new("/bin/sh");
    command.arg(script).args(arguments).env_clear();
    command.env("PATH", folder.file("bin")).env("HOME", folder.file("home"));
    if let Some(target) = target {
        command.env("CARGO_TARGET_DIR", target);
    }
    command.current_dir(folder.path()).output().unwrap()
}

fn said(folder: &Folder, arguments: &[&str]) -> (i32, String, String) {
    told(call(folder, &folder.file("cuckooormolu"), arguments, None))
}

fn told(output: Output) -> (i32, String, String) {
    let text = |bytes: Vec<u8>| String::from_utf8(bytes).unwrap();
    (output.status.code().unwrap(), text(output.stdout), text(output.stderr))
}

#[test]
fn help_builds_nothing() {
    let folder = checkout();
    let wanted = cuckooormolu_tool::pages::overview();
    let kept = fs::read_to_string(overview()).unwrap();
    assert_eq!(kept, wanted, "write tool/overview.txt anew: cuckooormolu --help");
    assert_eq!(said(&folder, &["--help"]), (0, wanted.clone(), String::new()));
    assert_eq!(said(&folder, &[]), (2, String::new(), wanted));
    assert!(!folder.file("target").exists());
}

#[test]
fn what_is_missing_is_named() {
    let folder = checkout();
    let (status, _, error) = said(&folder, &["run", "mine"]);
    assert_eq!(status, 3);
    assert!(
        error.contains("the tool is not built, and Rust's cargo is not on the path"),
        "{error}"
    );
    let cargo = folder.file("bin/cargo");
    fs::write(&cargo, "#!/bin/sh\nexit 1\n").unwrap();
    fs::set_permissions(&cargo, fs::Permissions::from_mode(0o755)).unwrap();
    let (status, _, error) = said(&folder, &["run", "mine"]);
    assert_eq!(status, 3);
    assert!(error.contains("the Rattle toolchain, rt, is not on the path"), "{error}");
    assert!(error.contains("CUCKOOORMOLU_LIB"), "{error}");
    fs::create_dir_all(folder.file("target/staticlib")).unwrap();
    folder.write("target/staticlib/libcuckooormolu.a", "");
    let (status, _, error) = said(&folder, &["run", "mine"]);
    assert_eq!(status, 3);
    assert!(error.contains("cuckooormolu: building the tool\n"), "{error}");
    assert!(error.contains("the tool could not be built"), "{error}");
    let script = folder.file("cuckooormolu");
    let (status, _, error) = told(call(&folder, &script, &["run", "mine"], Some("/proc/none")));
    assert_eq!(status, 3);
    assert!(error.contains("cannot write to /proc/none; name a folder"), "{error}");
}

#[test]
fn what_is_built_runs_without_toolchains() {
    let folder = built();
    let (status, out, error) = said(&folder, &["new", "mine"]);
    assert_eq!((status, error.as_str()), (0, ""), "{out}");
    let (status, out, _) = said(&folder, &["aloud", "mine"]);
    assert_eq!(status, 0);
    assert!(out.contains("has at some time shared with you"), "{out}");
    let link = folder.file("bin/linked");
    symlink("../cuckooormolu", &link).unwrap();
    let (status, out, error) = told(call(&folder, &link, &["--version"], None));
    assert_eq!((status, error.as_str()), (0, ""));
    assert!(out.starts_with("cuckooormolu "), "{out}");
}

#[test]
fn an_older_program_says_so() {
    let folder = built();
    let soon = std::time::SystemTime::now() + std::time::Duration::from_secs(60);
    folder.write("tool/src/main.rs", "");
    fs::File::open(folder.file("tool/src/main.rs")).unwrap().set_modified(soon).unwrap();
    let (status, _, error) = said(&folder, &["--version"]);
    assert_eq!(status, 0);
    assert!(error.contains("this is the tool as it was"), "{error}");
}

/// An archive that is older than the crates is not linked.
#[test]
fn an_older_library_is_not_linked() {
    let folder = checkout();
    let program = |name: &str, text: &str| {
        let file = folder.file("bin").join(name);
        fs::write(&file, format!("#!/bin/sh\n{text}\n")).unwrap();
        fs::set_permissions(&file, fs::Permissions::from_mode(0o755)).unwrap();
    };
    program("cargo", "exit 1");
    for name in ["crates/cuckooormolu_c/out", "target/staticlib"] {
        fs::create_dir_all(folder.file(name)).unwrap();
    }
    folder.write("target/staticlib/libcuckooormolu.a", "");
    folder.write("crates/cuckooormolu_c/a.rt", "");
    let soon = std::time::SystemTime::now() + std::time::Duration::from_secs(60);
    fs::File::open(folder.file("crates/cuckooormolu_c/a.rt")).unwrap().set_modified(soon).unwrap();
    let (status, _, error) = said(&folder, &["run", "mine"]);
    assert_eq!(status, 3);
    assert!(error.contains("the proved library is older than the crates"), "{error}");
    program("rt", "echo \"proved: $*\" && echo new >out/libcuckooormolu_c.a");
    let (_, _, error) = said(&folder, &["run", "mine"]);
    assert!(error.contains("proving and building the library"), "{error}");
    assert!(error.contains("proved: lib --cpu x86-64\n"), "{error}");
    let linked = fs::read_to_string(folder.file("target/staticlib/libcuckooormolu.a")).unwrap();
    assert_eq!(linked, "new\n");
    // Without rt, what is built runs on.
    fs::remove_file(folder.file("bin/rt")).unwrap();
    let place = folder.file("target/cargo/release");
    fs::create_dir_all(&place).unwrap();
    fs::copy(env!("CARGO_BIN_EXE_cuckooormolu"), place.join("cuckooormolu")).unwrap();
    let (status, _, error) = said(&folder, &["--version"]);
    assert_eq!(status, 0);
    assert!(error.contains("since the library was proved, but rt is not on the path"), "{error}");
}

#[test]
fn installed_where_one_likes() {
    let folder = built();
    let prefix = folder.file("there");
    let (status, out, error) = said(&folder, &["install", "--prefix", prefix.to_str().unwrap()]);
    assert_eq!((status, error.as_str()), (0, ""));
    assert!(out.contains("is not on the path; add it"), "{out}");
    for file in [
        "share/man/man1/cuckooormolu.1",
        "share/bash-completion/completions/cuckooormolu",
        "share/zsh/site-functions/_cuckooormolu",
        "share/fish/vendor_completions.d/cuckooormolu.fish",
    ] {
        assert!(fs::read_to_string(prefix.join(file)).unwrap().contains("compile"), "{file}");
    }
    let version = Command::new(prefix.join("bin/cuckooormolu")).arg("--version").output().unwrap();
    assert!(version.status.success());
    assert_eq!(said(&folder, &["install"]).0, 0);
    assert!(folder.file("home/.local/bin/cuckooormolu").exists());
    let (status, _, error) = said(&folder, &["install", "--prefix", "/proc/none"]);
    assert_eq!(status, 3);
    assert!(error.contains("cannot write /proc/none/bin/cuckooormolu"), "{error}");
    assert_eq!(said(&folder, &["install", "--there"]).0, 2);
    for nowhere in [&["install", "--prefix", ""][..], &["install", "--prefix="]] {
        let (status, out, error) = said(&folder, nowhere);
        assert_eq!((status, out.as_str()), (2, ""));
        assert!(error.contains("--prefix needs the name of a folder"), "{error}");
    }
    assert!(said(&folder, &["install", "--help"]).1.contains("by\ndefault ~/.local"));
    assert!(said(&folder, &["--help"]).1.contains("./cuckooormolu install [--prefix DIR]"));
    // The program itself points at the script.
    let program = Command::new(prefix.join("bin/cuckooormolu")).arg("install").output().unwrap();
    let (status, _, error) = told(program);
    assert_eq!(status, 2);
    assert!(error.contains("by its script: `./cuckooormolu install"), "{error}");
}
