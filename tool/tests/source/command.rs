//! The program: `compile` and `source`, and what it says of wrong command lines.

use std::fs;
use std::path::{Path, PathBuf};
use std::process::{Command, Output};

const SOURCE: &str = "members dora, pete\nrelation owns\nevent share by anyone\n";

fn run(arguments: &[&str]) -> Output {
    Command::new(env!("CARGO_BIN_EXE_cuckooormolu")).args(arguments).output().unwrap()
}

/// Exit status, standard output and standard error.
fn said(arguments: &[&str]) -> (i32, String, String) {
    let output = run(arguments);
    let text = |bytes: Vec<u8>| String::from_utf8(bytes).unwrap();
    (output.status.code().unwrap(), text(output.stdout), text(output.stderr))
}

/// A folder of its own, with a source in it.
fn folder(name: &str, source: &str) -> PathBuf {
    let path = Path::new(env!("CARGO_TARGET_TMPDIR")).join(name);
    fs::create_dir_all(&path).unwrap();
    fs::write(path.join("terms.say"), source).unwrap();
    path
}

#[test]
fn compile_writes_terms_and_names() {
    let path = folder("written", SOURCE);
    let (status, out, _) = said(&["compile", &path.display().to_string()]);
    assert_eq!(status, 0);
    assert!(out.ends_with("1 of 256 entries, 0 of 32 about the past\n"), "{out}");
    let terms = fs::read_to_string(path.join("terms.tsv")).unwrap();
    assert_eq!(terms, "M\t2\nL\t1\t1\nF\t0\ttop\t0\t0\nP\t0\t0\n");
    let names = fs::read_to_string(path.join("names.tsv")).unwrap();
    assert_eq!(names, "member\t0\tdora\nmember\t1\tpete\nrelation\t0\towns\nevent\t0\tshare\n");
    let (status, out, _) = said(&["compile", &path.display().to_string(), "--print"]);
    assert_eq!((status, out), (0, terms));
}

#[test]
fn compile_writes_elsewhere() {
    let path = folder("elsewhere", SOURCE);
    let file = path.join("terms.say").display().to_string();
    let other = path.join("out/deep");
    let (status, out, _) = said(&["compile", &file, "-o", &other.display().to_string(), "--json"]);
    assert_eq!(status, 0);
    assert!(out.contains("\"entries\":1,\"past\":0}"), "{out}");
    assert!(other.join("terms.tsv").is_file() && other.join("names.tsv").is_file());
    assert!(!path.join("terms.tsv").exists());
}

#[test]
fn compile_shows_mistakes_and_writes_nothing() {
    let path = folder("mistaken", "members a\nevent e when me own target\n");
    let file = path.join("terms.say").display().to_string();
    let (status, out, error) = said(&["compile", &file]);
    assert_eq!((status, out.as_str()), (3, ""));
    assert!(error.starts_with(&format!("{file}:2:17: no relation or event `own`")), "{error}");
    let (status, out, _) = said(&["compile", &file, "--json"]);
    assert_eq!(status, 3);
    assert!(out.starts_with("{\"error\":\"no relation or event `own`"), "{out}");
    assert!(out.contains("\"line\":2,\"column\":17,\"advice\":"), "{out}");
    assert!(!path.join("terms.tsv").exists());
    let (status, _, error) = said(&["compile", "nowhere.say"]);
    assert_eq!(status, 3);
    assert!(error.contains("there is no nowhere.say"), "{error}");
}

#[test]
fn source_goes_back() {
    let path =
        folder("back", "members dora, pete\nrelation owns\nevent share when me owns target\n");
    let path = path.display().to_string();
    assert_eq!(said(&["compile", &path]).0, 0);
    let (status, out, _) = said(&["source", &path]);
    let shown =
        "members dora, pete\nrelation owns\n\nevent share\n  when me owns target\n".to_string();
    assert_eq!((status, out), (0, shown));
    let broken = Path::new(&path).join("broken.tsv");
    fs::write(&broken, "M\t0\n").unwrap();
    let (status, _, error) = said(&["source", &broken.display().to_string()]);
    assert_eq!(status, 3);
    let file = broken.display();
    let why = format!(
        "{file} is refused with 2 at line 1; `cuckooormolu check {file}` says what is wrong"
    );
    assert!(error.contains(&why), "{error}");
}

#[test]
fn wrong_command_lines() {
    let cases: [(&[&str], &str); 5] = [
        (&[], "usage: cuckooormolu COMMAND"),
        (&["compil"], "no command `compil`; did you mean `compile`?"),
        (&["compile"], "give the source FILE"),
        (&["compile", "a", "b"], "`b` is one too many"),
        (&["source", "a", "--jsn"], "no option --jsn here"),
    ];
    for (arguments, part) in cases {
        let (status, _, error) = said(arguments);
        assert_eq!(status, 2, "{arguments:?}");
        assert!(error.contains(part), "{error}");
    }
}

#[test]
fn every_command_has_help() {
    let (status, overview, _) = said(&["--help"]);
    assert_eq!(status, 0);
    for command in cuckooormolu_tool::commands::COMMANDS {
        assert!(overview.contains(command.name));
        let (status, out, _) = said(&[command.name, "--help"]);
        assert_eq!(status, 0);
        assert!(out.starts_with(&format!("usage: cuckooormolu {}", command.name)), "{out}");
        assert_eq!(said(&["help", command.name]).1, out);
    }
}
