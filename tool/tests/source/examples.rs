//! The examples' sources: the terms.tsv and names.tsv beside each are what it
//! compiles to, byte by byte.

use cuckooormolu_tool::folder::{Folder, SOURCE};
use cuckooormolu_tool::source::decompile::{agrees, decompile};
use cuckooormolu_tool::source::Compiled;
use keeper::program::output;
use std::fs;
use std::path::{Path, PathBuf};

/// The example folders that have a source, with what it compiles to.
fn examples() -> Vec<(PathBuf, String, Compiled)> {
    let all = Path::new(env!("CARGO_MANIFEST_DIR")).join("../examples");
    let mut found = Vec::new();
    for entry in fs::read_dir(all).unwrap() {
        let path = entry.unwrap().path();
        if !path.join(SOURCE).is_file() {
            continue;
        }
        let name = path.file_name().unwrap().to_string_lossy().into_owned();
        let folder = Folder::load(&path).unwrap_or_else(|stop| panic!("{name}: {stop}"));
        found.push((path, name, folder.source.unwrap().compiled));
    }
    assert!(found.len() >= 19);
    found
}

#[test]
fn terms_and_names_are_what_compiling_gives() {
    for (path, name, compiled) in examples() {
        let file = |name: &str| fs::read_to_string(path.join(name)).unwrap();
        let how = format!("cuckooormolu compile examples/{name}");
        assert_eq!(file("terms.tsv").as_bytes(), compiled.text(), "{how}");
        assert_eq!(file("names.tsv"), compiled.names.write(), "{how}");
    }
}

#[test]
fn the_answers_are_the_examples() {
    for (path, name, compiled) in examples() {
        let requests = fs::read(path.join("requests.tsv")).unwrap();
        let expected = fs::read_to_string(path.join("expected.tsv")).unwrap();
        assert_eq!(output(&compiled.text(), &requests), expected, "{name}");
    }
}

#[test]
fn the_way_back() {
    for (_, name, compiled) in examples() {
        let own = &compiled.terms;
        assert!(agrees(&decompile(own, &compiled.names), own), "{name}");
    }
}
