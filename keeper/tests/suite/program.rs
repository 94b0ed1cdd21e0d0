//! What the program prints.

use crate::help::*;
use keeper::generate::{self, lines, Rng};
use keeper::program::{output, renumbered, revised, run, stored, MOST_BYTES};
use keeper::terms::{normal, Refusal};
use std::fs;
use std::path::Path;

const REQUESTS: &str = "R 2 1 2\nR 0 0 1\nR 2 1 2\nR 1 0 1\nR 2 1 2\nR 9 0 0\n";
const PRINTED: &str = "1\tdeny\n2\tgrant\n3\tgrant\n4\tgrant\n5\tdeny\n6\trefuse\t9\n";

#[test]
fn the_preset() {
    assert_eq!(output(&tabs(PRESET), &tabs(REQUESTS)), PRINTED);
}

#[test]
fn files_of_a_directory() {
    let directory = std::env::temp_dir().join(format!("keeper-test-{}", std::process::id()));
    fs::create_dir_all(&directory).unwrap();
    assert_eq!(run(&directory), "terms\t1\t1\n");
    fs::write(directory.join("terms.tsv"), tabs(PRESET)).unwrap();
    assert_eq!(run(&directory), "");
    fs::write(directory.join("requests.tsv"), tabs(REQUESTS)).unwrap();
    assert_eq!(run(&directory), PRINTED);
    let stored = stored(&directory).unwrap();
    assert_eq!(stored, tabs(&format!("S 2\n{PRESET}V 1 0 1\n")));
    let moved = PRESET.replace("G 0 0 2", "G 0 1 0");
    assert_eq!(renumbered(&directory, &[1, 2, 0]), Ok(tabs(&format!("S 2\n{moved}V 1 1 2\n"))));
    assert_eq!(renumbered(&directory, &[1, 2]), Err(Refusal::plain(15)));
    fs::write(directory.join("terms.tsv"), &stored).unwrap();
    assert_eq!(run(&directory), PRINTED);
    fs::write(directory.join("requests.tsv"), vec![b'\n'; MOST_BYTES + 9]).unwrap();
    assert_eq!(run(&directory), "requests\t6\t0\n");
    fs::remove_dir_all(&directory).unwrap();
}

#[test]
fn malformed_requests() {
    let requests = b"R\t0\t0\n\nR\t0\t0\t000001\nR\t0\t0\t1\nS\t0\t0\t1\nR 0 0 1\nR\t0\t0\t1\r\n\
        R\t99999\t0\t0\nR\t0\t100000\t0\nR\t0\t3\t0\nR\t0\t0\t1\t\nR\t0\t0\t1";
    let wanted = "1\trefuse\t1\n2\trefuse\t1\n3\trefuse\t1\n4\tgrant\n5\trefuse\t1\n6\trefuse\t1\n\
        7\trefuse\t1\n8\trefuse\t9\n9\trefuse\t1\n10\trefuse\t9\n11\trefuse\t1\n12\trefuse\t1\n";
    assert_eq!(output(&tabs(PRESET), requests), wanted);
}

#[test]
fn padded_requests() {
    let requests = "R 02 001 00002\nR 00000 0 01\nR 2 01 2\nR 1 0 1\nR 2 1 2\nR 009 0 0\n";
    assert_eq!(output(&tabs(PRESET), &tabs(requests)), PRINTED);
    for seed in 0..200 {
        let mut rng = Rng::new(seed);
        let case = generate::case(seed, 99_999);
        let asked = case.calls().filter(|call| !call.look);
        let lines = asked.map(|call| format!("R {} {} {}\n", call.event, call.from, call.to));
        let requests = tabs(&lines.collect::<String>());
        let (mut padded_terms, mut padded) = (case.text.clone(), requests.clone());
        lines::pad(&mut rng, &mut padded_terms);
        lines::pad(&mut rng, &mut padded);
        if padded_terms.len() > MOST_BYTES {
            continue;
        }
        let wanted = output(&normal(&case.text), &requests);
        assert_eq!(output(&padded_terms, &padded), wanted, "seed {seed}");
    }
}

#[test]
fn refused_terms_print_one_line() {
    assert_eq!(output(b"", &tabs(REQUESTS)), "terms\t1\t1\n");
    assert_eq!(output(b"M\t65\n", &tabs(REQUESTS)), "terms\t2\t1\n");
}

#[test]
fn long_files() {
    let full = vec![b'\n'; MOST_BYTES];
    let long = vec![b'\n'; MOST_BYTES + 1];
    assert_eq!(output(&long, &long), "terms\t6\t0\n");
    assert_eq!(output(&full, &long), "terms\t1\t1\n");
    assert_eq!(output(&tabs(PRESET), &long), "requests\t6\t0\n");
    let printed = output(&tabs(PRESET), &full);
    assert!(printed.ends_with("65536\trefuse\t1\n"));
}

#[test]
fn what_is_stored_after_a_revision() {
    let examples = Path::new(env!("CARGO_MANIFEST_DIR")).join("../examples");
    let folder = examples.join("revised");
    let later = fs::read(folder.join("later/terms.tsv")).unwrap();
    assert_eq!(revised(&folder, &folder.join("new")), Ok(later));
    assert_eq!(revised(&folder, &folder), stored(&folder));
    let other = revised(&folder, &examples.join("preset"));
    assert_eq!(other, Err(Refusal::plain(13)));
}
