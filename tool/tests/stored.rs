//! Stored files where terms are read: run, why, aloud, check, source, report.

mod run_support;

use run_support::{example, preset, run, Folder};

/// The preset as it is stored after share dora → pete; requests load pete → saw,
/// withdraw dora → pete, load pete → saw.
fn shared() -> Folder {
    let folder = preset();
    folder.write("requests.tsv", "R\t0\t0\t1\n");
    let stored = folder.file("stored.tsv");
    let said = run(&["run", folder.path(), "--store", stored.to_str().unwrap()]);
    let told = format!("1  share dora → pete  granted\n\n{} written\n", stored.display());
    assert_eq!((said.status, said.out), (0, told));
    let text = folder.read("stored.tsv");
    assert!(text.starts_with("S\t2\nM\t3\n") && text.ends_with("T\t0\t0\t1\nV\t0\t0\t1\n"));
    folder.write("terms.tsv", &text);
    folder.write("requests.tsv", "R\t2\t1\t2\nR\t1\t0\t1\nR\t2\t1\t2\n");
    folder
}

#[test]
fn it_goes_on_and_says_why() {
    let folder = shared();
    assert_eq!(
        run(&["why", folder.path()]).out,
        "1  load pete → saw       granted; moment 1
     dora owns saw, and as far as the stored file remembers, dora had at some time shared with pete and had not \
         withdrawn from pete since
2  withdraw dora → pete  granted; moment 2
     it is always allowed
3  load pete → saw       denied at moment 2
     dora owns saw, and as far as the stored file remembers, dora had at some time shared with pete and had not \
         withdrawn from pete since, but dora withdrew from pete at moment 2
"
    );
}

#[test]
fn what_was_not_so_has_not_become_so() {
    let folder = shared();
    let forgotten = folder.read("terms.tsv").replace("T\t0\t0\t1\n", "");
    folder.write("terms.tsv", &forgotten);
    folder.write("requests.tsv", "R\t1\t2\t1\nR\t2\t1\t2\n");
    let why = run(&["why", folder.path(), "2"]).out;
    let said = "dora owns saw, but as far as the stored file remembers, it was not the case that dora had at some \
                time shared with pete and had not withdrawn from pete since, and since then dora \
                has never shared with pete";
    assert!(why.contains(said), "{why}");
}

#[test]
fn the_example_stores_what_it_goes_on_from() {
    let (folder, later) = (Folder::new(), example("saved").join("later"));
    let stored = folder.file("stored.tsv");
    let arguments = ["--store", stored.to_str().unwrap()];
    run(&["run", example("saved").to_str().unwrap(), arguments[0], arguments[1]]);
    let wanted = std::fs::read_to_string(later.join("terms.tsv")).unwrap();
    assert_eq!(folder.read("stored.tsv"), wanted);
    let said = run(&["run", later.to_str().unwrap(), "--json"]).out;
    let expected = std::fs::read_to_string(later.join("expected.tsv")).unwrap();
    for (line, answer) in said.lines().zip(expected.lines()) {
        let answer = answer.split('\t').nth(1).unwrap();
        assert!(line.contains(&format!(r#""answer":"{answer}""#)), "{line}");
    }
    assert_eq!(said.lines().count(), 8);
}

#[test]
fn it_is_read_aloud() {
    let folder = shared();
    let said = run(&["aloud", folder.path()]).out;
    let remembered = "\nWhen this was stored, this was remembered:
- dora has at some time shared with pete and has not withdrawn from pete since
- dora has just shared with pete\n";
    assert!(said.ends_with(remembered), "{said}");
    let terms = folder.read("terms.tsv");
    folder.write("terms.tsv", terms.split("T\t").next().unwrap());
    let said = run(&["aloud", folder.path()]).out;
    let nothing = "\nWhen this was stored, nothing was remembered of the past.\n";
    assert!(said.ends_with(nothing), "{said}");
}

#[test]
fn long_tables_are_told_in_part() {
    let folder = Folder::new();
    let mut text = String::from(
        "S\t2\nM\t9\nL\t0\t1\nF\t0\ttop\t0\t0\nF\t1\tprev\t0\t0\nF\t2\tvar\t1\t0\n\
         F\t3\tout\t0\t2\nF\t4\tsince\t0\t3\nP\t0\t1\n",
    );
    text.extend((0..9).map(|b| format!("T\t0\t4\t{b}\n")));
    text.extend((0..9).flat_map(|a| (0..2).map(move |b| format!("T\t1\t{a}\t{b}\n"))));
    folder.write("terms.tsv", &text);
    let said = run(&["aloud", folder.path()]).out;
    let remembered: Vec<&str> = said.lines().skip_while(|line| !line.starts_with("- ")).collect();
    assert_eq!(remembered.len(), 14, "{said}");
    assert!(remembered[0].contains("at the moment before this one"), "{said}");
    assert_eq!(remembered[1], "- member 0 has at some time done event 0 to member 0");
    assert_eq!(remembered[13], "- and 6 more like these");
}

#[test]
fn it_is_checked_and_written_as_a_source_and_drawn() {
    let folder = shared();
    let said = run(&["check", folder.path()]);
    assert_eq!(said.status, 0);
    assert!(
        said.out.contains("\nstored: with 1 line of the past and the last event;"),
        "{}",
        said.out
    );
    let whole = folder.read("terms.tsv");
    folder.write("terms.tsv", whole.split("V\t").next().unwrap());
    let cut = run(&["check", folder.path()]).out;
    let told = "\nstored: with 1 line of the past and no event, as before any request;";
    assert!(cut.contains(told), "{cut}");
    folder.write("terms.tsv", &whole);
    let json = run(&["check", folder.path(), "--json"]).out;
    assert!(json.lines().next().unwrap().contains("\"stored\":true,\"effort\":"), "{json}");
    let source = run(&["source", folder.path()]).out;
    assert!(source.starts_with("# stored with a past, which a source does not say\n"), "{source}");
    let page = run(&["report", folder.path(), "-o", "-"]).out;
    assert!(page.contains("as stored, after share dora → pete"));
    assert!(page.contains("dora has at some time shared with pete"));
}

#[test]
fn lines_are_counted_from_s() {
    let folder = shared();
    let unused = folder.read("terms.tsv").replace("P\t0\t0\n", "F\t9\ttop\t0\t0\nP\t0\t0\n");
    folder.write("terms.tsv", &unused);
    let said = run(&["check", folder.path()]).out;
    assert!(said.contains("warning, line 13: entry 9 is used by no policy"), "{said}");
}

#[test]
fn terms_to_begin_with_are_written_before_anything_has_passed() {
    let folder = preset();
    let written = folder.file("written.tsv");
    let arguments = ["run", folder.path(), "--write", written.to_str().unwrap()];
    let said = run(&arguments);
    assert_eq!(said.status, 3);
    assert!(said.err.contains("refused with 12: something has passed"), "{}", said.err);
    assert!(!written.exists());
    folder.write("requests.tsv", "R\t2\t1\t2\n");
    assert_eq!(run(&arguments).err, "");
    assert_eq!(folder.read("written.tsv"), folder.read("terms.tsv"));
}
