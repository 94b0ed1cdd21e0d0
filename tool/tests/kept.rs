//! Denied tries that count, where terms are read: compile, aloud, run, why, try,
//! report, stored files and back to a source.

mod run_support;

use run_support::{example, run, run_with, Folder};

/// Load is for whom the owner shared with; who was denied it may complain.
const SOURCE: &str = "members dora, pete, saw\nrelation owns\n\n\
    event share by anyone\n\n\
    event load\n  when some p owns target: once p share me\n\n\
    event complain\n  when once me denied load target\n\n\
    keep denied load\n\nfirst dora owns saw\n";

fn folder(requests: &str) -> Folder {
    let folder = Folder::new();
    folder.write("terms.say", SOURCE);
    folder.write("requests.tsv", requests);
    let said = run(&["compile", folder.path()]);
    assert_eq!((said.status, said.err.as_str()), (0, ""));
    folder
}

#[test]
fn a_source_keeps_denied_events() {
    let folder = folder("");
    let terms = folder.read("terms.tsv");
    assert!(terms.ends_with("P\t2\t9\nK\t1\nG\t0\t0\t2\n"), "{terms}");
    assert!(terms.contains("\tout\t5\t"), "{terms}");
    assert_eq!(run(&["source", folder.path()]).out, SOURCE);
    let checked = run(&["check", folder.path()]).out;
    assert!(checked.contains("1 first edge, 1 event kept when denied\n"), "{checked}");
    assert!(!checked.contains("warning"), "{checked}");
}

/// An event may be called `keep`, also beside the statement.
#[test]
fn keep_is_a_name_where_denied_does_not_follow() {
    let folder = Folder::new();
    folder.write(
        "terms.say",
        "members a, b\nevent keep when kept\nkeep denied keep\ndefine kept: me is target\n\
         event go when some x keep me: x denied keep me keep denied go\n",
    );
    assert_eq!(run(&["compile", folder.path()]).status, 0);
    assert!(folder.read("terms.tsv").ends_with("K\t0\nK\t1\n"));
}

#[test]
fn read_aloud() {
    let folder = folder("");
    let aloud = run(&["aloud", folder.path()]).out;
    let load = "has at some time shared with you.\n\
                If you are denied, the attempt is remembered too.\n";
    assert!(aloud.contains(load), "{aloud}");
    let complain = "if you have at some time been denied permission to load the target.";
    assert!(aloud.contains(complain), "{aloud}");
    let json = run(&["aloud", folder.path(), "--json"]).out;
    let kept: Vec<bool> = json.lines().map(|line| line.ends_with("\"kept\":true}")).collect();
    assert_eq!(kept, [false, true, false]);
}

#[test]
fn run_and_why() {
    let folder = folder("R\t2\t1\t2\nR\t1\t1\t2\nR\t2\t1\t2\nR\t2\t1\t0\n");
    assert_eq!(
        run(&["why", folder.path()]).out,
        "1  complain pete → saw   denied at moment 0
     pete has never been denied permission to load saw
2  load pete → saw       denied; moment 1
     dora owns saw, but dora has never shared with pete
3  complain pete → saw   granted; moment 2
     pete was denied permission to load saw at moment 1
4  complain pete → dora  denied at moment 2
     pete has never been denied permission to load dora
"
    );
}

#[test]
fn typed() {
    let folder = folder("");
    let typed = "load pete saw\nlook load pete saw\ncomplain pete dora\nundo\nundo\n";
    let said = run_with(&["try", folder.path()], typed).out;
    let wanted = "denied; moment 1\nwould be denied\ndenied\n\
                  took back complain pete → dora, which was denied; moment 1\n\
                  took back load pete → saw, which was denied; moment 0\n";
    assert_eq!(said, wanted);
}

#[test]
fn stored_and_gone_on() {
    let folder = folder("R\t1\t1\t2\n");
    let stored = folder.file("later/terms.tsv");
    run(&["run", folder.path(), "--store", stored.to_str().unwrap()]);
    let text = folder.read("later/terms.tsv");
    assert!(text.ends_with("V\t17\t1\t2\n") && text.contains("\nK\t1\n"), "{text}");
    folder.write("later/requests.tsv", "R\t2\t1\t2\n");
    let later = folder.file("later").display().to_string();
    let aloud = run(&["aloud", &later]).out;
    assert!(aloud.contains("- pete has just been denied permission to load saw\n"), "{aloud}");
    let why = run(&["why", &later]).out;
    assert!(
        why.contains(
            "as far as the stored file remembers, pete had at some time been denied permission to load saw"
        ),
        "{why}"
    );
}

#[test]
fn drawn() {
    let folder = folder("R\t1\t1\t2\nR\t2\t1\t2\n");
    let file = folder.file("page.html");
    let said = run(&["report", folder.path(), "-o", file.to_str().unwrap()]);
    assert_eq!((said.status, said.err.as_str()), (0, ""));
    let page = folder.read("page.html").replace('\u{a0}', " ");
    for part in [
        "<path class=\"event-edge denied-edge\" d=\"M",
        "what was just tried and denied",
        "Moment 1: denied load pete → saw",
        ">denied load</text>",
        "If you are denied, the attempt is remembered too.",
    ] {
        assert!(page.contains(part), "{part}");
    }
}

/// The moments that the example's README names.
#[test]
fn the_example_says_why() {
    let path = example("suspended");
    let why = |line: &str| run(&["why", path.to_str().unwrap(), line]).out;
    assert!(why("5").contains(
        "     pete is suspended\n       pete was denied permission to load saw at moment 4, and pete \
            was warned"
    ));
    assert!(why("10").contains("but mint released pete at moment 8"));
}
