//! Requests of two banks: answered, explained and tried; and what works with one only.

mod run_support;

use run_support::{example, run, run_with, Folder};
use std::fs;

const SOURCE: &str = "members dora, pete, saw\nrelations owns, blocks\nevent share, withdraw by anyone\n\
    event block by anyone then add me blocks target\n\
    event load when some owner owns target: ((not owner withdraw me since owner share me) and not owner blocks me)\n\
    event preview when target share me\nfirst dora owns saw\n";

const REQUESTS: &str =
    "left share dora pete   # moment 1\nright load pete saw\nleft load pete saw\n";

fn folder(source: &str, requests: &str) -> Folder {
    let folder = Folder::new();
    folder.write("terms.say", source);
    folder.write("requests.say", requests);
    folder
}

/// The example with the requests of its banks.
fn two_banks(command: &str, more: &[&str]) -> String {
    let (folder, file) = (example("two-banks"), example("two-banks/banks.say"));
    let first = [command, folder.to_str().unwrap(), "--requests", file.to_str().unwrap()];
    let said = run(&[&first, more].concat());
    assert_eq!((said.status, said.err.as_str()), (0, ""));
    said.out
}

/// What a fenced block of the example's README has.
fn quoted(fence: &str) -> String {
    let readme = fs::read_to_string(example("two-banks").join("README.md")).unwrap();
    let (_, block) = readme.split_once(&format!("```{fence}\n")).expect(fence);
    block.split_once("```\n").unwrap().0.to_string()
}

#[test]
fn the_example_quotes_what_is_said() {
    assert_eq!(quoted("run"), two_banks("run", &[]));
    let why = two_banks("why", &[]);
    let lines: Vec<&str> = why.lines().collect();
    let of = |request: &str| {
        let first = lines.iter().position(|line| line.starts_with(request)).unwrap();
        let rest = lines[first + 1..].iter().take_while(|line| line.starts_with("      "));
        let count = 1 + rest.count();
        lines[first..first + count].join("\n") + "\n"
    };
    assert_eq!(quoted("why"), [of(" 3  "), of(" 7  "), of("13  ")].concat());
    // Which moments the left bank does not see stays said as long as it counts.
    let unseen =
        "      moment 7 was made in the right bank, where dora withdrew from pete: the left bank \
                  sees the moment, not the event\n";
    assert!(of("11  ").ends_with(unseen) && of("15  ").ends_with(unseen), "{why}");
    assert_eq!(why.matches("moment, not the event").count(), 4);
}

#[test]
fn the_folders_own_requests_may_name_banks() {
    let folder = folder(SOURCE, REQUESTS);
    let said = run(&["run", folder.path(), "--json"]).out;
    let lines: Vec<&str> = said.lines().collect();
    assert!(lines[0].starts_with(r#"{"line":1,"bank":"left","request":[0,0,1],"#), "{said}");
    assert!(lines[1].contains(r#""bank":"right""#) && lines[1].ends_with(r#""answer":"deny"}"#));
    assert!(lines[2].ends_with(r#""answer":"grant","made":2}"#), "{said}");
    let said = run(&["why", folder.path(), "2", "--json"]).out;
    let unseen = "\"because\":[\"dora owns saw, but dora has never shared with pete\"],\"more\":0,\
                  \"unseen\":[\"moment 1 was made in the left bank, where dora shared with pete: the \
                  right bank sees the moment, not the event\"],\"more unseen\":0}\n";
    assert!(said.ends_with(unseen), "{said}");
    assert_eq!(run(&["run", folder.path(), "--strict"]).status, 1);
    let said = run_with(&["run", folder.path(), "-"], "right share 0 -> 1\nright load pete saw\n");
    let wanted = "1  right  share dora → pete  granted\n2  right  load pete → saw    granted\n";
    assert_eq!(said.out, wanted);
    // A file without banks means what it always did.
    folder.write("plain.say", &REQUESTS.replace("left ", "").replace("right ", ""));
    let file = folder.file("plain.say").display().to_string();
    let said = run(&["run", folder.path(), "--requests", &file]).out;
    assert!(said.ends_with("2  load pete → saw    granted\n3  load pete → saw    granted\n"));
}

#[test]
fn tried_at_the_prompt() {
    let folder = folder(SOURCE, "");
    let typed = "left share dora pete\nright load pete saw\nwhy\nlook left preview pete dora\n\
                 right share dora dora\nwhy left preview pete dora\nright withdraw dora pete\n\
                 left load pete saw\nwhy\nlist\nundo\nsave\n";
    let said = run_with(&["try", folder.path()], typed);
    let wanted = "left: granted; moment 1, in the right bank without the event
right: denied
right load pete → saw: denied
  dora owns saw, but dora has never shared with pete
  moment 1 was made in the left bank, where dora shared with pete: the right bank sees the moment, not the event
left: would be granted
right: granted; moment 2, in the left bank without the event
left preview pete → dora: denied
  dora has not just shared with pete
  moment 2 was made in the right bank, where dora shared with dora: the left bank sees the moment, not the event
right: granted; moment 3, in the left bank without the event
left: granted; moment 4, in the right bank without the event
left load pete → saw: granted
  dora owns saw, and dora shared with pete at moment 1, and dora has not withdrawn from pete since, and dora does \
                  not block pete
  moment 3 was made in the right bank, where dora withdrew from pete: the left bank sees the moment, not the event
  1  left share dora → pete: granted
  2  right load pete → saw: denied
  3  right share dora → dora: granted
  4  right withdraw dora → pete: granted
  5  left load pete → saw: granted
took back left load pete → saw, which was granted; moment 3
";
    let file = folder.file("requests.say");
    assert_eq!(said.out, format!("{wanted}wrote 4 requests to {}\n", file.display()));
    assert_eq!(said.status, 0);
    let saved = "left share dora pete\nright load pete saw\nright share dora dora\nright withdraw dora pete\n";
    assert_eq!(folder.read("requests.say"), saved);
    let said = run_with(&["try", folder.path()], "look left load pete saw\nwho right load\n").out;
    assert!(said.starts_with("left: would be granted\nright: load at moment 3: 1 of 9 pairs"));
}

/// Relations are the same in both banks.
#[test]
fn a_block_counts_in_both() {
    let requests = "left share dora pete\nright block dora pete\nleft load pete saw\n";
    let said = run(&["why", folder(SOURCE, requests).path(), "3"]).out;
    assert_eq!(
        said,
        "3  left  load pete → saw  denied at moment 2\n     dora owns saw, but dora blocks pete\n"
    );
}

/// A denial of a kept event is a moment in both banks, and an event in one.
#[test]
fn denied_tries_count_in_their_bank() {
    let source = "members dora, pete\nevent load when me is target\n\
                  event complain when once me denied load target\nkeep denied load\n";
    let requests = "left load dora pete\nleft complain dora pete\nright complain dora pete\n";
    let said = run(&["why", folder(source, requests).path()]).out;
    let wanted = "1  left   load dora → pete      denied; moment 1
     dora is not pete
2  left   complain dora → pete  granted; moment 2
     dora was denied permission to load pete at moment 1
3  right  complain dora → pete  denied at moment 2
     dora has never been denied permission to load pete
     moment 1 was made in the left bank, where dora was denied permission to load pete: the right bank sees the moment, not \
                  the event
";
    assert_eq!(said, wanted);
}

#[test]
fn one_bank_or_two_but_not_both() {
    let folder = folder(SOURCE, "");
    let typed = "look load pete saw\nwho left load\nwhy\nshare dora pete\nleft load pete saw\nundo\n\
                 left share dora pete\nload pete saw\nwhy load pete saw\nleft load\nlefft load pete saw\n\
                 save none.tsv\n";
    let said = run_with(&["try", folder.path()], typed);
    let lines: Vec<&str> = said.out.lines().filter(|line| line.starts_with('?')).collect();
    let wanted = [
        "? nothing was asked yet",
        "? the requests so far are of one bank, so that there is no bank left; two banks begin together at moment 0: \
         `undo` them all, or begin with --first",
        "? there are two banks: name one before the event, left or right",
        "? there are two banks: name one before the event, left or right",
        "? like this: left EVENT FROM TO",
        "? no event or command `lefft`; did you mean `left`?",
        "? a .tsv has no words for banks: give save a name that ends in .say",
    ];
    assert_eq!(lines, wanted);
    assert_eq!(said.status, 2);
}

/// What a bank has not seen it does not get by new terms: they begin with the event of
/// the last moment in the bank that made it.
#[test]
fn both_are_revised_together() {
    let (old, new) = (
        folder(SOURCE, ""),
        folder(&SOURCE.replace("target share me", "once target share me"), ""),
    );
    let typed = format!(
        "left share dora pete\nrevise {}\nleft preview pete dora\nright preview pete dora\nwhy\nsave\nundo\nundo\nundo\n\
         look right preview pete dora\n",
        new.path()
    );
    let said = run_with(&["try", old.path()], &typed).out;
    for part in [
        "These begin now, at moment 1, and its event, share dora → pete, counts in the left bank:\n",
        "In the left bank:\n\nNo answer changes now.\n\nIn the right bank:\n\nNo answer changes now.\n\
         left: granted; moment 2, in the right bank without the event\nright: denied\n",
        "  since the terms were revised at moment 1 dora has never shared with pete\n  moment 1 was made in the left",
        "? the terms were revised, and a file of requests has no word for that: undo it first\n",
    ] {
        assert!(said.contains(part), "{part}\n{said}");
    }
    assert!(said.ends_with("; moment 1\nright: would be denied\n"), "{said}");
    let other = run_with(
        &["try", old.path()],
        &format!("left share 0 1\nrevise {}\n", example("preset").display()),
    );
    assert!(other.out.contains("refused: 1 relations here and 2 in"), "{}", other.out);
}

#[test]
fn what_works_with_one_bank_says_so() {
    let folder = folder(SOURCE, REQUESTS);
    let (path, out) = (folder.path(), folder.file("page.html").display().to_string());
    let file = folder.file("requests.say").display().to_string();
    for arguments in [
        &["who", path, "load"][..],
        &["report", path, "-o", &out],
        &["play", path],
        &["revise", path, path],
    ] {
        let said = run(arguments);
        let wanted = format!(
            "cuckooormolu {}: {file} names banks, and this works with one bank only; `cuckooormolu run`, `why` and \
             `try` work with two, and at the prompt of `try` there are `who` and `revise`, too\n",
            arguments[0]
        );
        assert_eq!((said.status, said.out.as_str(), said.err), (3, "", wanted));
    }
    for option in ["--store", "--write"] {
        let said = run(&["run", path, option, &out]);
        assert_eq!((said.status, said.out.as_str()), (3, ""));
        assert!(said.err.contains("of two banks nothing is stored or written"), "{}", said.err);
    }
    assert!(!folder.file("page.html").exists());
    // At moment 0 both banks are alike, and these do not look at requests.
    assert_eq!(run(&["who", path, "load", "--first"]).status, 0);
    folder.write("tests.say", "test a share\n  given dora share pete\n  pete may load saw\n");
    for command in ["aloud", "check", "test"] {
        assert_eq!(run(&[command, path]).status, 0, "{command}");
    }
    folder.write("tests.say", "test a share\n  given left dora share pete\n  left may load saw\n");
    let said = run(&["test", path]);
    assert_eq!(said.status, 3);
    assert_eq!(said.err.matches("a test is about one bank\n").count(), 2, "{}", said.err);
}

#[test]
fn two_banks_begin_with_terms_that_remember_nothing() {
    let (folder, stored) = (folder(SOURCE, "share dora pete\n"), Folder::new());
    let file = stored.file("terms.tsv").display().to_string();
    assert_eq!(run(&["run", folder.path(), "--store", &file]).status, 0);
    let said = run_with(&["run", stored.path(), "-"], "left load pete saw\n");
    assert_eq!(said.status, 3);
    let wanted = "the terms were stored with what one bank remembers; two banks begin together, with terms that";
    assert!(said.err.contains(wanted), "{}", said.err);
    let said = run_with(&["try", stored.path()], "left load pete saw\nload pete saw\n").out;
    assert!(said.starts_with("? the terms were stored"), "{said}");
    assert!(said.ends_with("\ngranted; moment 1\n"), "{said}");
}

#[test]
fn only_the_last_moments_are_told() {
    let requests = "left share dora pete\n".repeat(6) + "right load pete saw\n";
    let folder = folder(SOURCE, &requests);
    let said = run(&["why", folder.path(), "7"]).out;
    assert_eq!(said.matches("moment, not the event").count(), 3);
    assert!(
        said.ends_with("     3 moments more were made in the other bank, before these (--all)\n"),
        "{said}"
    );
    let all = run(&["why", folder.path(), "7", "--all"]).out;
    assert_eq!(all.matches("moment, not the event").count(), 6);
    assert_eq!(run(&["why", folder.path(), "7", "--requests", "none.say"]).status, 3);
    let both = run_with(&["run", folder.path(), "-", "--requests", "none.say"], "");
    assert_eq!(both.status, 2);
}
