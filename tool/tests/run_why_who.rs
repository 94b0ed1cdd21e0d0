//! `run`, `why` and `who`, from the command line.

mod run_support;

use run_support::{example, preset, run, Folder};

#[test]
fn run_says_what_the_proved_program_prints() {
    let folder = preset();
    let said = run(&["run", folder.path()]);
    assert_eq!(said.status, 0);
    assert_eq!(run(&["run", folder.path(), "--strict"]).status, 1);
    assert_eq!(
        said.out,
        "1  load pete → saw       denied
2  share dora → pete     granted
3  load pete → saw       granted
4  withdraw dora → pete  granted
5  load pete → saw       denied
6  event 9: dora → dora  refused: there is no event 9: events are 0 to 2
"
    );
}

#[test]
fn run_for_programs() {
    let folder = preset();
    folder.write("requests.tsv", "R\t0\t0\t1\nR\t0\t7\t1\nR 0 0 1\n");
    let said = run(&["run", folder.path(), "--json"]);
    let lines: Vec<&str> = said.out.lines().collect();
    assert_eq!(
        lines[0],
        r#"{"line":1,"request":[0,0,1],"event":"share","from":"dora","to":"pete","answer":"grant","made":1}"#
    );
    assert!(
        lines[1].contains(r#""number":9,"because":["there is no member 7: members are 0 to 2"]"#)
    );
    assert!(lines[2].starts_with(r#"{"line":3,"answer":"refuse","number":1,"#));
}

#[test]
fn run_answers_the_examples() {
    for name in ["preset", "just-shared", "groups", "coauthors", "blacklist-table"] {
        let expected = std::fs::read_to_string(example(name).join("expected.tsv")).unwrap();
        let said = run(&["run", example(name).to_str().unwrap(), "--json"]);
        assert_eq!(said.out.lines().count(), expected.lines().count());
        for (line, answer) in said.out.lines().zip(expected.lines()) {
            let answer = answer.split('\t').nth(1).unwrap();
            assert!(line.contains(&format!(r#""answer":"{answer}""#)), "{name}: {line}");
        }
    }
}

#[test]
fn granted_requests_are_well() {
    let folder = preset();
    folder.write("requests.tsv", "R\t0\t0\t1\n");
    assert_eq!(run(&["run", folder.path(), "--strict"]).status, 0);
}

/// What starts with a dash is a name after `--`; a flag has no value.
#[test]
fn options_are_told_apart() {
    let folder = preset();
    let said = run(&["run", folder.path(), "--json=1"]);
    assert_eq!((said.status, said.out.as_str()), (2, ""));
    assert!(said.err.contains("--json takes no value; write --json without `=1`"), "{}", said.err);
    assert_eq!(run(&["run", "--strict", "--", folder.path()]).status, 1);
    let said = run(&["run", "--", "--help"]);
    assert_eq!(said.status, 3);
    assert!(said.err.contains("there is no file or folder --help"), "{}", said.err);
    let said = run(&["run", "--", folder.path(), "--json"]);
    assert_eq!(said.status, 2);
    assert!(said.err.contains("`--json` is one too many"), "{}", said.err);
}

#[test]
fn why_names_the_moments_that_decide() {
    let folder = preset();
    let said = run(&["why", folder.path()]);
    assert_eq!(said.status, 0);
    assert_eq!(
        said.out,
        "1  load pete → saw       denied at moment 0
     dora owns saw, but dora has never shared with pete
2  share dora → pete     granted; moment 1
     it is always allowed
3  load pete → saw       granted; moment 2
     dora owns saw, and dora shared with pete at moment 1
4  withdraw dora → pete  granted; moment 3
     it is always allowed
5  load pete → saw       denied at moment 3
     dora owns saw, and dora shared with pete at moment 1, but dora withdrew from pete at moment 3
6  event 9: dora → dora  refused: there is no event 9: events are 0 to 2
"
    );
}

#[test]
fn why_of_one_line() {
    let folder = preset();
    let said = run(&["why", folder.path(), "3"]);
    assert_eq!(said.status, 0);
    assert_eq!(said.out.lines().count(), 2);
    assert_eq!(run(&["why", folder.path(), "7"]).status, 2);
    assert_eq!(run(&["why", folder.path(), "x"]).status, 2);
    let said = run(&["why", folder.path(), "5", "--json"]);
    let because = "dora owns saw, and dora shared with pete at moment 1, but dora withdrew from pete at moment 3";
    assert!(said.out.contains(&format!(r#""moment":3,"because":["{because}"],"more":0"#)));
}

/// The reason of a grant: no single line is left out, and what happened stands first.
#[test]
fn why_of_a_grant_by_four_conditions() {
    let folder = Folder::new();
    let terms = "members dora, pete\nevent share, block by anyone\nevent load when \
                 never someone block me and never me block someone and \
                 never someone block target and once target share me\n";
    folder.write("terms.say", terms);
    folder.write("requests.say", "share dora pete\nload pete dora\n");
    let said = run(&["why", folder.path(), "2"]).out;
    let lines: Vec<&str> = said.lines().skip(1).map(str::trim).collect();
    assert_eq!(lines[0], "dora shared with pete at moment 1", "{said}");
    assert_eq!(lines.len(), 4, "{said}");
    assert!(lines[1..].iter().all(|line| line.contains("ever ")), "{said}");
}

/// The moments that the examples' READMEs name.
#[test]
fn why_in_the_examples() {
    let because = |name: &str, line: &str| {
        let said = run(&["why", example(name).to_str().unwrap(), line, "--json"]).out;
        said.split_once("\"because\":[\"").unwrap().1.split_once('"').unwrap().0.to_string()
    };
    let last_to_share = because("just-shared", "24");
    assert!(last_to_share.contains("at moment 9, but "), "{last_to_share}");
    assert!(last_to_share.ends_with("at moment 15"), "{last_to_share}");
    let left_before = because("groups", "12");
    for moment in ["at moment 6, ", "at moment 1, but ", "at moment 5"] {
        assert!(left_before.contains(moment), "{left_before}");
    }
}

#[test]
fn a_denial_tells_the_nearest_possibility_first() {
    let folder = example("friends");
    let few = run(&["why", folder.to_str().unwrap(), "12"]).out;
    let all = run(&["why", folder.to_str().unwrap(), "12", "--all"]).out;
    assert!(few.contains("possibilit") && few.contains("(--all)"));
    assert!(!all.contains("(--all)"));
    assert!(all.lines().count() >= few.lines().count());
}

#[test]
fn who_shows_a_table() {
    let folder = preset();
    let said = run(&["who", folder.path(), "load", "--first"]);
    assert_eq!(said.status, 0);
    assert!(said.out.starts_with("load at moment 0: 0 of 9 pairs may"));
    folder.write("requests.tsv", "R\t0\t0\t1\n");
    let said = run(&["who", folder.path(), "load"]);
    let table: Vec<&str> = said.out.lines().skip(2).collect();
    assert_eq!(
        table,
        [
            "      d p",
            "      o e s",
            "      r t a",
            "      a e w",
            "dora  · · ·",
            "pete  · · ●",
            " saw  · · ·"
        ]
    );
    let said = run(&["who", folder.path(), "2", "--json"]);
    let line = r#"{"event":"load","moment":1,"from":"pete","to":["saw"]}"#;
    assert_eq!(said.out.lines().nth(1), Some(line));
}

#[test]
fn who_at_64_members_fits_a_terminal() {
    let folder = Folder::new();
    folder.write("terms.tsv", "M\t64\nL\t0\t1\nF\t0\tvar\t0\t0\nP\t0\t0\n");
    let said = run(&["who", folder.path(), "0"]);
    assert!(said.out.contains("64 of 4096"));
    assert!(said.out.lines().skip(1).all(|line| line.chars().count() <= 80));
    assert_eq!(said.out.lines().count(), 2 + 2 + 64);
}

#[test]
fn mistakes_on_the_command_line() {
    let folder = preset();
    let said = run(&["who", folder.path(), "lod"]);
    assert_eq!(said.status, 2);
    assert!(said.err.contains("did you mean `load`?"), "{}", said.err);
    assert_eq!(run(&["run"]).status, 2);
    assert_eq!(run(&["run", folder.path(), "--jsn"]).status, 2);
    assert_eq!(run(&["run", "no-such-folder"]).status, 3);
    folder.write("terms.tsv", "M\t3\n");
    let said = run(&["why", folder.path()]);
    assert_eq!(said.status, 3);
    assert!(said.err.contains("refused with 1 at line 2"), "{}", said.err);
}

/// What to do next is said where there is nothing to show.
#[test]
fn what_to_do_next() {
    let folder = Folder::new();
    folder.write("terms.say", "members dora\nevent share, load by anyone\n");
    let hint = format!("no requests yet; `cuckooormolu try {}` makes some\n", folder.path());
    for command in ["run", "why"] {
        let said = run(&[command, folder.path()]);
        assert_eq!((said.out.as_str(), said.err.as_str(), said.status), ("", hint.as_str(), 0));
    }
    assert_eq!(run(&["run", folder.path(), "-"]).err, "");
    let said = run(&["who", folder.path()]);
    assert_eq!(said.status, 2);
    assert!(said.err.contains("give DIR and EVENT; events: share, load\n"), "{}", said.err);
    let said = run(&["test", folder.path()]);
    let wanted = format!(
        "cuckooormolu test: {} has no tests.say yet; `cuckooormolu test --help` shows how to write one\n",
        folder.path()
    );
    assert_eq!((said.err, said.status), (wanted, 3));
}
