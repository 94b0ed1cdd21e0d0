//! Requests by name: in requests.say, on standard input, and at a terminal; and
//! `check` that goes on watching.

mod run_support;

use run_support::{preset, run, run_with, Folder};
use std::io::{BufRead, BufReader, Write};
use std::process::{Command, Stdio};
use std::time::Duration;

const SOURCE: &str = "members dora, pete, saw\nrelation owns\nevent share by anyone\n\
                      event load when some owner owns target: once owner share me\n\
                      first dora owns saw\n";

fn folder() -> Folder {
    let folder = Folder::new();
    folder.write("terms.say", SOURCE);
    folder
}

#[test]
fn requests_say_is_what_is_asked() {
    let folder = folder();
    folder.write("requests.tsv", "R\t0\t0\t0\n");
    folder.write("requests.say", "load pete saw   # too soon\n\nshare dora pete\nload pete saw\n");
    let said = run(&["run", folder.path()]);
    let wanted = "1  load pete → saw    denied\n2  share dora → pete  granted\n3  load pete → saw    granted\n";
    assert_eq!((said.status, said.out.as_str()), (0, wanted));
    assert!(run(&["why", folder.path(), "3"]).out.contains("dora shared with pete at moment 1"));
    let said = run_with(&["try", folder.path()], "load dora saw\nsave\n").out;
    assert!(said.contains("wrote 4 requests to"), "{said}");
    let kept = "load pete saw\nshare dora pete\nload pete saw\nload dora saw\n";
    assert_eq!(folder.read("requests.say"), kept);
}

#[test]
fn mistakes_are_told_by_line() {
    let folder = folder();
    folder.write("requests.say", "load pete saw\nlaod pete saw\nload pette saw\nload saw\n");
    let said = run(&["run", folder.path()]);
    assert_eq!((said.status, said.out.as_str()), (3, ""));
    for part in [
        "requests.say:2: no event `laod`; did you mean `load`?",
        "requests.say:3: no member `pette`; did you mean `pete`?",
        "requests.say:4: a request is an event, who asks and who is asked",
    ] {
        assert!(said.err.contains(part), "{}", said.err);
    }
    // For programs, one object for each line.
    let said = run(&["run", folder.path(), "--json"]);
    assert_eq!((said.status, said.err.as_str()), (3, ""));
    assert!(said.out.lines().count() > 1, "{}", said.out);
    for line in said.out.lines() {
        let whole = line.starts_with("{\"error\":") && line.contains("requests.say\",\"line\":");
        assert!(whole && !line.contains("\\n"), "{line}");
    }
    // Only what uses the file stops there.
    let said = run_with(&["run", folder.path(), "-"], "share dora pete\n");
    assert_eq!((said.status, said.out.as_str()), (0, "1  share dora → pete  granted\n"));
    assert_eq!(run(&["aloud", folder.path()]).status, 0);
    let said = run(&["check", folder.path()]);
    assert_eq!((said.status, said.out.as_str()), (3, ""));
    assert!(said.err.contains("requests.say:2: no event `laod`"), "{}", said.err);
}

/// What English has in the place of a request is met with the request.
#[test]
fn requests_in_english() {
    let folder = Folder::new();
    folder.write(
        "terms.say",
        "members Dora, Kim, Glass-Pad\nrelation owns\nevent share by anyone\n\
         event load when me owns target\nfirst Dora owns Glass-Pad\n",
    );
    folder.write(
        "requests.say",
        "Dora shares with Kim\nload Dora Glass Pad\nevent load by anyone\nKim may load Glass-Pad\n\
         Kim sings loud and long\n",
    );
    let said = run(&["run", folder.path()]).err;
    for part in [
        "requests.say:1: did you mean `Dora share Kim`?",
        "requests.say:2: did you mean `load Dora Glass-Pad`?",
        "requests.say:3: this belongs in terms.say",
        "requests.say:4: did you mean `Kim load Glass-Pad`? Who may do what goes into tests.say",
        "requests.say:5: a request is an event, who asks and who is asked",
    ] {
        assert!(said.contains(part), "{said}");
    }
}

/// A file with nearly the right name, or of another form, is named with what to do.
#[test]
fn files_that_are_not_read() {
    let folder = folder();
    folder.write("Requests.txt", "load pete saw\n");
    folder.write("test.say", "test a\n");
    let said = run(&["check", folder.path()]).out;
    assert!(said.contains("Requests.txt is not read"), "{said}");
    assert!(said.contains("rename it to requests.say"), "{said}");
    assert!(
        said.contains("test.say is not read") && said.contains("rename it to tests.say"),
        "{said}"
    );
    let other = Folder::new();
    other.write("terms.txt", "members a, b\nevent ask by anyone\n");
    let file = other.file("terms.txt").display().to_string();
    let said = run(&["check", &file]);
    assert!(
        said.status == 3 && said.err.contains("rename it to terms.say"),
        "{}{}",
        said.out,
        said.err
    );
    other.write("terms.say", "{\\rtf1 members a, b}\n");
    let said = run(&["check", other.path()]).err;
    assert!(said.contains("is rich text; save it as plain text"), "{said}");
}

#[test]
fn no_request_is_told_where_all_are_to_be_granted() {
    let folder = folder();
    for (arguments, input) in [
        (&["-"][..], ""),
        (&["-"][..], "# nothing\n\n  # at all\n"),
        (&["--requests", "-"][..], ""),
    ] {
        let given = [&["run", folder.path(), "--strict"][..], arguments].concat();
        let said = run_with(&given, input);
        assert_eq!((said.status, said.out.as_str()), (3, ""), "{arguments:?}");
        assert_eq!(said.err, "cuckooormolu run: there are no requests on standard input\n");
        let said = run_with(&[&given[..], &["--json"]].concat(), input);
        assert_eq!((said.status, said.err.as_str()), (3, ""), "{arguments:?}");
        assert_eq!(said.out, "{\"error\":\"there are no requests on standard input\"}\n");
        // Otherwise there is nothing to tell.
        let said = run_with(&[&["run", folder.path()][..], arguments].concat(), input);
        assert_eq!((said.status, said.out.as_str(), said.err.as_str()), (0, "", ""));
    }
    folder.write("empty.say", "# nothing\n");
    let file = folder.file("empty.say").display().to_string();
    let said = run(&["run", folder.path(), "--strict", "--requests", &file]);
    assert_eq!(said.status, 3);
    assert_eq!(said.err, format!("cuckooormolu run: there are no requests in {file}\n"));
    let said = run(&["run", folder.path(), "--strict"]);
    let wanted = format!("there are no requests in {}; `-` reads them", folder.path());
    assert!(said.status == 3 && said.err.contains(&wanted), "{}", said.err);
    for (file, wanted) in [
        ("/dev/null", "there are no requests in /dev/null: it is not a regular file\n"),
        (folder.path(), ": it is not a regular file\n"),
        ("none.say", "there is no file none.say\n"),
    ] {
        let said = run(&["run", folder.path(), "--requests", file]);
        assert!(said.status == 3 && said.err.ends_with(wanted), "{}", said.err);
    }
}

#[test]
fn requests_come_from_standard_input() {
    let folder = folder();
    let said = run_with(&["run", folder.path(), "-"], "share dora pete\nR\t1\t1\t2\n");
    assert_eq!(said.out, "1  share dora → pete  granted\n2  load pete → saw    granted\n");
    let said = run_with(&["run", folder.path(), "-", "--strict"], "load pete saw\n");
    assert_eq!(said.status, 1);
    let said = run_with(&["run", folder.path(), "-"], "fly pete saw\n");
    assert_eq!(said.status, 3);
    assert!(said.err.contains("standard input:1: no event `fly`"), "{}", said.err);
    // A folder without a source has names in names.tsv.
    let said = run_with(&["run", preset().path(), "-"], "load pete saw\n").out;
    assert_eq!(said, "1  load pete → saw  denied\n");
    let mut child = Command::new(env!("CARGO_BIN_EXE_cuckooormolu"))
        .args(["run", "-"])
        .current_dir(folder.path())
        .stdin(Stdio::piped())
        .stdout(Stdio::piped())
        .spawn()
        .unwrap();
    child.stdin.take().unwrap().write_all(b"load pete saw\n").unwrap();
    let out = child.wait_with_output().unwrap().stdout;
    assert_eq!(out, "1  load pete → saw  denied\n".as_bytes());
}

#[test]
fn check_goes_on_watching() {
    let folder = folder();
    let mut child = Command::new(env!("CARGO_BIN_EXE_cuckooormolu"))
        .args(["check", folder.path(), "--watch"])
        .stdout(Stdio::piped())
        .spawn()
        .unwrap();
    let mut lines = BufReader::new(child.stdout.take().unwrap()).lines();
    let mut until = |end: &str| {
        let mut said = String::new();
        for line in lines.by_ref() {
            let line = line.unwrap();
            said.push_str(&format!("{line}\n"));
            if line.starts_with(end) {
                break;
            }
        }
        said
    };
    // A file may be seen while it is being written, and once more when it is whole.
    let mut told = |part: &str| (0..2).any(|_| until("--").contains(part));
    assert!(told("accepted: 3 members"));
    std::thread::sleep(Duration::from_millis(50));
    folder.write("terms.say", &SOURCE.replace("some owner", "some owner of"));
    assert!(told("terms.say:4:"));
    folder.write("terms.say", SOURCE);
    assert!(told("accepted: 3 members"));
    child.kill().unwrap();
    child.wait().unwrap();
}

/// Lines are edited, completed and brought back at a terminal, which `script` makes.
#[test]
fn a_line_is_edited_at_a_terminal() {
    let folder = folder();
    let program = env!("CARGO_BIN_EXE_cuckooormolu");
    let typed = format!("stty cols 200; {program} try {}", folder.path());
    let child = Command::new("script")
        .args(["-qec", &typed, "/dev/null"])
        .stdin(Stdio::piped())
        .stdout(Stdio::piped())
        .spawn();
    let Ok(mut child) = child else {
        println!("skipped: there is no `script` here to make a terminal");
        return;
    };
    let mut keys = child.stdin.take().unwrap();
    // Tab completes; Up brings the line back; the left arrow and a backspace mend it.
    for part in ["lo", "a\tpe\tsaw\r", "\x1b[A\r", "share doraa\x1b[D\x7f\x05 pe\t\r", "quit\r"] {
        std::thread::sleep(Duration::from_millis(300));
        keys.write_all(part.as_bytes()).unwrap();
        keys.flush().unwrap();
    }
    drop(keys);
    let out = String::from_utf8_lossy(&child.wait_with_output().unwrap().stdout).into_owned();
    assert_eq!(out.matches("denied\r\n").count(), 2, "{out:?}");
    assert!(out.contains("granted; moment 1\r\n"), "{out:?}");
}
