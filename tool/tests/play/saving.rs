//! What is saved, and what is not.

use crate::page::{folder, Page, NOTHING, SOURCE};
use crate::run_support::{example, run, Folder};
use std::fs;

#[test]
fn saved_unless_others_have_written() {
    let folder = folder();
    let page = Page::of(&folder);
    let text = |source: &str| source.replace('\n', "\\n");
    let kept = |source: &str, requests: &str| {
        format!("{{\"source\":\"{}\",\"requests\":{requests}}}", text(source))
    };
    let save = |now: &str, before: &str, anyway: bool| {
        page.post("save", &format!("{{\"now\":{now},\"before\":{before},\"anyway\":{anyway}}}"))
    };
    let changed = SOURCE.replace("saw", "pad");
    let requests = r#"[["share","dora","pete"]]"#;
    let said = save(&kept(&changed, requests), &kept(SOURCE, "[]"), false);
    assert!(said.contains("\"done\":true") && said.contains("with 1 request."), "{said}");
    assert_eq!(folder.read("terms.say"), changed);
    assert_eq!(folder.read("requests.say"), "share dora pete\n");
    let said = save(&kept(SOURCE, "[]"), &kept(SOURCE, "[]"), false);
    assert!(said.starts_with("{\"done\":false,\"changed\":true,"), "{said}");
    assert_eq!(folder.read("terms.say"), changed);
    let said = save(&kept(SOURCE, "[]"), &kept(SOURCE, "[]"), true);
    assert!(said.contains("\"done\":true"), "{said}");
    assert_eq!(
        (folder.read("terms.say").as_str(), folder.read("requests.say").as_str()),
        (SOURCE, "")
    );
    fs::remove_file(folder.file("requests.say")).unwrap();
    // Lines that name nothing can't be shown, and are not written over.
    folder.write("requests.tsv", "R\t9\t0\t0\nR\t0\t0\t1\n");
    let said = save(&kept(&changed, requests), &kept(SOURCE, requests), false);
    assert!(said.contains("requests.tsv is left as it was: it has more"), "{said}");
    assert_eq!(folder.read("requests.tsv"), "R\t9\t0\t0\nR\t0\t0\t1\n");
    // Requests with numbers are saved by name, and comments are not lost.
    folder.write("requests.tsv", "R\t0\t0\t1\n");
    let said = save(&kept(&changed, requests), &kept(&changed, requests), false);
    assert!(said.contains("with 1 request, which is read instead of requests.tsv"), "{said}");
    let said = save(&kept(&changed, "[]"), &kept(&changed, requests), false);
    assert!(said.contains("requests.say with no requests."), "{said}");
    let said = save(&kept(&changed, requests), &kept(&changed, "[]"), false);
    assert!(said.contains("requests.say with 1 request."), "{said}");
    assert_eq!(folder.read("requests.say"), "share dora pete\n");
    folder.write("requests.say", "share dora pete # a gift\n");
    let said = save(&kept(&changed, "[]"), &kept(&changed, requests), false);
    assert!(said.contains("requests.say is left as it was"), "{said}");
    // A source with mistakes is kept as it is, and so are the requests.
    folder.write("requests.say", "share dora pete\n");
    let said = save(&kept("members", requests), &kept(&changed, requests), false);
    assert!(said.contains("\"kept\":{\"source\":\"members\",\"requests\":[[\"share\","), "{said}");
    assert_eq!(folder.read("terms.say"), "members");
    assert_eq!(folder.read("requests.say"), "share dora pete\n");
    let said = save(&kept(&changed, "[]"), &kept("members", requests), false);
    assert!(said.contains("requests.say with no requests."), "{said}");
}

/// Terms and requests are saved together, or neither is.
#[test]
fn saved_together_or_not_at_all() {
    let folder = folder();
    folder.write("requests.tsv", "R\t0\t0\t1\nR\t2\t1\t2\nR\t0\t0\t2\n");
    let page = Page::of(&folder);
    let all = r#"[["share","dora","pete"],["load","pete","saw"],["share","dora","saw"]]"#;
    let save = |source: &str, requests: &str, before: &str, had: &str| {
        let text = |source: &str| source.replace('\n', "\\n");
        let (now, before) = (text(source), text(before));
        page.post(
            "save",
            &format!(
                r#"{{"now":{{"source":"{now}","requests":{requests}}},
                    "before":{{"source":"{before}","requests":{had}}},"anyway":false}}"#
            ),
        )
    };
    let files = || ["terms.say", "requests.tsv"].map(|name| folder.read(name));
    let before = files();
    let without = SOURCE.replace("dora, pete, saw", "dora, saw");
    let said = save(&without, all, SOURCE, all);
    let why = "Not saved: 2 requests speak of `pete`, who is no longer a member. \
               Take them back with Undo, or put `pete` back.";
    assert!(said.contains("\"done\":false,\"changed\":false") && said.contains(why), "{said}");
    let said = save(&SOURCE.replace("event load", "event open"), all, SOURCE, all);
    let why = "Not saved: 1 request speaks of `load`, which is no longer an event. \
               Take it back with Undo, or put `load` back.";
    assert!(said.contains(why), "{said}");
    assert_eq!(files(), before);
    assert!(!folder.file("requests.say").exists());
    // With other numbers the requests stay what they are.
    let other = SOURCE.replace("dora, pete, saw", "quin, saw, pete, dora");
    let said = save(&other, all, SOURCE, all);
    assert!(said.contains("\"done\":true"), "{said}");
    assert_eq!(folder.read("requests.say"), "share dora pete\nload pete saw\nshare dora saw\n");
    let said = run(&["run", folder.path()]).out;
    assert!(
        said.starts_with("1  share dora → pete  granted\n2  load pete → saw    granted\n"),
        "{said}"
    );
    // A file that has more than requests is not left without its names.
    folder.write("requests.say", "# mine\nload pete saw\n");
    let without = other.replace("pete, ", "");
    let said = save(&without, "[]", &other, r#"[["load","pete","saw"]]"#);
    let why = "Take it out of requests.say, or put `pete` back.";
    assert!(said.contains("\"done\":false") && said.contains(why), "{said}");
    assert_eq!(folder.read("terms.say"), other);
    // Numbers that stay are not given other people.
    fs::remove_file(folder.file("requests.say")).unwrap();
    folder.write("requests.tsv", "R\t2\t2\t1\nno request\n");
    let said = save(SOURCE, "[]", &other, r#"[["load","pete","saw"]]"#);
    assert!(said.contains("the numbers in requests.tsv would mean others"), "{said}");
    assert_eq!(folder.read("terms.say"), other);
}

/// Requests go on from where the terms were stored. They are saved, and no source is.
#[test]
fn stored_terms_go_on() {
    let folder = Folder::new();
    for name in ["terms.tsv", "names.tsv"] {
        fs::copy(example("saved/later").join(name), folder.file(name)).unwrap();
    }
    let terms = folder.read("terms.tsv");
    let page = Page::of(&folder);
    let (host, token) = (&page.host, &page.token);
    let said = page.sent(format!("GET /{token}/ HTTP/1.1\r\nHost: {host}\r\n\r\n").as_bytes());
    assert!(said.contains("\"stored\":true"), "{said}");
    // What the page sends for a source is not looked at.
    let requests = r#"[["load","pete","pad"]]"#;
    let said = page.told("nonsense", requests, 1, NOTHING);
    assert!(said.contains("\"answer\":\"grant\",\"made\":true,\"moment\":1"), "{said}");
    assert!(said.contains("as far as the stored file remembers"), "{said}");
    let said = page.told("", "[]", 0, NOTHING);
    assert!(
        said.contains("\"begun\":\"as stored\"")
            && said.contains("\"title\":\"Moment 0: as stored")
    );
    let source = run(&["source", folder.path()]).out;
    let source = source.split_once("\n\n").unwrap().1.replace('\n', "\\n");
    let body = format!(
        r#"{{"now":{{"source":"{source}","requests":{requests}}},"before":{{"source":"{source}","requests":[]}},"anyway":false}}"#
    );
    let said = page.post("save", &body);
    assert!(said.contains("\"said\":\"requests.say is saved with 1 request.\""), "{said}");
    assert_eq!(folder.read("requests.say"), "load pete pad\n");
    assert_eq!(folder.read("terms.tsv"), terms);
    assert!(!folder.file("terms.say").exists());
}
