//! `play`: the page's server, asked as the page asks it and as others might.

mod clients;
mod page;
#[path = "../run_support/mod.rs"]
mod run_support;
mod saving;

use page::{folder, Page, NOTHING, SOURCE};
use run_support::run;

#[test]
fn the_page_is_whole_and_loads_nothing() {
    let folder = folder();
    let page = Page::of(&folder);
    let (host, token) = (&page.host, &page.token);
    let said = page.sent(format!("GET /{token}/ HTTP/1.1\r\nHost: {host}\r\n\r\n").as_bytes());
    let (head, body) = said.split_once("\r\n\r\n").unwrap();
    assert!(head.contains("Content-Security-Policy: default-src 'none'; script-src 'nonce-"));
    assert!(head.contains("Cache-Control: no-store"));
    for unwanted in
        ["http:", "https:", "src=", "@import", "url(h", "onload", "<link", "{{", "</script><b>"]
    {
        assert!(!body.contains(unwanted), "{unwanted}");
    }
    assert!(body.contains("\\u003c/script>\\u003cb>&"));
    assert!(body.ends_with("</html>\n"));
}

#[test]
fn a_change_and_three_requests() {
    let folder = folder();
    let page = Page::of(&folder);
    let requests = r#"[["load","pete","saw"],["share","dora","pete"],["load","pete","saw"],["load","quin","saw"]]"#;
    let answers = |told: &str| -> Vec<String> {
        let parts = told.split("\"answer\":\"").skip(1);
        parts.map(|part| part.split('"').next().unwrap().to_string()).collect()
    };
    let told = page.told(SOURCE, requests, 4, NOTHING);
    assert_eq!(answers(&told), ["deny", "grant", "grant", "refuse"]);
    assert!(told.contains("there is no member `quin`"), "{told}");
    assert!(told.contains("\"moment\":2,\"title\":\"Moment 2: load pete → saw\""), "{told}");
    let source = SOURCE.replace("members dora, pete, saw", "members quin, dora, pete, saw");
    let rest = r#""pair":["quin","saw"],"who":"load""#;
    let told = page.told(&source, requests, 2, rest);
    let steps = told.split_once("\"steps\":").unwrap().1;
    assert_eq!(answers(steps), ["deny", "grant", "grant", "deny"], "those taken back, too");
    assert!(told.contains("\"moment\":1,\"title\":\"Moment 1: share dora → pete\""), "{told}");
    let looks = told.split_once("\"looks\":").unwrap().1.split_once("\"table\":").unwrap().0;
    assert_eq!(answers(looks), ["grant", "grant", "deny"]);
    assert!(told.contains("1 pair may <b>load</b> at moment 1"), "{told}");
    assert!(told.contains("You may always share with the target."), "{told}");
}

/// The picture has the past that the last answer rests on, and the request if it was denied.
#[test]
fn the_picture_shows_why() {
    let folder = folder();
    let page = Page::of(&folder);
    let requests = r#"[["share","dora","pete"],["withdraw","dora","pete"],["load","pete","saw"]]"#;
    let counts = |at: usize| {
        let told = page.told(SOURCE, requests, at, NOTHING).replace("\\\"", "\"");
        ["<path class=\"asked-edge\"", "<path class=\"past-edge\"", ">share, 1</text>"]
            .map(|wanted| told.matches(wanted).count())
    };
    assert_eq!((counts(2), counts(3)), ([0, 0, 0], [1, 1, 1]));
}

/// The legend shows a relation as the picture does: with its dash, and with its end, which
/// the picture has.
#[test]
fn the_legend_is_that_of_the_picture() {
    let folder = folder();
    let page = Page::of(&folder);
    let source = SOURCE.replace("relation owns", "relation likes, owns");
    let told = page.told(&source, "[]", 0, NOTHING).replace("\\\"", "\"");
    let (_, picture) = told.split_once("\"picture\":").unwrap();
    let (picture, legend) = picture.split_once("\"legend\":").unwrap();
    let legend = legend.split_once("\"why\":").unwrap().0;
    let drawn = |text: &str| {
        let item = text.split("<path").skip(1).find(|path| path.contains("owns")).unwrap();
        let class = item.split("class=\"").nth(1).unwrap().split('"').next().unwrap();
        let end = item.split("url(#").nth(1).unwrap().split(')').next().unwrap();
        (class.to_string(), end.to_string())
    };
    assert_eq!(drawn(picture), drawn(legend));
    let (class, end) = drawn(legend);
    assert!(class.contains("dash1"), "{class}");
    assert!(picture.contains(&format!("<marker id=\"{end}\"")), "{picture}");
}

#[test]
fn mistakes_are_told_where_a_browser_finds_them() {
    let folder = folder();
    let page = Page::of(&folder);
    let told = page.told("# 😀\nmembers a\nevnt go by anyone\n", "[]", 0, NOTHING);
    assert!(
        told.starts_with("{\"mistakes\":[{\"start\":15,\"end\":19,\"line\":3,\"column\":1,"),
        "{told}"
    );
    assert!(told.contains("event"), "{told}");
    assert!(!told.contains("\"picture\""), "{told}");
}

/// What `check` warns of is told with its place.
#[test]
fn warnings_are_told() {
    let folder = folder();
    let page = Page::of(&folder);
    let source = format!("{SOURCE}event knock when once me denied load target\n");
    let told = page.told(&source, "[]", 0, NOTHING);
    let warnings = told.split_once("\"warnings\":[").unwrap().1.split("]").next().unwrap();
    let why = "denied requests of `load` are not kept, so this is never true";
    assert!(warnings.contains(why) && warnings.contains("\"line\":8,"), "{warnings}");
    assert!(told.contains("\"mistakes\":[],"), "{told}");
    folder.write("terms.say", &source);
    assert!(run(&["check", folder.path()]).out.contains(why));
}

/// Terms that would let the page stand still are told as a mistake, at the part that does it.
#[test]
fn what_takes_long_is_not_answered() {
    let folder = folder();
    let page = Page::of(&folder);
    let members: Vec<String> = (0..64).map(|n| format!("m{n}")).collect();
    let source = format!(
        "members {}\nrelation friend\nevent greet by anyone\nevent meet\n  when once (me friend some a: a friend \
         some b: b friend some c: c friend some d: d friend a and not d friend b and not d friend c)\n",
        members.join(", ")
    );
    let told = page.told(&source, r#"[["greet","m0","m1"]]"#, 1, NOTHING);
    assert!(told.starts_with("{\"mistakes\":[{\"start\":"), "{told}");
    assert!(told.contains("\"line\":5,"), "{told}");
    assert!(told.contains("; that is too long for this page\""), "{told}");
    assert!(!told.contains("\"picture\""), "{told}");
}

#[test]
fn what_cannot_be_played() {
    assert_eq!(run(&["play", "/no/such/folder"]).status, 3);
    assert_eq!(run(&["play"]).status, 2);
    assert_eq!(run(&["play", folder().path(), "--port", "x"]).status, 2);
}
