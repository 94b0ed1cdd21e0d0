//! `report`: what is on the page, and what must not be.

mod pictures;
#[path = "../run_support/mod.rs"]
mod run_support;
mod tables;

use run_support::{example, preset, run, Folder};

/// Tags that have no end.
const EMPTY: [&str; 2] = ["meta", "!DOCTYPE"];

/// Panics unless every tag is closed in its order; gives how often each begins.
fn tags(page: &str) -> Vec<(String, usize)> {
    let mut open: Vec<String> = Vec::new();
    let mut counts: Vec<(String, usize)> = Vec::new();
    for piece in page.split('<').skip(1) {
        let tag = piece.split('>').next().unwrap();
        let name = tag.split([' ', '/', '\n']).find(|part| !part.is_empty()).unwrap().to_string();
        if tag.starts_with('/') {
            assert_eq!(open.pop().as_deref(), Some(name.as_str()), "in {tag}");
            continue;
        }
        match counts.iter_mut().find(|(known, _)| *known == name) {
            Some((_, count)) => *count += 1,
            None => counts.push((name.clone(), 1)),
        }
        if !tag.ends_with('/') && !EMPTY.contains(&name.as_str()) {
            open.push(name);
        }
    }
    assert!(open.is_empty(), "{open:?}");
    counts
}

fn page(folder: &Folder) -> String {
    let said = run(&["report", folder.path(), "-o", folder.file("page.html").to_str().unwrap()]);
    assert_eq!((said.status, said.err.as_str()), (0, ""));
    folder.read("page.html").replace('\u{a0}', " ")
}

#[test]
fn everything_is_on_the_page() {
    let folder = preset();
    let page = page(&folder);
    let count =
        |tag: &str| tags(&page).iter().find(|(name, _)| name == tag).map_or(0, |found| found.1);
    assert_eq!(count("figure"), 4);
    assert_eq!(
        page.matches("class=\"event-edge\" d").count(),
        3 + 1,
        "three moments and the legend"
    );
    for wanted in [
        "<html lang=\"en\">",
        "6 requests: 3 granted, 2 denied, 1 refused.",
        "You may always share with the target.",
        "id=\"request-6\" class=\"refused\"",
        "dora owns saw, and dora shared with pete at moment 1, but dora withdrew from pete at moment 3",
        "<title id=\"title3\">Moment 3: withdraw dora → pete</title>",
        "<desc id=\"desc0\">Relation edges: own dora → saw.</desc>",
        "<span class=\"chip granted\" aria-hidden=\"true\">✓</span> a granted request</li>",
        "<p class=\"then\">Then asked:</p>",
        "<a class=\"next\" href=\"#moment-1\">→ moment 1</a></p>",
        "<p class=\"quiet\">A request works out at most ",
        "prefers-color-scheme:dark",
        "@media print",
        // What is folded on a screen is open on paper.
        "details::details-content{display:block;height:auto;content-visibility:visible}",
    ] {
        assert!(page.contains(wanted), "{wanted}");
    }
}

/// The filter says whom it is about, and a moment tells who asked there with what answer, so
/// that it is left out together with the link to it.
#[test]
fn a_filter_hides_moments_and_their_links() {
    let folder = preset();
    folder.write("requests.tsv", "R\t2\t1\t2\nR\t0\t0\t1\n");
    let page = page(&folder);
    assert!(page.contains("<label>Requests involving <select id=\"by-member\""), "{page}");
    assert!(page.contains("<option value=\"all\">any answer</option>"), "{page}");
    let marks = "data-asked=\"0 0-granted 1 1-denied 1-granted 2 2-denied denied granted\"";
    for (moment, marks) in [(0, marks), (1, "data-asked=\"\"")] {
        let link =
            format!("<li class=\"to-moment\" {marks}><a class=\"at\" href=\"#moment-{moment}\"");
        assert!(page.contains(&link), "{link}");
        assert!(page.contains(&format!("<li class=\"moment\" id=\"moment-{moment}\" {marks}>")));
    }
    let chosen = "main:has(#by-member option[value=\"2\"]:checked)";
    let left = ":not(:is([data-asked~=\"2\"])){display:none}";
    assert!(page.contains(&format!("{chosen} :is(.moment,.strip>.to-moment){left}")), "{page}");
}

/// Where a choice leaves no request, that is said.
#[test]
fn a_filter_that_leaves_nothing() {
    let folder = preset();
    folder.write("requests.tsv", "R\t2\t1\t2\nR\t0\t0\t1\n");
    let page = page(&folder);
    assert!(page.contains("<p class=\"none\" role=\"status\">No request is like that."));
    let said = |member: &str, answer: &str| {
        let chosen = |select: &str, value: &str| match value {
            "" => String::new(),
            value => format!(":has(#{select} option[value=\"{value}\"]:checked)"),
        };
        page.contains(&format!(
            "main{}{} .none",
            chosen("by-member", member),
            chosen("by-answer", answer)
        ))
    };
    // The request of 1 to 2 was denied, that of 0 to 1 granted.
    for (member, answer, wanted) in [
        ("", "refused", true),
        ("", "granted", false),
        ("", "denied", false),
        ("0", "denied", true),
        ("0", "granted", false),
        ("1", "denied", false),
        ("2", "granted", true),
        ("2", "", false),
    ] {
        assert_eq!(said(member, answer), wanted, "{member} {answer}");
    }
}

#[test]
fn nothing_is_loaded_and_no_script_is_run() {
    let folder = preset();
    let page = page(&folder);
    for unwanted in ["<script", "http:", "https:", "src=", "@import", "url(h", "onload", "<link"] {
        assert!(!page.contains(unwanted), "{unwanted}");
    }
}

#[test]
fn names_are_made_safe() {
    let folder = preset();
    let names = "member\t0\t<b>&\"x\nrelation\t0\t<i>owns\nevent\t2\tload</title><script>alert(1)</script>\n";
    folder.write("names.tsv", names);
    let terms = folder.read("terms.tsv").replace("P\t2\t8\n", "P\t2\t8\nE\t0\tadd\t0\tfwd\n");
    folder.write("terms.tsv", &terms);
    let page = page(&folder);
    assert!(!page.contains("<script") && !page.contains("<b>&\"") && !page.contains("<i>owns"));
    assert!(page.contains("&lt;b&gt;&amp;&quot;x"));
    assert!(page.contains("<caption><b>&lt;i&gt;owns</b> at moment 0</caption>"));
    assert!(page.contains("<li>+ &lt;b&gt;&amp;&quot;x &lt;i&gt;owns "), "{page}");
    tags(&page);
}

#[test]
fn the_examples_have_pages() {
    let names = ["blacklist", "blacklist-table", "coauthors", "friends", "groups", "invitations"];
    for name in names {
        let said = run(&["report", example(name).to_str().unwrap(), "-o", "-", "--title", "A & B"]);
        assert_eq!(said.status, 0, "{name}");
        assert!(said.out.contains("<h1>A &amp; B</h1>"));
        tags(&said.out);
    }
}

#[test]
fn long_stories_stay_light() {
    let folder = Folder::new();
    let mut terms = String::from("M\t64\nL\t1\t2\nF\t0\ttop\t0\t0\nP\t0\t0\nP\t1\t0\n");
    terms.push_str("E\t0\tadd\t0\tfwd\nE\t1\tdel\t0\tfwd\n");
    for from in 0..64 {
        (0..32).for_each(|to| terms.push_str(&format!("G\t0\t{from}\t{to}\n")));
    }
    folder.write("terms.tsv", &terms);
    let requests = (0..1_000).map(|n| format!("R\t{}\t{}\t{}\n", n % 2, n % 64, n / 64));
    folder.write("requests.tsv", &requests.collect::<String>());
    let page = page(&folder);
    assert!(page.len() < 8_000_000, "{}", page.len());
    assert!(page.contains("of 1001 moments are drawn: the first, the last, and those"));
    // What changed is told of every moment that is not drawn, too.
    let (_, later) = page.split_once("id=\"moment-500\"").unwrap();
    assert!(later.contains("<li>− relation 0: 51 → 7</li>"), "{later}");
    tags(&page);
}

/// A page without requests says what to do.
#[test]
fn no_requests_yet() {
    let folder = preset();
    folder.write("requests.tsv", "");
    assert!(page(&folder).contains("No requests yet. Add requests.say, or use"));
}

#[test]
fn an_attribute_is_a_sentence() {
    let folder = Folder::new();
    let terms = "members dora, tom\nrelations owns, suspended\n\
                 event suspend by anyone then add me suspended target\nfirst dora owns tom, tom is suspended\n";
    folder.write("terms.say", terms);
    folder.write("requests.say", "dora suspend dora\n");
    let page = page(&folder);
    for wanted in [
        "<caption><b>suspended</b> at moment 0</caption>\n<tbody>\n<tr><td>tom is suspended</td></tr>\n</tbody>",
        "<th scope=\"row\">dora</th><td>tom</td>",
        "Relation edges: owns dora → tom, tom is suspended.",
        "<li>+ dora is suspended</li>",
    ] {
        assert!(page.contains(wanted), "{wanted}\n{page}");
    }
}

#[test]
fn a_long_story_is_folded_and_can_be_filtered() {
    let folder = preset();
    let short = page(&folder);
    assert!(short.contains("<a class=\"skip\" href=\"#story\">Skip to what happened</a>"));
    assert!(!short.contains("class=\"folded\""));
    assert!(short.contains("<option value=\"1\">pete</option>"));
    assert!(short.contains("class=\"refused\" data-who=\"0 0\" data-answer=\"refused\""));
    assert!(short.contains("option[value=\"denied\"]:checked) :is(.asked>li,.strip>.step)"));
    folder.write("requests.tsv", &"R\t0\t0\t1\n".repeat(100));
    let long = page(&folder);
    assert!(long.contains("<details class=\"folded\"><summary>Moments 15–85</summary>"));
    assert_eq!(long.matches("<li class=\"step\"").count(), 100);
    // Where relations stay as they are, only the ends are drawn.
    assert_eq!(long.matches("<svg class=\"graph\"").count(), 24);
    assert!(long.contains("<p class=\"quiet\">24 of 101 moments are drawn: "), "{long}");
    assert!(long.contains("<li class=\"moment brief\" id=\"moment-50\""), "{long}");
    assert!(!long.contains("<option value=\"2\">saw</option>"), "saw takes no part");
}

#[test]
fn mistakes() {
    let folder = preset();
    assert_eq!(run(&["report", folder.path()]).status, 2);
    assert_eq!(run(&["report", "-o", "x.html"]).status, 2);
    let said = run(&["report", folder.path(), "-o", "/proc/none/page.html"]);
    assert_eq!(said.status, 3);
    assert!(said.err.contains("cannot make /proc/none: "), "{}", said.err);
    // A folder is made, as for terms that are stored.
    for (command, name) in [("report", "there/page.html"), ("source", "new/terms.say")] {
        let file = folder.file(name);
        assert_eq!(run(&[command, folder.path(), "-o", file.to_str().unwrap()]).status, 0);
        assert!(file.is_file());
    }
}
