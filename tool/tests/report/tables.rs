//! Who may do what at the end.

use crate::run_support::{preset, Folder};
use crate::{page, tags};

#[test]
fn who_may_is_a_table() {
    let folder = preset();
    folder.write("names.tsv", "member\t1\ta very long name indeed\nevent\t0\tshare\n");
    let page = page(&folder);
    assert_eq!(page.matches("<table class=\"may\"").count(), 3);
    for wanted in [
        "<caption>9 pairs may <b>share</b> at moment 3.<br/>Row: who asks. Column: the target.</caption>",
        "<caption>Nobody may <b>event 2</b> at moment 3.<br/>",
        "<th scope=\"col\" title=\"a very long name indeed\" data-member=\"1\"><div><span>a very long n…</span>",
        "<tr><th scope=\"row\" data-member=\"0\">0</th><td class=\"y\">✓</td>",
        "<span>anyone, with anyone</span>",
    ] {
        assert!(page.contains(wanted), "{wanted}");
    }
}

/// Of many members those that may, and those with whom, have a row or a column; a few pairs
/// are told in words, too. A table that tells something is open.
#[test]
fn a_large_table_has_no_empty_rows() {
    let folder = Folder::new();
    let members: Vec<String> = (0..40).map(|n| format!("m{n}")).collect();
    folder.write(
        "terms.say",
        &format!(
            "members {}\nrelation owns\nevent wave by anyone\nevent sell when not me owns target and me owns target\n\
             event load when me owns target\nfirst m3 owns m30, m3 owns m31, m7 owns m31\n",
            members.join(", ")
        )    );
    let page = page(&folder);
    tags(&page);
    let (_, section) = page.split_once("Who may do what at the end").unwrap();
    let first = section.split("</details>").next().unwrap();
    assert!(first.contains("<details class=\"who\" open><summary><b>load</b>"), "{first}");
    assert!(first.contains("<li><b>m3</b>: m30, m31</li>\n<li><b>m7</b>: m31</li>"), "{first}");
    assert!(first.contains("Rows and columns without any are left out."), "{first}");
    assert_eq!(
        (first.matches("scope=\"row\"").count(), first.matches("scope=\"col\"").count()),
        (2, 2)
    );
    assert!(section.contains("<p class=\"quiet\">Nobody may <b>sell</b> at moment 0.</p>"));
}
