//! What is drawn, the legend, and the relation edges in words.

use crate::run_support::{preset, Folder};
use crate::{page, tags};

/// The value of an attribute, the first of its name.
fn value<'a>(text: &'a str, name: &str) -> &'a str {
    let (_, rest) =
        text.split_once(&format!(" {name}=\"")).unwrap_or_else(|| panic!("{name} in {text}"));
    rest.split('"').next().unwrap()
}

/// Classes but those of colours: `c3`, `a3`.
fn colourless(classes: &str) -> String {
    let is_colour = |class: &&str| {
        class.strip_prefix(['a', 'c']).is_some_and(|number| number.parse::<usize>().is_ok())
    };
    classes.split(' ').filter(|class| !is_colour(class)).collect::<Vec<_>>().join(" ")
}

/// A page in grey, or for a reader who sees no colours: no two of the most relations that
/// there may be look alike, and the legend shows what the pictures have.
#[test]
fn relations_are_told_apart_without_colours() {
    for members in [4, 64] {
        let folder = Folder::new();
        let mut terms = format!("M\t{members}\nL\t16\t1\nF\t0\ttop\t0\t0\nP\t0\t0\n");
        (0..16).for_each(|one| terms.push_str(&format!("G\t{one}\t{}\t{}\n", one % 4, one / 4)));
        folder.write("terms.tsv", &terms);
        folder.write("requests.tsv", "");
        let page = page(&folder);
        tags(&page);
        // What is seen of a line is its dash and its head, of a mark its shape.
        let look = |path: &str| match path.split_once("marker-end=\"url(#") {
            Some((_, rest)) => {
                let name = rest.split(')').next().unwrap();
                let (_, head) = page.split_once(&format!("<marker id=\"{name}\"")).unwrap();
                let (_, head) = head.split_once('>').unwrap();
                let head = (colourless(value(head, "class")), value(head, "d").to_string());
                (colourless(value(path, "class")), head)
            }
            None => {
                (colourless(value(path, "class")), (String::new(), value(path, "d").to_string()))
            }
        };
        let legend =
            page.split_once("<ul class=\"legend\"").unwrap().1.split_once("</ul>").unwrap().0;
        let of_relations = legend.lines().filter(|line| line.contains("relation ")).count();
        let shown: Vec<_> =
            legend.split("<path").skip(1).take(16).map(|path| look(&format!(" {path}"))).collect();
        assert_eq!((of_relations, shown.len()), (16, 16), "{legend}");
        for relation in 0..16 {
            assert!(
                !shown[..relation].contains(&shown[relation]),
                "{members}: {relation} {shown:?}"
            );
            let title =
                format!("<title>relation {relation}: {} → {}</title>", relation % 4, relation / 4);
            let drawn = page.split("<path").find(|path| path.contains(&title)).unwrap();
            assert_eq!(look(drawn), shown[relation], "{members}: {relation}");
        }
    }
}

/// All edges are told once, by relation; later moments tell what changed.
#[test]
fn edges_are_told_once_and_then_what_changes() {
    let folder = Folder::new();
    folder.write(
        "terms.say",
        "members ben, cleo, dora\nrelation friend, owns\nevent befriend by anyone then add me friend target\n\
         event part by anyone then remove me friend target\nevent wave by anyone\n\
         first ben friend cleo and dora, dora owns cleo\n",
    );
    folder.write("requests.say", "befriend cleo ben\nwave ben cleo\npart ben cleo\n");
    let page = page(&folder);
    let told = |moment: usize| {
        let figure = page.split("<figcaption>\n").nth(moment + 1).unwrap();
        figure.split("</figcaption>").next().unwrap()
    };
    assert_eq!(page.matches("<caption><b>friend</b>").count(), 1);
    for wanted in [
        "<summary>3 relation edges</summary>",
        "<caption><b>friend</b> at moment 0</caption>",
        "<caption><b>owns</b> at moment 0</caption>",
        "<tr><th scope=\"row\">ben</th><td>cleo, dora</td></tr>",
        "<tr><th scope=\"row\">dora</th><td>cleo</td></tr>",
    ] {
        assert!(told(0).contains(wanted), "{wanted} in {}", told(0));
    }
    assert_eq!(told(1), "<ul class=\"changes\">\n<li>+ cleo friend ben</li>\n</ul>\n");
    assert_eq!(told(2), "<p>relation edges unchanged</p>\n");
    assert_eq!(told(3), "<ul class=\"changes\">\n<li>− ben friend cleo</li>\n</ul>\n");
    assert!(page.contains("thicker: added at the moment</li>"), "{page}");
    assert_eq!(page.matches(" added\" d=").count(), 1, "cleo friend ben");
}

/// Where edges go both ways, the lines are counted; a description tells what was added.
#[test]
fn edges_that_go_both_ways() {
    let folder = Folder::new();
    folder.write(
        "terms.say",
        "members ben, cleo, dora\nrelation friend\nevent befriend by anyone then add me friend target\n\
         first ben friend cleo, cleo friend ben\n",
    );
    folder.write("requests.say", "befriend cleo dora\n");
    let page = page(&folder);
    assert!(page.contains("<summary>2 relation edges: 1 line, both ways</summary>"), "{page}");
    assert!(picture(&page, 1).contains(" Added: friend cleo → dora.</desc>"), "{page}");
}

/// Lines between many members would hide one another.
#[test]
fn many_members_are_a_matrix() {
    let folder = Folder::new();
    let terms = "M\t64\nL\t2\t1\nF\t0\ttop\t0\t0\nP\t0\t0\nE\t0\tadd\t1\tfwd\nG\t0\t3\t5\n";
    folder.write("terms.tsv", terms);
    folder.write("requests.tsv", "R\t0\t3\t5\nR\t0\t63\t0\n");
    let page = page(&folder);
    tags(&page);
    // Alone in its cell a mark has the middle of it; two share it.
    let mark = |relation: usize, moment: usize| {
        let (_, edges) = page.split_once(&format!("<g id=\"edges{moment}\">")).unwrap();
        let title = format!("<title>relation {relation}: 3 → 5</title>");
        let path = edges.split("<path").find(|path| path.contains(&title)).unwrap();
        let numbers = value(path, "transform").split(['(', ' ', ')']);
        numbers.filter_map(|number| number.parse::<f64>().ok()).collect::<Vec<_>>()
    };
    let (alone, first, second) = (mark(0, 0), mark(0, 1), mark(1, 1));
    assert_eq!(alone[..2], [68.8, 43.8]);
    assert!(first[2] < alone[2] && first[2] == second[2]);
    assert!(second[0] - first[0] > 5.0 && second[1] - first[1] > 5.0, "{first:?} {second:?}");
    assert!(page.contains("<title>relation 1: 3 → 5</title>"));
    assert!(page.contains("<rect class=\"event-edge\" x=\"61.5\" y=\"36.5\""));
    assert!(page.contains("A mark is an edge from its row to its column."));
    assert!(!page.contains("class=\"event-name\""));
}

/// Kinds of members are told apart from relations.
#[test]
fn kinds_are_no_relation_edges() {
    let folder = Folder::new();
    folder.write(
        "terms.say",
        "members players: ben, cleo; presets: pad\nrelation owns\n\
         event load when me is player and me owns target\nfirst ben owns pad\n",
    );
    let page = page(&folder);
    assert!(page.contains("<summary>1 relation edge</summary>"), "{page}");
    assert!(page.contains("3 members of 2 kinds, 1 relation, 1 event."), "{page}");
    assert!(page.contains("<li>presets: pad</li>"), "{page}");
    assert!(!page.contains("<td>player</td>"), "{page}");
}

/// The picture of a moment.
fn picture(page: &str, moment: usize) -> &str {
    let title = format!("aria-labelledby=\"title{moment} ");
    let graph = page.split("<svg class=\"graph\"").find(|graph| graph.contains(&title)).unwrap();
    graph.split("</svg>").next().unwrap()
}

/// What a reason tells of the past is drawn with its moment, and so is a denied request.
#[test]
fn the_past_and_the_denied_are_drawn() {
    let page = page(&preset());
    let lines = |moment: usize, class: &str| {
        picture(&page, moment).matches(&format!("<path class=\"{class}\"")).count()
    };
    let counts =
        |moment| ["event-edge", "asked-edge", "past-edge"].map(|class| lines(moment, class));
    assert_eq!([0, 1, 2, 3].map(counts), [[0, 1, 0], [1, 0, 0], [1, 0, 0], [1, 1, 1]]);
    let last = picture(&page, 3);
    assert!(last.contains(">share, 1</text>"), "dora shared at moment 1: {last}");
    let denied = last.split("<path").find(|path| path.contains("asked-edge")).unwrap();
    assert!(denied.contains("marker-end=\"url(#crossed)\""), "{denied}");
    for said in ["a denied request</li>", "a past event that a reason tells of</li>"] {
        assert!(page.contains(said), "{said}");
    }
}

/// The numbers in an attribute.
fn numbers(text: &str, name: &str) -> Vec<f64> {
    value(text, name).split(' ').map(|number| number.parse().unwrap()).collect()
}

/// A long name of an event is whole, and so is its middle on its line; a member's name is
/// near the member, though there is a loop.
#[test]
fn names_are_whole_and_near() {
    let folder = Folder::new();
    let long = "recommend-to-everybody-who-may-want-to-hear-of-it";
    folder.write(
        "terms.say",
        &format!("members ben, cleo, dora\nevent {long} by anyone\nevent rest by anyone\n"),
    );
    folder.write("requests.say", &format!("{long} ben cleo\nrest ben ben\n"));
    let page = page(&folder);
    let first = picture(&page, 1);
    let view = numbers(first, "viewBox");
    let name = first.split("<text").skip(1).find(|text| text.contains(long)).unwrap();
    let half = long.len() as f64 * 14.0 * 0.6 / 2.0;
    let middle = numbers(name, "x")[0];
    assert!(view[0] <= middle - half && middle + half <= view[0] + view[2], "{view:?} {name}");
    assert!(picture(&page, 2).contains(">rest</text>"), "a loop has its name");
    for node in page.split("<g class=\"node\"").skip(1) {
        let (circle, name) = node.split_once("<text").unwrap();
        let ((cx, cy), (x, y)) = (
            (numbers(circle, "cx")[0], numbers(circle, "cy")[0]),
            (numbers(name, "x")[0], numbers(name, "y")[0]),
        );
        assert!((cx - x).hypot(cy - y) < 20.0, "{node}");
    }
}
