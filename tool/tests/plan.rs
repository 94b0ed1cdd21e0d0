//! `plan` and `can`, from the command line.

mod run_support;

use run_support::{example, preset, run, Folder, Said};

/// `plan` with a folder, a plan and further words.
fn plan(folder: &str, text: &str, more: &[&str]) -> Said {
    run(&[&["plan", folder, text], more].concat())
}

const ANN: [&str; 6] = ["--planner", "ann", "--rival", "bob", "--goal", "me holds target"];

fn rival() -> String {
    example("rival").to_str().unwrap().to_string()
}

#[test]
fn a_plan_is_accepted() {
    let first = [&ANN[..], &["--first"]].concat();
    let said = plan(&rival(), "wish bell; claim bell", &first);
    assert_eq!((said.status, said.err.as_str()), (0, ""));
    assert_eq!(
        said.out,
        "Accepted: whatever bob does, `me holds target` holds after request 2 at the latest (me is \
         ann, target is bell).\n"
    );
    let said = plan(&rival(), "claim pad", &ANN);
    assert!(
        said.out.contains("`me holds target` holds after it (me is ann, target is pad)"),
        "{}",
        said.out
    );
    let said = plan(&rival(), "claim pad; wish pad", &ANN);
    assert!(said.out.contains("after the first request already"), "{}", said.out);
}

#[test]
fn the_replies_that_defeat_a_plan_are_shown() {
    let said = plan(&rival(), "wish bell; claim bell", &ANN);
    assert_eq!(said.status, 1);
    assert_eq!(
        said.out,
        "Rejected: bob can keep ann from it.

1  wish ann → bell   granted
   claim bob → bell  granted
2  claim ann → bell  denied

`me holds target` does not hold at any point in the plan (me is ann, target is bell).
"
    );
    let first = [&ANN[..], &["--first"]].concat();
    let said = plan(&rival(), "wish pad; wish bell; claim bell", &first);
    let replies = "   wish bob → bell   granted\n2  wish ann → bell   granted\n   claim bob → bell  granted\n";
    assert!(said.status == 1 && said.out.contains(replies), "{}", said.out);
    let said = plan(&rival(), "claim bell; release bell", &ANN);
    let alone = "Rejected: ann does not get there even if bob only passes.\n\n\
                 1  claim ann → bell    denied\n   bob passes\n2  release ann → bell  denied\n";
    assert!(said.out.starts_with(alone), "{}", said.out);
}

#[test]
fn a_goal_is_an_event_or_a_sentence() {
    let with = |goal: &str, more: &[&str]| {
        let words = [&ANN[..4], &["--goal", goal], more].concat();
        plan(&rival(), "claim pad; load pad", &words)
    };
    let said = with("load", &[]).out;
    assert!(
        said.ends_with("load ann → pad would be granted after the first request already.\n"),
        "{said}"
    );
    let said = with("claim", &["--pair", "bob", "bell"]).out;
    assert!(said.contains("claim bob → bell would be granted after the first"), "{said}");
    let said = with("claim", &["--pair", "\"bob\" bell"]).out;
    assert!(said.contains("claim bob → bell would be granted after the first"), "{said}");
    let said = with("once me wish target", &[]).out;
    assert!(!said.contains("begins now"), "{said}");
    let said = with("once me load target", &[]).out;
    assert!(said.contains("after request 2 at the latest"), "{said}");
    assert!(said.contains("no such sentence about the past: it begins now"), "{said}");
    assert!(!with("once me load target", &["--first"]).out.contains("begins now"));
    let said = with("once (me wish target and previously true)", &["--pair", "ann", "pad"]).out;
    assert!(said.starts_with("Rejected") && said.contains("begins now"), "{said}");
}

#[test]
fn for_programs() {
    let json = [&ANN[..], &["--json"]].concat();
    let said = plan(&rival(), "wish bell; claim bell", &json);
    let lines: Vec<&str> = said.out.lines().collect();
    assert_eq!(
        lines,
        [
            r#"{"accepted":false,"planner":"ann","rival":"bob","goal":"me holds target","pair":["ann","bell"],"latest":null,"begins":false,"events":["wish","claim","release","load"]}"#,
            r#"{"move":1,"event":"wish","from":"ann","to":"bell","answer":"grant"}"#,
            r#"{"reply":1,"event":"claim","from":"bob","to":"bell","answer":"grant"}"#,
            r#"{"move":2,"event":"claim","from":"ann","to":"bell","answer":"deny"}"#,
        ]
    );
    let said = plan(&rival(), "claim bell; claim bell", &json);
    assert!(said.out.contains(r#"{"reply":1,"pass":true}"#), "{}", said.out);
    let said = plan(&rival(), "claim pad", &json);
    assert!(said.out.starts_with(r#"{"accepted":true,"#) && said.out.contains(r#""latest":1"#));
    let said = plan(&rival(), "claim pad", &["--json"]);
    assert_eq!((said.status, said.out.as_str()), (2, "{\"error\":\"give --planner\"}\n"));
}

#[test]
fn what_is_no_plan() {
    let err = |text: &str, words: &[&str]| {
        let said = plan(&rival(), text, words);
        assert!(said.out.is_empty(), "{}", said.out);
        (said.status, said.err)
    };
    let (status, said) = err("wish bell; claim", &ANN);
    assert!(status == 2 && said.contains("an event and its target"), "{said}");
    let (status, said) = err("claim bell; claim bell; claim bell; claim bell", &ANN);
    assert!(status == 2 && said.contains("this one has 4"), "{said}");
    let (status, said) =
        err("claim bell", &["--planner", "ann", "--rival", "ann", "--goal", "load"]);
    assert!(status == 2 && said.contains("are two members"), "{said}");
    let (status, said) =
        err("claim bell", &["--planner", "ann", "--rival", "rob", "--goal", "load"]);
    assert!(status == 2 && said.contains("did you mean `bob`?"), "{said}");
    let (status, said) = err("claim bell", &[&ANN[..4], &["--goal", "laod"]].concat());
    assert!(status == 3 && said.contains("write `load`, if that event is meant"), "{said}");
    let (status, said) = err("claim bell", &[&ANN[..4], &["--goal", "me hold target"]].concat());
    assert!(status == 3 && said.starts_with("--goal:1:4: "), "{said}");
    let (status, said) = err("claim bell", &[&ANN[..4], &["--goal", "me holds"]].concat());
    assert!(status == 3 && said.contains("the end of the goal"), "{said}");
    let (status, said) = err("claim bell", &[&ANN[..], &["--pair", "ann"]].concat());
    assert!(status == 2 && said.contains("--pair needs two members"), "{said}");
}

#[test]
fn a_game_has_at_most_8_members_and_4_events() {
    let folder = Folder::new();
    folder.write("terms.say", "members a, b, c, d, e, f, g, h, i\nevent see by anyone\n");
    let words = ["--planner", "a", "--rival", "b", "--goal", "see"];
    let said = plan(folder.path(), "see c", &words);
    assert_eq!(said.status, 3);
    assert!(
        said.err.contains("among at most 8 members, and here are 9: try it in a copy"),
        "{}",
        said.err
    );
    folder.write("terms.say", "members a, b, c\nevent see, hear, feel, taste, smell by anyone\n");
    let said = plan(folder.path(), "see c", &words);
    assert!(
        said.err.contains("among at most 4 events, and here are 5: name those that matter"),
        "{}",
        said.err
    );
}

/// Without a source, its sentences are those of the terms with their names.
#[test]
fn a_goal_over_a_terms_file() {
    let folder = preset();
    folder.write("requests.tsv", "");
    let words = ["--planner", "dora", "--rival", "pete", "--goal", "target share me"];
    let said =
        plan(folder.path(), "share pete", &[&words[..], &["--pair", "pete", "dora"]].concat());
    assert_eq!((said.status, said.err.as_str()), (0, ""), "{}", said.out);
    let load = ["--planner", "dora", "--rival", "pete", "--goal", "load", "--pair", "pete", "saw"];
    assert_eq!(plan(folder.path(), "share pete; withdraw pete", &load).status, 0);
    assert_eq!(plan(folder.path(), "withdraw pete", &load).status, 1);
}

#[test]
fn two_banks_have_no_plan() {
    let banks = example("two-banks");
    let folder = Folder::new();
    for (from, to) in [("terms.say", "terms.say"), ("banks.say", "requests.say")] {
        std::fs::copy(banks.join(from), folder.file(to)).unwrap();
    }
    let said = run(&["can", folder.path(), "0", "0", "0"]);
    assert!(said.status == 3 && said.err.contains("one bank only"), "{}", said.err);
}

#[test]
fn the_shortest_way_is_found() {
    let said = run(&["can", &rival(), "bob load bell"]);
    assert_eq!((said.status, said.err.as_str()), (0, ""));
    assert_eq!(
        said.out,
        "load bob → bell can be granted after 1 request; no shorter list does:

1  claim bob → bell  granted
2  load bob → bell   granted
"
    );
    let said = run(&["can", &rival(), "load", "ann", "bell", "--first"]);
    assert!(
        said.out.starts_with("load ann → bell can be granted after 2 requests"),
        "{}",
        said.out
    );
    let said = run(&["can", &rival(), "claim bob bell"]);
    assert_eq!(said.out, "claim bob → bell is granted now.\n");
    let said = run(&["can", &rival(), "bob load bell", "--json"]);
    assert_eq!(
        said.out,
        "{\"event\":\"load\",\"from\":\"bob\",\"to\":\"bell\",\"granted\":true,\"requests\":\
         [{\"event\":\"claim\",\"from\":\"bob\",\"to\":\"bell\",\"answer\":\"grant\"}]}\n"
    );
}

#[test]
fn what_is_never_granted_is_said() {
    let said = run(&["can", &rival(), "bell load ann"]);
    assert_eq!(said.status, 1);
    assert!(said.out.starts_with("load bell → ann is never granted: all "), "{}", said.out);
    let said = run(&["can", &rival(), "ann load bell", "--within", "1"]);
    assert_eq!(said.status, 1);
    assert!(
        said.out.starts_with("load ann → bell is not granted within 1 request: "),
        "{}",
        said.out
    );
    assert!(said.out.ends_with("More requests reach further states.\n"), "{}", said.out);
    let said = run(&["can", &rival(), "ann load bell", "--within", "0", "--json"]);
    assert!(said.out.contains(r#""granted":false,"why":"not within","within":0,"states":1"#));
    let said = run(&["can", &rival(), "ann load bell", "--within", "two"]);
    assert_eq!(said.status, 2);
    let said = run(&["can", &rival(), "ann load"]);
    assert!(said.status == 2 && said.err.contains("who asks, the event"), "{}", said.err);
}

/// What the page of the example shows is what is printed.
#[test]
fn the_example_shows_what_is_said() {
    let readme = std::fs::read_to_string(example("rival").join("README.md")).unwrap();
    let blocks: Vec<&str> =
        readme.split("```").filter_map(|block| block.strip_prefix("console\n")).collect();
    assert!(blocks.len() >= 5, "{}", blocks.len());
    for block in blocks {
        let (command, shown) = block.split_once('\n').unwrap();
        let command = command.strip_prefix("$ cuckooormolu ").unwrap();
        let mut words = split(command);
        words[1] = rival();
        let words: Vec<&str> = words.iter().map(String::as_str).collect();
        assert_eq!(run(&words).out, shown, "{command}");
    }
}

/// What docs/LANGUAGE.md shows after a command, up to the next paragraph.
fn shown(command: &str) -> (Vec<String>, String) {
    let page = std::fs::read_to_string(example("../docs/LANGUAGE.md")).unwrap();
    let begins = format!("    $ cuckooormolu {command} ");
    let mut lines = page.lines().skip_while(|line| !line.starts_with(&begins));
    let words = lines.next().unwrap().trim_start().strip_prefix("$ cuckooormolu ").unwrap();
    let lines = lines.take_while(|line| line.is_empty() || line.starts_with("    "));
    let lines: Vec<&str> = lines.map(|line| line.strip_prefix("    ").unwrap_or(line)).collect();
    (split(words), format!("{}\n", lines.join("\n").trim_end()))
}

/// The words of a command; those in quotes are one.
fn split(command: &str) -> Vec<String> {
    let mut words = Vec::new();
    for (place, part) in command.split('"').enumerate() {
        match place % 2 {
            0 => words.extend(part.split_whitespace().map(str::to_string)),
            _ => words.push(part.to_string()),
        }
    }
    words
}

#[test]
fn the_page_shows_what_is_said() {
    let folder = Folder::new();
    folder.write("terms.say", cuckooormolu_tool::commands::new::START);
    folder.write("requests.say", "share dora pete\nwithdraw dora pete\n");
    for (command, place) in [("can", folder.path()), ("plan", &rival())] {
        let (mut words, said) = shown(command);
        words[1] = place.to_string();
        let words: Vec<&str> = words.iter().map(String::as_str).collect();
        assert_eq!(run(&words).out, said, "{command}");
    }
}

/// Terms with six events, of which four or fewer matter to a plan.
const SIX: &str = "members ann, bob, bell\nrelation holds\n\
    event wish by anyone\n\
    event claim when once me wish target and nobody holds target then add me holds target\n\
    event release when me holds target then remove me holds target\n\
    event praise, greet by anyone\n\
    event bless when previously me greet target or me praise target\n";

#[test]
fn a_plan_with_some_of_the_events() {
    let folder = Folder::new();
    folder.write("terms.say", SIX);
    let with = |text: &str, goal: &str, more: &[&str]| {
        let words = ["--planner", "ann", "--rival", "bob", "--goal", goal];
        plan(folder.path(), text, &[&words[..], more].concat())
    };
    let holds = |more: &[&str]| with("wish bell; claim bell", "me holds target", more);
    let said = holds(&[]);
    let cure = "name those that matter, besides those of the plan, with --events";
    assert!(said.status == 3 && said.err.contains(cure), "{}", said.err);
    let said = holds(&["--events", "release"]);
    assert_eq!((said.status, said.err.as_str()), (0, ""));
    assert_eq!(
        said.out,
        "Accepted: whatever bob does, `me holds target` holds after request 2 at the latest (me is ann, target is \
         bell).\n\nOnly wish, claim and release can happen in this game: by another event bob may still keep ann from \
         it.\n"
    );
    // What was requested before counts; a reply is told by its own name.
    folder.write("requests.say", "wish bob bell\n");
    let said = holds(&["--events", "release,greet"]);
    assert!(
        said.status == 1 && said.out.contains("   claim bob → bell  granted\n"),
        "{}",
        said.out
    );
    let line = holds(&["--events", "release", "--json"]).out.lines().next().unwrap().to_string();
    assert!(line.contains("\"events\":[\"wish\",\"claim\",\"release\"]"), "{line}");
    let said = holds(&["--events", "relase"]);
    assert!(said.status == 2 && said.err.contains("did you mean `release`?"), "{}", said.err);
    let said = holds(&["--events", "release,praise,greet"]);
    assert!(said.status == 3 && said.err.contains("here are 5"), "{}", said.err);
}

#[test]
fn the_last_event_counts_even_if_it_is_left_out() {
    let folder = Folder::new();
    folder.write("terms.say", SIX);
    folder.write("requests.say", "greet ann bell\n");
    let bless = |requests: &str, events: &str, more: &[&str]| {
        folder.write("requests.say", requests);
        let words = ["--planner", "ann", "--rival", "bob", "--goal", "bless", "--events", events];
        plan(folder.path(), "wish bell", &[&words[..], more].concat())
    };
    // A moment ago ann greeted: that counts after her next request.
    assert_eq!(bless("greet ann bell\n", "greet", &[]).status, 0);
    let said = bless("greet ann bell\n", "claim", &[]);
    let told =
        "the last request, greet ann → bell, counts at this moment: name `greet` in --events too";
    assert!(said.status == 3 && said.err.contains(told), "{}", said.err);
    assert_eq!(bless("greet ann bell\n", "claim", &["--first"]).status, 1);
    // The release is asked for by no policy.
    assert_eq!(bless("wish ann bell\nclaim ann bell\nrelease ann bell\n", "claim", &[]).status, 1);
}
