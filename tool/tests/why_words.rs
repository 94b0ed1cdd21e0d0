//! The words of reasons, shape by shape.

use cuckooormolu_tool::both::Both;
use cuckooormolu_tool::folder::Folder;
use cuckooormolu_tool::names::Names;
use cuckooormolu_tool::replay::Replay;
use cuckooormolu_tool::why::reason::Reasons;
use cuckooormolu_tool::words::Words;

const NAMES: &str = "member\t0\tann\nmember\t1\tben\nmember\t2\tcem\nmember\t3\tx\n\
                     relation\t0\tfriend\nevent\t0\task\nevent\t1\tdo\n";

/// A folder of terms with a relation and two events: `ask` is always allowed and makes friends,
/// `do` is decided by the last entry. Blanks stand for tabs.
fn folder(entries: &[&str], requests: &[&str]) -> Folder {
    let mut text = String::from("M 4\nL 1 2\nF 0 top 0 0\nF 1 var 0 0\n");
    for (index, entry) in entries.iter().enumerate() {
        text.push_str(&format!("F {} {entry}\n", index + 2));
    }
    text.push_str(&format!("P 0 0\nP 1 {}\nE 0 add 0 fwd\nG 0 1 2\n", entries.len() + 1));
    let requests: String = requests.iter().map(|request| format!("R {request}\n")).collect();
    let tabs = |text: &str| text.replace(' ', "\t").into_bytes();
    let names = Names::read(NAMES).unwrap();
    Folder { terms: tabs(&text), requests: tabs(&requests), names, ..Folder::default() }
}

/// The reason of the last request.
fn why(entries: &[&str], requests: &[&str]) -> Vec<String> {
    let folder = folder(entries, requests);
    last(&Replay::of(&folder).unwrap(), &folder)
}

/// The same where the first requests were made under other terms.
fn why_revised(old: &[&str], before: &[&str], new: &[&str], after: &[&str]) -> Vec<String> {
    let new = folder(new, after);
    let mut replay = Replay::of(&folder(old, before)).unwrap();
    replay.both.revise(&Both::accepted(&new.terms).unwrap()).unwrap().unwrap();
    for request in new.requests() {
        replay.make(request).unwrap();
    }
    last(&replay, &new)
}

fn last(replay: &Replay, folder: &Folder) -> Vec<String> {
    let words = Words::new(replay.both.terms(), &folder.names);
    let step = replay.steps.last().unwrap();
    let because = Reasons::new(replay.both.record()).of(&words, step, false).unwrap().unwrap();
    because.lines.into_iter().collect()
}

#[test]
fn always_and_never() {
    assert_eq!(why(&["not 1 0", "or 1 2"], &["1 0 1"]), ["ann is not ben"]);
    assert_eq!(why(&["not 0 0"], &["1 0 1"]), ["it is never allowed"]);
    assert_eq!(why(&["or 1 0"], &["1 0 1"]), ["it is always allowed"]);
}

#[test]
fn edges_that_are_there_and_are_not() {
    assert_eq!(why(&["out 0 1"], &["1 1 2"]), ["cem is a friend of ben"]);
    assert_eq!(why(&["out 0 1"], &["1 2 1"]), ["ben is not a friend of cem"]);
    assert_eq!(why(&["in 0 0"], &["1 0 1"]), ["ann is a friend of no member"]);
    assert_eq!(
        why(&["out 0 1", "out 0 2"], &["1 1 0"]),
        ["cem is a friend of ben, but ann is not a friend of cem"]
    );
}

#[test]
fn events_of_the_last_moment() {
    let just = ["in 1 1"];
    assert_eq!(why(&just, &["0 1 0", "1 0 1"]), ["ben asked ann at moment 1"]);
    assert_eq!(
        why(&just, &["0 2 0", "1 0 1"]),
        ["ben has not just asked ann: cem has just asked ann"]
    );
    assert_eq!(why(&just, &["1 0 1"]), ["ben has not just asked ann"]);
}

#[test]
fn one_moment_before() {
    let before = ["in 1 1", "prev 2 0"];
    assert_eq!(why(&before, &["1 0 1"]), ["there is no moment before moment 0"]);
    assert_eq!(why(&before, &["0 1 0", "1 0 1"]), ["ben did not ask ann at moment 0"]);
    assert_eq!(why(&before, &["0 1 0", "0 2 2", "1 0 1"]), ["ben asked ann at moment 1"]);
}

#[test]
fn since_a_moment() {
    // Ben asked me, and I have not asked him since.
    let since = ["in 1 1", "out 1 1", "not 3 0", "since 4 2"];
    assert_eq!(why(&since, &["1 0 1"]), ["ben has never asked ann"]);
    assert_eq!(why(&since, &["0 1 0", "1 0 1"]), ["ben asked ann at moment 1"]);
    let kept = why(&since, &["0 1 0", "0 2 2", "1 0 1"]);
    assert_eq!(kept, ["ben asked ann at moment 1, and ann has not asked ben since"]);
    let broken = why(&since, &["0 1 0", "0 0 1", "1 0 1"]);
    assert_eq!(broken, ["ben asked ann at moment 1, but ann asked ben at moment 2"]);
    // Asked by ben, and friends with somebody ever since.
    let with_friend = ["in 1 1", "out 0 0", "since 3 2"];
    let kept = why(&with_friend, &["0 0 3", "0 1 0", "0 2 2", "1 0 1"]);
    assert_eq!(
        kept,
        ["ben asked ann at moment 2, and at every moment since some member was a friend of ann"]
    );
}

/// What begins with new terms counts from there, and what goes on counts as before.
#[test]
fn since_the_terms_were_revised() {
    let (none, asked) = (["not 0 0"], ["0 1 0", "0 2 2"]);
    let once = ["in 1 1", "since 0 2"];
    assert_eq!(
        why_revised(&none, &asked, &once, &["1 0 1"]),
        ["since the terms were revised at moment 2 ben has never asked ann"]
    );
    assert_eq!(why_revised(&none, &asked[..1], &once, &["1 0 1"]), ["ben asked ann at moment 1"]);
    assert_eq!(why_revised(&once, &asked, &once, &["1 0 1"]), ["ben asked ann at moment 1"]);
    let before = ["in 1 1", "prev 2 0"];
    assert_eq!(
        why_revised(&none, &asked, &before, &["1 0 1"]),
        ["the terms were revised at moment 2, and none before it counts"]
    );
    assert_eq!(
        why_revised(&none, &["0 1 0"], &before, &["0 2 2", "1 0 1"]),
        ["ben asked ann at moment 1"]
    );
    // Somebody whom I once asked is a friend of the target: the step counts from there.
    let step = ["var 1 0", "out 1 2", "since 0 3", "out 0 1", "reach 1 4 5"];
    let told = why_revised(&none, &["0 0 1", "0 3 3"], &step, &["1 0 2"]);
    let counts = "the past counts here from moment 2 on, when the terms were revised";
    assert!(told.len() == 1 && told[0].ends_with(counts), "{told:?}");
}

#[test]
fn a_moment_that_came_near() {
    // Somebody asked me who was then a friend of the target.
    let entries = ["out 0 1", "in 1 2", "since 0 3"];
    let near = why(&entries, &["0 2 0", "0 3 3", "1 0 1"]);
    assert_eq!(near, ["cem asked ann at moment 1, but ben was not a friend of cem then",]);
}

#[test]
fn a_step_along_the_past() {
    // Somebody whom I once asked is a friend of the target.
    let step = ["var 1 0", "out 1 2", "since 0 3", "out 0 1", "reach 1 4 5"];
    assert_eq!(why(&step, &["1 0 2"]), ["there is no member that ann has at some time asked"]);
    let reached = why(&step, &["0 0 1", "0 3 3", "1 0 2"]);
    assert_eq!(reached, ["ann asked ben at moment 1, and cem is a friend of ben"]);
    let missed = why(&step, &["0 0 1", "0 3 3", "1 0 0"]);
    assert_eq!(missed, ["ann asked ben at moment 1, but ann is not a friend of ben"]);
}

#[test]
fn neighbours_that_are_counted() {
    // At least two friends; at least two who have a friend.
    let two = ["many 0 0 2"];
    assert_eq!(
        why(&two, &["1 1 0"]),
        ["at least 2 friends of ben are needed, and there is only 1: cem"]
    );
    assert_eq!(why(&two, &["1 0 1"]), ["at least 2 friends of ann are needed, and there is none"]);
    let enough = ["at least 2 friends of ben are needed, and there are 2: ann and cem"];
    assert_eq!(why(&two, &["0 1 0", "1 1 0"]), enough);
    let with_friends = ["out 0 0", "many 0 2 2"];
    assert_eq!(
        why(&with_friends, &["0 1 0", "0 2 3", "1 1 0"]),
        ["at least 2 friends of ben that have some member as a friend are needed, and there is only 1: cem"]
    );
    assert_eq!(
        why(&with_friends, &["0 1 0", "0 2 3", "0 0 1", "1 1 0"]),
        ["at least 2 friends of ben that have some member as a friend are needed, and there are 2: ann and cem, \
          and ben is a friend of ann, and x is a friend of cem"]
    );
    // Once two friends: a part that is told in a clause.
    let once = ["many 0 0 2", "since 0 2"];
    let never = why(&once, &["1 1 0"]);
    assert_eq!(
        never,
        ["there was no moment so far at which for at least 2 different members A, A was a friend \
        of ben"]
    );
}

#[test]
fn neighbours_that_are_named_already() {
    // Two friends: a friend, and a friend that is not that one.
    let two =
        ["var 1 0", "var 2 0", "not 2 0", "out 0 4", "at 2 5", "bind 1 6", "out 0 7", "bind 2 8"];
    assert_eq!(
        why(&two, &["1 1 0"]),
        ["cem is a friend of ben, but none but cem is a friend of ben"]
    );
    assert_eq!(
        why(&two, &["0 1 0", "1 1 0"]),
        ["ann is a friend of ben, and cem is a friend of ben"]
    );
}

#[test]
fn alternatives_are_told_nearest_first() {
    // A friend of a friend is the target, or the target asked me just now.
    let either = ["out 0 1", "out 0 2", "in 1 1", "or 4 3"];
    assert_eq!(
        why(&either, &["1 1 0"]),
        ["cem is a friend of ben, but ann is not a friend of cem", "ann has not just asked ben"]
    );
}

#[test]
fn every_condition_that_fails_is_told() {
    // A friend of the target, and asked by the target.
    let both = ["out 0 1", "not 2 0", "in 1 1", "not 4 0", "or 3 5", "not 6 0"];
    let told = why(&both, &["1 0 1"]);
    assert_eq!(told, ["ben is not a friend of ann", "ben has not just asked ann"]);
    assert_eq!(why(&both, &["0 0 1", "0 2 2", "1 0 1"]).len(), 1);
}

/// Parts that are used twice at every level would be told 16,384 times.
#[test]
fn shared_parts_are_not_told_for_ever() {
    let mut entries = vec!["in 1 1".to_string(), "since 0 2".to_string()];
    for entry in 4..18 {
        entries.push(format!("or {} {}", entry - 1, entry - 1));
    }
    let entries: Vec<&str> = entries.iter().map(String::as_str).collect();
    let told = why(&entries, &["0 2 2", "1 0 1"]);
    assert!((1..=3).contains(&told.len()), "{told:?}");
}
