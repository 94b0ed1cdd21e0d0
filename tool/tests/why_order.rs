//! What is told first of a denial, and what is told only if all is asked for.

mod run_support;

use run_support::{run, Folder};

const CIRCLE: &str = "\
members dora, eve, kim, tom, saw
relations owns, friend, suspended
event share by anyone
event vouch said \"vouched for\" by anyone
event load
  when (some owner owns target: (at least 2 friend of me as f: once f vouch me) or once owner share me)
       and me is not suspended
first dora owns saw, tom friend dora and eve and kim, tom is suspended
";

/// Why a request is denied after others.
fn why(requests: &str, asked: &str, options: &[&str]) -> Vec<String> {
    let folder = Folder::new();
    folder.write("terms.say", CIRCLE);
    folder.write("requests.say", requests);
    let said = run(&[&["why", folder.path(), asked], options].concat()).out;
    assert!(said.lines().next().is_some_and(|line| line.contains("denied")), "{said}");
    said.lines().skip(1).map(|line| line.trim_start().to_string()).collect()
}

const SUSPENDED: &str = "tom is suspended";
const NEVER_SHARED: &str = "dora owns saw, but dora has never shared with tom";
const NONE: &str =
    "dora owns saw, but at least 2 friends of tom that have vouched for tom are needed, and there is none";

#[test]
fn what_denies_alone_comes_first_and_then_single_facts() {
    assert_eq!(why("", "tom load saw", &[]), [SUSPENDED, NEVER_SHARED, NONE]);
}

#[test]
fn possibilities_that_came_nearer_come_before_others() {
    let one = NONE.replace("there is none", "there is only 1: kim");
    assert_eq!(why("kim vouch tom\n", "tom load saw", &[]), [SUSPENDED, &one, NEVER_SHARED]);
}

#[test]
fn what_repeats_a_count_is_told_if_all_is_asked_for() {
    let each = |who: &str| {
        format!("dora owns saw, and {who} is a friend of tom, but {who} has never vouched for tom")
    };
    let all = [SUSPENDED, NEVER_SHARED, NONE, &each("dora"), &each("eve"), &each("kim")];
    assert_eq!(why("", "tom load saw", &["--all"]), all);
}
