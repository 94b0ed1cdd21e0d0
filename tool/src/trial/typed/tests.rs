//! Lines of the prompt, understood or not.

use super::*;

fn said(line: &str) -> Result<Typed, String> {
    let terms = Terms { members: 2, events: 1, ..Terms::default() };
    let names = Names::read("member\t0\tdora\nmember\t1\tthe saw\nevent\t0\tshare\n").unwrap();
    read(line, &terms, &names)
}

#[test]
fn understood() {
    assert_eq!(said("  \n"), Ok(Typed::Nothing));
    let call = |bank, from, to| Call { bank, event: 0, from, to };
    assert_eq!(said("share dora \"the saw\""), Ok(Typed::Request(call(None, 0, 1))));
    assert_eq!(said("share dora → 1"), Ok(Typed::Request(call(None, 0, 1))));
    assert_eq!(said("dora share 1"), Ok(Typed::Request(call(None, 0, 1))));
    assert_eq!(said("why dora share 1"), Ok(Typed::WhyNot(call(None, 0, 1))));
    assert_eq!(said("look share 1 -> dora"), Ok(Typed::Look(call(None, 1, 0))));
    let right = Some(Bank::Right);
    assert_eq!(said("right share dora 1"), Ok(Typed::Request(call(right, 0, 1))));
    assert_eq!(said("look right share 1 dora"), Ok(Typed::Look(call(right, 1, 0))));
    assert_eq!(said("why right share 1 dora"), Ok(Typed::WhyNot(call(right, 1, 0))));
    assert_eq!(said("who right share"), Ok(Typed::Who(right, 0)));
    assert_eq!(said("why all"), Ok(Typed::Why(true)));
    assert_eq!(said("save a.tsv"), Ok(Typed::Save(Some("a.tsv".into()))));
}

#[test]
fn words_that_may_come() {
    let terms = Terms { members: 2, events: 1, ..Terms::default() };
    let names = Names::read("member\t0\tdora\nmember\t1\tthe saw\nevent\t0\tshare\n").unwrap();
    let next = |before: &str| next(before, &terms, &names).join(" ");
    assert!(next("sh").starts_with("share look why"));
    assert_eq!(next("share "), "dora \"the saw\"");
    assert_eq!((next("dora "), next("dora share ")), ("share".into(), next("share ")));
    assert_eq!(next("look "), "share left right");
    assert_eq!(next("look left "), "share");
    assert_eq!(next("right share "), "dora \"the saw\"");
    assert_eq!(next("look share dora t"), "dora \"the saw\"");
    assert_eq!(next("why "), "share all left right");
    assert_eq!(next("who share "), "");
    assert_eq!(next("who left share "), "");
    assert_eq!(next("share dora dora "), "");
}

#[test]
fn mistakes() {
    let wrong = |line| said(line).unwrap_err();
    assert_eq!(wrong("shrae 0 1"), "no event or command `shrae`; did you mean `share`?");
    assert_eq!(wrong("share dorra 1"), "no member `dorra`; did you mean `dora`?");
    assert_eq!(wrong("whi"), "no event or command `whi`; did you mean `why`?");
    assert_eq!(wrong("who"), "like this: who EVENT; events: share");
    assert_eq!(wrong("why share"), "like this: why [all], or why EVENT FROM TO");
    assert_eq!(wrong("share dora"), "like this: share FROM TO");
    assert_eq!(wrong("dora share"), "like this: dora EVENT TO, or EVENT dora TO");
    assert_eq!(wrong("dora shrae 1"), "no event or command `shrae`; did you mean `share`?");
    assert_eq!(wrong("left dora 1"), "like this: left EVENT FROM TO");
    assert_eq!(wrong("lefft share 0 1"), "no event or command `lefft`; did you mean `left`?");
    assert!(wrong("xyzzy").contains("events: share"));
}
