//! Names read, written and looked up.

use super::*;

const TEXT: &str = "member\t0\tdora\nmember\t1\tpete\nrelation\t0\towns\nevent\t0\tshare\n";

#[test]
fn read_and_written() {
    let names = Names::read(TEXT).unwrap();
    assert_eq!(names.write(), TEXT);
    assert_eq!(names.member(1), "pete");
    assert_eq!(names.member(2), "member 2");
    assert_eq!(names.event(4), "event 4");
    let said = "event\t0\tpeek\tpeek at\tpeeked at\n";
    let names = Names::read(said).unwrap();
    assert_eq!(names.spoken(0), Some(&Spoken::of("peek", "peeked at")));
    assert_eq!(names.write(), said);
    let kinds = "member\t0\tben\tplayers\nmember\t1\tpad\tpresets\nmember\t2\tnorth\n\
                 member\t3\tcleo\tplayers\n";
    let names = Names::read(kinds).unwrap();
    assert_eq!(names.members("players", 4), Ok(vec![0, 3]));
    assert_eq!(names.kinds()[1], ("presets".to_string(), vec![1]));
    assert_eq!(names.write(), kinds);
}

#[test]
fn looked_up() {
    let names = Names::read(TEXT).unwrap();
    assert_eq!(names.lookup(Kind::Member, "dora", 3), Ok(0));
    assert_eq!(names.lookup(Kind::Member, "2", 3), Ok(2));
    let near = names.lookup(Kind::Event, "shrae", 1).unwrap_err();
    assert_eq!(near, "no event `shrae`; did you mean `share`?");
    let far = names.lookup(Kind::Member, "xyz", 3).unwrap_err();
    assert_eq!(far, "no member `xyz`; there are: dora, pete, member 2");
}

#[test]
fn mistakes() {
    let said = |text: &str| Names::read(text).unwrap_err();
    assert!(said("membr\t0\ta\n").contains("did you mean `member`?"));
    assert!(said("member 0 a\n").contains("line 1"));
    assert!(said("member\tx\ta\n").contains("no number"));
    assert!(said("member\t0\ta\t\n").contains("the kind of a has an empty name"));
    assert!(said("relation\t0\ta\tb\n").contains("line 1"));
    assert!(said("member\t0\ta\nmember\t1\ta\n").contains("already"));
}
