use super::*;
use crate::folder::Request;

fn names() -> (Terms, Names) {
    let terms = Terms { members: 2, events: 1, ..Terms::default() };
    let names = "member\t0\tdora\nmember\t1\tthe saw\nevent\t0\tshare\n";
    (terms, Names::read(names).unwrap())
}

#[test]
fn read_and_written() {
    let (terms, names) = names();
    let text =
        "# first\n\nshare dora \"the saw\"  # a gift\nR\t0\t1\t0\nshare 1 -> dora\ndora share 1\n";
    let read = read("f", text, &terms, &names).unwrap();
    assert_eq!(read.lines, b"R\t0\t0\t1\nR\t0\t1\t0\nR\t0\t1\t0\nR\t0\t0\t1\n");
    assert_eq!(read.banks, []);
    let ask = Request::Ask { event: 0, from: 0, to: 1 };
    assert_eq!(write([ask].into_iter(), &names), ["share dora \"the saw\"\n"]);
}

#[test]
fn what_is_written_is_read_again() {
    let terms = Terms { members: 4, events: 1, ..Terms::default() };
    let names = "member\t0\tsaw #2\nmember\t1\t->\nmember\t2\ta\"b\nevent\t0\tR\n";
    let names = Names::read(names).unwrap();
    let ask = |from, to| Request::Ask { event: 0, from, to };
    let asked = [ask(0, 1), ask(2, 0), ask(3, 1), Request::Ask { event: 9, from: 0, to: 7 }];
    let text = write(asked.into_iter(), &names).concat();
    assert_eq!(text.lines().next(), Some("R \"saw #2\" \"->\""));
    let read = read("f", &text, &terms, &names).unwrap();
    assert_eq!(read.lines, numbered(asked.into_iter()).concat().as_bytes());
}

#[test]
fn banks() {
    let terms = Terms { members: 4, events: 2, ..Terms::default() };
    let names = "member\t0\tsaw #2\nmember\t1\tleft\nmember\t2\ta\"b\nevent\t0\tleft\n";
    let names = Names::read(names).unwrap();
    // The count of words tells a bank from an event of that name.
    let single = read("f", "left left 3\n", &terms, &names).unwrap();
    assert_eq!((&single.lines[..], &single.banks[..]), (&b"R\t0\t1\t3\n"[..], &[][..]));
    let text = "left left left \"saw #2\"\n# then\nright 1 2 -> 3\n";
    let asked = read("f", text, &terms, &names).unwrap();
    assert_eq!(asked.lines, b"R\t0\t1\t0\nR\t1\t2\t3\n");
    assert_eq!(asked.banks, Bank::BOTH);
    let requests = asked.lines.split_inclusive(|&byte| byte == b'\n').map(Request::read);
    let lines = write_banked(asked.banks.iter().copied().zip(requests), &terms, &names);
    assert_eq!(lines.unwrap().concat(), text.replace("# then\n", "").replace("-> ", ""));
}

#[test]
fn mistakes() {
    let (terms, names) = names();
    let said = read("f", "shrae dora dora\nshare dora\ndora shrae dora\n", &terms, &names);
    let said = said.unwrap_err().to_string();
    let lines: Vec<&str> = said.lines().collect();
    assert_eq!(lines[0], "f:1: no event `shrae`; did you mean `share`?");
    assert!(lines[1].starts_with("f:2: a request is an event, who asks"), "{said}");
    assert_eq!(lines[2], "f:3: no event `shrae`; did you mean `share`?");
    let said = |text: &str| read("f", text, &terms, &names).unwrap_err().to_string();
    assert_eq!(said("lefft share dora dora\n"), "f:1: no bank `lefft`; did you mean `left`?");
    assert!(said("right dora dora\n").starts_with("f:1: after the bank come an event"));
    let some = "\nleft share 0 0\nshare 0 0\nshare 0 0\n";
    let why =
        "f:3: no bank is named here, but one is in line 2: put left or right before the event, \
               or name a bank in no line";
    assert_eq!(said(some), why);
    let why =
        "f:2: the bank right is named here, but none in line 1: name a bank in every line, or \
               in none";
    assert_eq!(said("R\t0\t0\t0\nright share 0 0\n"), why);
}
