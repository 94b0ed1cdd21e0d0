//! Chains of entries, each over the one before: terms that share entries, and terms that nest deep.

/// Terms of 64 members with a chain of so many entries, each over the one
/// before. A since looks at the last, which is the policy of event 1; event 0
/// is always granted.
fn chain(levels: usize, entry: impl Fn(usize) -> String) -> Vec<u8> {
    let last = levels - 1;
    let mut text = "M\t64\nL\t1\t2\nF\t0\ttop\t0\t0\n".to_string();
    (1..levels).for_each(|n| text.push_str(&format!("F\t{n}\t{}\n", entry(n))));
    text.push_str(&format!("F\t{levels}\tsince\t{last}\t{last}\n"));
    text.push_str(&format!("P\t0\t0\nP\t1\t{last}\nE\t0\tadd\t0\tfwd\n"));
    for member in 0..64 {
        text.push_str(&format!("G\t0\t{member}\t{}\n", (member + 1) % 64));
    }
    text.into_bytes()
}

/// Entry n - 1 twice, once, or under a label or variable.
fn twice(word: &str, n: usize) -> String {
    format!("{word}\t{}\t{}", n - 1, n - 1)
}

fn once(word: &str, n: usize) -> String {
    format!("{word}\t{}\t0", n - 1)
}

fn under(word: &str, a: usize, n: usize) -> String {
    format!("{word}\t{a}\t{}", n - 1)
}

/// Chains in which entries use the one below them twice.
pub fn chains(levels: usize) -> [(&'static str, Vec<u8>); 3] {
    let mixed = |n: usize| match n % 8 {
        1 | 3 => twice("or", n),
        2 => under("at", 0, n),
        4 => under("bind", 1, n),
        5 => under("out", 0, n),
        6 => under("in", 0, n),
        7 => twice("since", n),
        _ => once("not", n),
    };
    let since = |n: usize| if n % 8 == 7 { twice("since", n) } else { twice("or", n) };
    [
        ("chain of or", chain(levels, |n| twice("or", n))),
        ("chain of or and since", chain(levels, since)),
        ("mixed chain", chain(levels, mixed)),
    ]
}

/// The deepest terms of each kind.
pub fn deep() -> Vec<(&'static str, Vec<u8>)> {
    let last = 254;
    let closed = |n: usize| match n {
        n if n == last || n % 3 == 0 => under("bind", 1, n),
        n if n % 3 == 1 => once("not", n),
        _ => under("at", 1, n),
    };
    vec![
        ("not", chain(255, |n| once("not", n))),
        ("or", chain(255, |n| under("or", 0, n))),
        ("out", chain(255, |n| under("out", 0, n))),
        ("in", chain(255, |n| under("in", 0, n))),
        ("bind", chain(255, |n| under("bind", 1, n))),
        ("not, bind, at", chain(255, closed)),
        ("reach", chain(255, |n| format!("reach\t1\t0\t{}", n - 1))),
        ("reach, step", chain(255, |n| format!("reach\t1\t{}\t0", n - 1))),
    ]
}

/// Terms nested so deep that are decided without a memo.
pub fn plain(depth: usize) -> Vec<u8> {
    chain(depth, |n| once("not", n))
}

/// The same with binds in each other, each for many members, so that a memo pays.
pub fn binding(depth: usize) -> Vec<u8> {
    chain(depth, |n| match depth - n {
        1 | 3 => under("out", 0, n),
        2 | 4 => under("bind", 1, n),
        _ => once("not", n),
    })
}
