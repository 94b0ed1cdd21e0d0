//! The stack that one call takes: a thread runs it on a painted stack, and
//! the paint that is left is counted.

use crate::archives::{is_done, is_granted, Archive, SCRATCH};
use crate::chains::{binding, deep, plain};
use crate::markdown::{self, Goal};
use cuckooormolu::raw::Record;
use cuckooormolu::{STATE_WORDS, TERMS_WORDS};
use std::ffi::{c_int, c_void};
use std::ptr::{null, null_mut};

const STACK: usize = 8 << 20;
const PAINT: u8 = 0xa5;
/// The goal, in bytes.
pub const MOST: usize = 512 << 10;
/// The goal for terms that take no memo and nest at most so deep.
pub const MOST_BRIEF: usize = 64 << 10;
pub const BRIEF_DEPTH: usize = 32;
/// The depths of the tables by depth.
pub const DEPTHS: [usize; 6] = [8, 16, 32, 64, 128, 255];

/// Room for a pthread_attr_t.
#[repr(C, align(16))]
struct Attributes([u8; 128]);

extern "C" {
    fn pthread_attr_init(attributes: *mut Attributes) -> c_int;
    fn pthread_attr_setstack(attributes: *mut Attributes, low: *mut c_void, size: usize) -> c_int;
    fn pthread_create(
        thread: *mut usize,
        attributes: *const Attributes,
        start: extern "C" fn(*mut c_void) -> *mut c_void,
        argument: *mut c_void,
    ) -> c_int;
    fn pthread_join(thread: usize, result: *mut *mut c_void) -> c_int;
}

#[repr(C, align(4096))]
struct Page([u8; 4096]);

/// Work for a thread, over memory that is not on its stack.
pub type Work<'a> = Box<dyn FnMut() + 'a>;

extern "C" fn run(argument: *mut c_void) -> *mut c_void {
    let work = unsafe { &mut *argument.cast::<Work>() };
    work();
    null_mut()
}

/// The bytes of stack that a thread with this work touches.
pub fn touched(mut work: Work) -> usize {
    let mut stack: Vec<Page> = Vec::new();
    stack.resize_with(STACK / 4096, || Page([PAINT; 4096]));
    let mut attributes = Attributes([0; 128]);
    let mut thread = 0;
    unsafe {
        assert_eq!(pthread_attr_init(&mut attributes), 0);
        assert_eq!(pthread_attr_setstack(&mut attributes, stack.as_mut_ptr().cast(), STACK), 0);
        let argument: *mut Work = &mut work;
        assert_eq!(pthread_create(&mut thread, &attributes, run, argument.cast()), 0);
        assert_eq!(pthread_join(thread, null::<*mut c_void>().cast_mut()), 0);
    }
    let bytes = stack.iter().flat_map(|page| &page.0);
    STACK - bytes.take_while(|&&byte| byte == PAINT).count()
}

/// Terms of the same size and with the same edges, with one entry, top, which is every event's policy.
pub fn without_past(text: &[u8]) -> Vec<u8> {
    let text = std::str::from_utf8(text).expect("a text");
    let kept = text.lines().filter_map(|line| match line.split('\t').collect::<Vec<_>>()[..] {
        ["M" | "L" | "G", ..] => Some(format!("{line}\n")),
        ["F", "0", ..] => Some("F\t0\ttop\t0\t0\n".into()),
        ["P", event, _] => Some(format!("P\t{event}\t0\n")),
        _ => None,
    });
    kept.collect::<String>().into_bytes()
}

/// The columns of a table, a call each.
const CALLS: [&str; 7] = ["request", "set list", "open", "read", "write", "revise", "store"];

/// The bytes of stack that each call takes under these terms; none where the archive doesn't know an operator.
fn calls(archive: &Archive, text: &[u8]) -> Option<[usize; 7]> {
    let bare = touched(Box::new(|| ()));
    let (mut terms, mut state) = (vec![0; TERMS_WORDS], vec![0; STATE_WORDS]);
    let mut scratch = vec![0; SCRATCH];
    // The tables of a few entries over 64 members are the most that is stored.
    let mut output = vec![0; text.len() + (1 << 20)];
    let mut code = 0;
    let read = touched(Box::new(|| code = archive.read(text, &mut terms, &mut state)));
    if !is_done(code) {
        return None;
    }
    let write = touched(Box::new(|| {
        assert!(is_done(archive.write(&terms, &state, &mut output)));
    }));
    let store = touched(Box::new(|| {
        assert!(archive.store(&terms, &state, &mut output).is_none_or(is_done));
    }));
    let open = touched(Box::new(|| assert!(is_done(archive.start(&terms, &mut state)))));
    let request = touched(Box::new(|| {
        assert!(is_granted(archive.request(&terms, &mut state, &mut scratch, [0, 1, 2])));
        archive.request(&terms, &mut state, &mut scratch, [1, 1, 2]);
    }));
    let mut records = [0, 1].map(|event| Record { event, from: 1, to: 2, answer: 0 });
    let list = touched(Box::new(|| {
        let code = archive.set_list(&terms, &mut state, &mut scratch, &mut records);
        assert!(code.is_none_or(is_done));
    }));
    // From terms of the same size in which nothing speaks of the past, so that every since starts.
    let (mut plain, mut before) = (vec![0; TERMS_WORDS], vec![0; STATE_WORDS]);
    assert!(is_done(archive.read(&without_past(text), &mut plain, &mut before)));
    let mut second = vec![0; STATE_WORDS];
    let revise = touched(Box::new(|| {
        let code = archive.revise((&plain, &before), (&terms, &mut second));
        assert!(code.is_none_or(is_done));
    }));
    Some([request, list, open, read, write, revise, store].map(|bytes| bytes.saturating_sub(bare)))
}
/// Prints a table with a row for each of these terms, and gives the most bytes of any call.
fn table(archive: &Archive, rows: Vec<(String, Vec<u8>)>) -> usize {
    markdown::head(&[&["terms"], &CALLS[..]].concat());
    let mut most = 0;
    for (name, text) in rows {
        let Some(bytes) = calls(archive, &text) else {
            continue;
        };
        let columns = bytes.map(|bytes| format!("{:.1}", bytes as f64 / 1024.0));
        markdown::row(&[&[name], &columns[..]].concat());
        most = bytes.into_iter().fold(most, usize::max);
    }
    most
}

/// Prints the stack of each call of an archive: under the deepest terms of each kind, and by the depth of the terms,
/// where deciding takes no memo and where it takes one. Gives the goals.
pub fn print(archive: &Archive) -> [Goal; 2] {
    println!("\nStack under 256 entries nested 255 deep, in KiB:\n");
    let most = table(archive, deep().into_iter().map(|(name, text)| (name.into(), text)).collect());
    println!("\nBy the depth of the terms:\n");
    let brief = DEPTHS.map(|depth| (format!("{depth} deep, no memo"), plain(depth)));
    let long = DEPTHS.map(|depth| (format!("{depth} deep, memo"), binding(depth)));
    table(archive, brief.into_iter().chain(long).collect());
    let least =
        calls(archive, &plain(BRIEF_DEPTH)).and_then(|bytes| bytes.into_iter().max()).unwrap_or(0);
    let told = |bytes: usize| format!("{:.1} KiB", bytes as f64 / 1024.0);
    [
        Goal::new(format!("stack at most {} KiB", MOST >> 10), told(most), most <= MOST),
        Goal::new(
            format!(
                "stack for terms {BRIEF_DEPTH} deep without a memo at most {} KiB",
                MOST_BRIEF >> 10
            ),
            told(least),
            least <= MOST_BRIEF,
        ),
    ]
}
