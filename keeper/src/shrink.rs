//! Makes a failing case small.

mod plainer;
mod smaller;
mod turns;

pub use plainer::Shrinks;
pub use smaller::Less;

use crate::terms;
use smaller::candidates;

/// Drops steps, lines and leading zeros, makes readable terms smaller and steps
/// plainer, as long as `fails` stays true of what is left. The given case must
/// fail.
pub fn shrink<S, F>(text: &[u8], steps: &[S], mut fails: F) -> (Vec<u8>, Vec<S>)
where
    S: Shrinks,
    F: FnMut(&[u8], &[S]) -> bool,
{
    let (mut text, mut steps) = (text.to_vec(), steps.to_vec());
    loop {
        let fewer_steps = drop_parts(&mut steps, |left| fails(&text, left));
        let mut lines: Vec<Vec<u8>> =
            text.split_inclusive(|&byte| byte == b'\n').map(<[u8]>::to_vec).collect();
        let fewer_lines = drop_parts(&mut lines, |left| fails(&left.concat(), &steps));
        let fewer_zeros = drop_zeros(&mut lines, |left| fails(&left.concat(), &steps));
        text = lines.concat();
        let smaller_terms = smaller_terms(&mut text, |left| fails(left, &steps));
        let smaller_sizes = smaller_sizes(&mut text, &mut steps, &mut fails);
        let plainer_steps = plainer_steps(&mut steps, |left| fails(&text, left));
        let fewer = fewer_steps || fewer_lines || fewer_zeros;
        if !fewer && !smaller_terms && !smaller_sizes && !plainer_steps {
            return (text, steps);
        }
    }
}

/// Drops runs of items, long runs first, as long as `fails` stays true. Says
/// whether any were dropped.
pub fn drop_parts<T: Clone>(items: &mut Vec<T>, mut fails: impl FnMut(&[T]) -> bool) -> bool {
    let before = items.len();
    let mut run = items.len();
    while run > 0 {
        let mut start = 0;
        while start < items.len() {
            let end = (start + run).min(items.len());
            let left = [&items[..start], &items[end..]].concat();
            if fails(&left) {
                *items = left;
            } else {
                start = end;
            }
        }
        run /= 2;
    }
    items.len() < before
}

/// Puts lines into their normal form as long as `fails` stays true. Says whether
/// any line was changed.
fn drop_zeros(lines: &mut Vec<Vec<u8>>, fails: impl FnMut(&[Vec<u8>]) -> bool) -> bool {
    each(lines, fails, |line| vec![terms::normal(line)])
}

/// Makes steps plainer as long as `fails` stays true. Says whether any step was
/// changed.
fn plainer_steps<S: Shrinks>(steps: &mut Vec<S>, fails: impl FnMut(&[S]) -> bool) -> bool {
    each(steps, fails, S::plainer)
}

/// Goes through the items and puts plainer ones in their places, as long as
/// `fails` stays true. Says whether any was changed.
fn each<T: Clone + PartialEq>(
    items: &mut Vec<T>,
    mut fails: impl FnMut(&[T]) -> bool,
    plainer: impl Fn(&T) -> Vec<T>,
) -> bool {
    let mut changed = false;
    for index in 0..items.len() {
        'again: loop {
            for item in plainer(&items[index]) {
                let mut others = items.clone();
                others[index] = item;
                if others != *items && fails(&others) {
                    *items = others;
                    changed = true;
                    continue 'again;
                }
            }
            break;
        }
    }
    changed
}

/// Takes the first smaller readable text that still fails, again and again.
fn smaller_terms(text: &mut Vec<u8>, mut fails: impl FnMut(&[u8]) -> bool) -> bool {
    let mut changed = false;
    'again: while let Ok(file) = terms::read(text) {
        for candidate in candidates(&file) {
            let smaller = candidate.text();
            if terms::read(&smaller).is_ok() && fails(&smaller) {
                *text = smaller;
                changed = true;
                continue 'again;
            }
        }
        break;
    }
    changed
}

/// Takes members, events and relations out of the text and out of every
/// revision at once, again and again.
fn smaller_sizes<S, F>(text: &mut Vec<u8>, steps: &mut Vec<S>, fails: &mut F) -> bool
where
    S: Shrinks,
    F: FnMut(&[u8], &[S]) -> bool,
{
    let mut changed = false;
    'again: while let Ok(file) = terms::read(text) {
        for less in Less::ALL {
            let Some(smaller) = less.file(&file).map(|file| file.text()) else { continue };
            let others: Vec<S> = steps.iter().map(|step| step.with_less(less)).collect();
            if terms::read(&smaller).is_ok() && fails(&smaller, &others) {
                (*text, *steps) = (smaller, others);
                changed = true;
                continue 'again;
            }
        }
        break;
    }
    changed
}
