//! Policies that were never met, or always, when requests were tried.

use super::sought::{is_found, tested};
use super::warnings::{About, Subject, Warning};
use crate::both::{Both, Verdict};
use crate::folder::{self, Folder, Request};
use crate::session::Session;
use crate::stop::Stop;
use keeper::terms::{Entry, Terms};

/// At moment 0 so many members are looked at, first those with first edges.
const LOOKED_AT: usize = 24;
/// Requests are tried among so many of them.
const TRYING: usize = 6;
/// So many requests are made: of the folder's, and of those tried.
const REQUESTS: usize = 400;
/// So often it is begun anew.
const RUNS: usize = 4;
/// No more is tried in one go after so many moments, and at all after so many looks.
const MOMENTS: usize = 40;
const LOOKS: usize = 20_000;

/// What is often wrong with a policy that is never met.
const IN_FOR_OUT: &str =
    "is `in` written where `out` is meant, or `out` for `in`? `cuckooormolu aloud` reads it aloud, \
     and `cuckooormolu can` seeks requests that lead there";
/// What ends the warning that an event is never granted.
const ENDED: &str = "a line in requests.say or tests.say that is granted ends this warning";
/// The same in a source.
const TURNED: &str =
    "is a sentence the wrong way round, `a owns b` for `b owns a`? `cuckooormolu aloud` reads it aloud, \
     and `cuckooormolu can` seeks requests that lead there";

/// The same where the folder's own requests are all denied.
const LACKING: &str =
    "`cuckooormolu why` says what was lacking each time; is a sentence the wrong way round, \
                       `a owns b` for `b owns a`?";

/// How often each event was granted and denied.
#[derive(Clone, Copy, Default)]
pub struct Count {
    pub granted: usize,
    pub denied: usize,
}

/// Warnings for events that were all granted or all denied: by the folder's
/// requests and tests, by looks to begin with and after requests tried in turn, and by a
/// short search.
pub fn one_sided(both: &Both, subject: &Subject, folder: &Folder) -> Result<Vec<Warning>, Stop> {
    let (terms, names) = (subject.terms, subject.names);
    let asked = asked(folder, terms.events)?;
    let seen = seen(both)?;
    let one_sided = |event: &usize| {
        let (asked, seen) = (asked[*event], seen[*event]);
        asked.granted + seen.granted == 0 || asked.denied + seen.denied == 0
    };
    let tested = match (0..terms.events).any(|event| one_sided(&event)) {
        true => tested(both, folder)?,
        false => vec![Count::default(); terms.events],
    };
    let never =
        |event: &usize| asked[*event].granted + seen[*event].granted + tested[*event].granted == 0;
    let constant = |event: &usize| is_constant(terms, terms.policies[*event]);
    let sought: Vec<usize> =
        (0..terms.events).filter(|event| !constant(event) && never(event)).collect();
    let mut warnings = Vec::new();
    for event in (0..terms.events).filter(|event| !constant(event)) {
        let found = sought.contains(&event) && is_found(both, event, sought.len());
        let (asked, seen, name) = (asked[event], seen[event], names.event(event));
        let tried = match seen.granted + seen.denied {
            1 => "1 request was tried".to_string(),
            looks => format!("{looks} requests were tried"),
        };
        let (kind, what, right) = if sought.contains(&event) && !found {
            let what =
                format!("{tried}, and nobody was ever granted {name}: can its policy be met?");
            ("never", what, [IN_FOR_OUT.to_string(), format!("{TURNED}; {ENDED}")])
        } else if asked.denied + seen.denied + tested[event].denied == 0 {
            let what = format!(
                "{tried}, and nobody was ever denied {name}: does its policy ask for anything?"
            );
            (
                "always",
                what,
                ["`top` says that everybody may", "`by anyone` says that everybody may"]
                    .map(str::to_string),
            )
        } else if asked.granted == 0 && asked.denied > 1 {
            let times = asked.denied;
            let file = folder::name(&folder.asked);
            let what = format!("{file} asks {times} times for {name} and is denied each time");
            ("denied", what, [IN_FOR_OUT, LACKING].map(str::to_string))
        } else {
            continue;
        };
        let told = |right: &str| (what.clone(), right.to_string());
        let about = About::Policy(event);
        warnings.push(subject.warn(kind, about, || told(&right[0]), || told(&right[1])));
    }
    Ok(warnings)
}

/// How the folder's requests are answered, in their banks if they name banks.
fn asked(folder: &Folder, events: usize) -> Result<Vec<Count>, Stop> {
    let mut counts = vec![Count::default(); events];
    let mut session = Session::before(folder, !folder.banks.is_empty())?;
    for (line, request) in folder.requests().into_iter().take(REQUESTS).enumerate() {
        let Request::Ask { event, .. } = request else { continue };
        match session.make(folder.banks.get(line).copied(), request)?.verdict {
            Verdict::Grant => counts[event].granted += 1,
            Verdict::Deny => counts[event].denied += 1,
            Verdict::Refused(_) => {}
        }
    }
    Ok(counts)
}

/// How looks are answered while requests are tried.
fn seen(both: &Both) -> Result<Vec<Count>, Stop> {
    let terms = both.terms();
    let mut members = busiest(terms);
    // What is always so, or never, is not looked at.
    let count = |policy: &usize| match is_constant(terms, *policy) {
        true => Count { granted: 1, denied: 1 },
        false => Count::default(),
    };
    let mut counts: Vec<Count> = terms.policies.iter().map(count).collect();
    look_around(both, &members, &mut counts, LOOKS / RUNS)?;
    members = varied(terms, &members, TRYING);
    let (stored, mut random) = (both.store()?, 1u64);
    let mut below = |bound: usize| {
        random =
            random.wrapping_mul(6_364_136_223_846_793_005).wrapping_add(1_442_695_040_888_963_407);
        (random >> 33) as usize % bound
    };
    for run in 1..=RUNS {
        // A record of its own: the one at hand stays at moment 0.
        let (mut trial, most) = (Both::accepted(&stored)?, LOOKS * run / RUNS);
        for _ in 0..REQUESTS {
            let over = trial.record().graphs().len() > MOMENTS || looks(&counts) >= most;
            if over || counts.iter().all(is_mixed) {
                break;
            }
            let (event, from, to) =
                (below(terms.events), members[below(members.len())], members[below(members.len())]);
            let before = trial.record().graphs().len();
            trial.request(event, from, to)?;
            if trial.record().graphs().len() > before {
                look_around(&trial, &members, &mut counts, most)?;
            }
        }
    }
    Ok(counts)
}

fn is_mixed(count: &Count) -> bool {
    count.granted > 0 && count.denied > 0
}

/// How many looks there were.
fn looks(counts: &[Count]) -> usize {
    counts.iter().map(|count| count.granted + count.denied).sum()
}

/// Looks at every event between the members that isn't granted here and denied
/// there already; each of these has its share of the looks.
fn look_around(
    both: &Both,
    members: &[usize],
    counts: &mut [Count],
    most: usize,
) -> Result<(), Stop> {
    let open = counts.iter().filter(|count| !is_mixed(count)).count();
    let share = most / open.max(1);
    for (event, count) in counts.iter_mut().enumerate() {
        for &from in members {
            for &to in members {
                if is_mixed(count) || count.granted + count.denied >= share {
                    break;
                }
                match both.look(event, from, to)? {
                    Verdict::Grant => count.granted += 1,
                    _ => count.denied += 1,
                }
            }
        }
    }
    Ok(())
}

/// A few members, those of the first edges before the others.
pub fn busiest(terms: &Terms) -> Vec<usize> {
    let ends = terms.edges.iter().flat_map(|&(_, from, to)| [from, to]);
    let mut members: Vec<usize> = Vec::new();
    for member in ends.chain(0..terms.members) {
        if !members.contains(&member) && members.len() < LOOKED_AT {
            members.push(member);
        }
    }
    members
}

/// So many of the members, in turn one of those with each set of attributes.
pub fn varied(terms: &Terms, members: &[usize], most: usize) -> Vec<usize> {
    let attributes = |member: &usize| -> Vec<usize> {
        let loops = terms.edges.iter().filter(|(_, from, to)| from == member && to == member);
        loops.map(|(relation, ..)| *relation).collect()
    };
    // How many alike come before each.
    let alike = |place: usize| {
        let own = attributes(&members[place]);
        members[..place].iter().filter(|other| attributes(other) == own).count()
    };
    let mut places: Vec<usize> = (0..members.len()).collect();
    places.sort_by_key(|place| alike(*place));
    places.into_iter().take(most).map(|place| members[place]).collect()
}

/// Whether a policy is meant to be met always or never.
fn is_constant(terms: &Terms, entry: usize) -> bool {
    match terms.entries[entry] {
        Entry::Top => true,
        Entry::Not(f) => is_constant(terms, f),
        _ => false,
    }
}
