//! The shortest list of requests after which another is granted, by breadth: every
//! state that can be reached, each step a request of the proved library on a copy.
//!
//! * `fixed`: policies that fail by what never changes, so that no state has to be tried
//! * `packed`: states in few bytes

pub mod fixed;
mod packed;

use packed::{packed, unpacked, NODE_BYTES};
use proved::raw::{self, Request};
use proved::{Answer, Monitor, SCRATCH_WORDS, STATE_WORDS};
use std::collections::HashSet;
use std::rc::Rc;

/// How far it is sought.
#[derive(Clone, Copy, Debug)]
pub struct Limits {
    /// The most requests in a list.
    pub within: usize,
    /// The most requests that are tried.
    pub tries: usize,
    /// The most bytes that states are kept in.
    pub bytes: usize,
}

impl Limits {
    /// Half a minute or so, and half a gigabyte.
    pub const USUAL: Limits =
        Limits { within: usize::MAX, tries: 8_000_000, bytes: 512 * 1024 * 1024 };
}

/// What the search comes to.
#[derive(Clone, Debug, PartialEq, Eq)]
pub enum Found {
    /// These requests, and then it is granted: none shorter do.
    After(Vec<Request>),
    /// It is granted in none of all states that can be reached, so many.
    Never { states: usize },
    /// It is not granted after any list of so many requests; further states can be
    /// reached.
    NotWithin { states: usize },
    /// The search was given up; it is not granted after any list of so many requests.
    GivenUp { states: usize, within: usize },
}

/// Seeks the shortest list after which a request is granted.
pub fn search(monitor: &Monitor, asked: Request, limits: Limits) -> Found {
    search_telling(monitor, asked, limits, &mut |_, _| ())
}

/// The same; it tells from time to time how many states it has seen, and after how many
/// requests the last of them.
pub fn search_telling(
    monitor: &Monitor,
    asked: Request,
    limits: Limits,
    tell: &mut dyn FnMut(usize, usize),
) -> Found {
    let members: Vec<usize> = (0..monitor.terms().members().len()).collect();
    Search::new(monitor, &members, Sought::Request(asked)).run(monitor, limits, tell)
}

/// Seeks requests of some events among some members after which one of them is granted an
/// event. After a request only pairs with one of its two members are looked at, each for a try.
pub fn search_event(
    monitor: &Monitor,
    event: usize,
    (events, members): (&[bool], &[usize]),
    limits: Limits,
) -> Found {
    let mut search = Search::new(monitor, members, Sought::Event(event));
    search.requests.retain(|request| events[request.event]);
    search.run(monitor, limits, &mut |_, _| ())
}

/// What is to be granted.
#[derive(Clone, Copy)]
enum Sought {
    Request(Request),
    /// An event, between any two of the members.
    Event(usize),
}

struct Search<'a> {
    terms: &'a [u16],
    requests: Vec<Request>,
    /// For each event whether its denied requests make a moment.
    kept: Vec<bool>,
    members: Vec<usize>,
    sought: Sought,
    /// The states so far, those of fewer requests first.
    nodes: Vec<Node>,
    known: HashSet<Rc<[u8]>>,
    /// The first of the states that no request was made in yet.
    level: usize,
    tries: usize,
    bytes: usize,
    found: Option<usize>,
}

struct Node {
    /// The words that are not 0, each with its place: equal for equal states only.
    state: Rc<[u8]>,
    /// The state before, and the request that led here.
    from: Option<(usize, Request)>,
}

impl<'a> Search<'a> {
    fn new(monitor: &'a Monitor, members: &[usize], sought: Sought) -> Search<'a> {
        let terms = monitor.terms();
        let all = |event| pairs(members).map(move |(from, to)| Request { event, from, to });
        Search {
            terms: terms.words(),
            requests: (0..terms.events().len()).flat_map(all).collect(),
            kept: terms.events().map(|event| terms.keeps(event)).collect(),
            members: members.to_vec(),
            sought,
            nodes: Vec::new(),
            known: HashSet::new(),
            level: 0,
            tries: 0,
            bytes: 0,
            found: None,
        }
    }

    /// Goes on from level to level.
    fn run(
        mut self,
        monitor: &Monitor,
        limits: Limits,
        tell: &mut dyn FnMut(usize, usize),
    ) -> Found {
        self.meet(*monitor.state().words(), None);
        let mut depth = 0;
        while self.found.is_none() {
            if self.nodes.len() == self.level {
                return Found::Never { states: self.nodes.len() };
            }
            if depth == limits.within {
                return Found::NotWithin { states: self.nodes.len() };
            }
            if !self.deepen(limits, &mut |states| tell(states, depth + 1)) {
                return Found::GivenUp { states: self.nodes.len(), within: depth };
            }
            depth += 1;
        }
        Found::After(self.list())
    }

    /// Makes every request in each state of the last level; whether that was not too
    /// much.
    fn deepen(&mut self, limits: Limits, tell: &mut dyn FnMut(usize)) -> bool {
        let end = self.nodes.len();
        for node in self.level..end {
            let before = unpacked(&self.nodes[node].state);
            let (mut state, mut scratch) = (before, [0; SCRATCH_WORDS]);
            for place in 0..self.requests.len() {
                let request = self.requests[place];
                let answer = raw::request(self.terms, &mut state, &mut scratch, request);
                // Any other denial leaves the state as it was.
                if answer == Ok(Answer::Grant) || self.kept[request.event] {
                    self.meet(state, Some((node, request)));
                    state = before;
                }
                if self.found.is_some() {
                    return true;
                }
            }
            self.tries += self.requests.len();
            tell(self.nodes.len());
            if self.tries > limits.tries || self.bytes > limits.bytes {
                return false;
            }
        }
        self.level = end;
        true
    }

    /// Takes a state in, unless it is known; notes it if the request is granted there.
    fn meet(&mut self, state: [u64; STATE_WORDS], from: Option<(usize, Request)>) {
        let packed: Rc<[u8]> = packed(&state).into();
        if !self.known.insert(packed.clone()) {
            return;
        }
        self.bytes += packed.len() + NODE_BYTES;
        self.nodes.push(Node { state: packed, from });
        let granted = match self.sought {
            Sought::Request(asked) => self.is_granted(&state, asked),
            Sought::Event(event) => {
                let near = |member| match from {
                    Some((_, request)) => member == request.from || member == request.to,
                    None => true,
                };
                let pairs = pairs(&self.members).filter(|(from, to)| near(*from) || near(*to));
                let looks: Vec<Request> =
                    pairs.map(|(from, to)| Request { event, from, to }).collect();
                self.tries += looks.len();
                looks.into_iter().any(|asked| self.is_granted(&state, asked))
            }
        };
        if granted {
            self.found.get_or_insert(self.nodes.len() - 1);
        }
    }

    fn is_granted(&self, state: &[u64; STATE_WORDS], asked: Request) -> bool {
        raw::look(self.terms, state, &[0; SCRATCH_WORDS], asked) == Ok(Answer::Grant)
    }

    /// The requests that lead to the state that was found.
    fn list(&self) -> Vec<Request> {
        let mut list = Vec::new();
        let mut node = self.found;
        while let Some((before, request)) = node.and_then(|node| self.nodes[node].from) {
            list.push(request);
            node = Some(before);
        }
        list.reverse();
        list
    }
}

/// All pairs of members.
fn pairs(members: &[usize]) -> impl Iterator<Item = (usize, usize)> + '_ {
    members.iter().flat_map(move |from| members.iter().map(move |to| (*from, *to)))
}

#[cfg(test)]
mod tests;
