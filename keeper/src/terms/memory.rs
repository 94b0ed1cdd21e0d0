//! The lent memory: terms as 1,252 words of 16 bits, state as 3,073 of 64.

use super::*;

pub const TERMS_WORDS: usize = 1_252;
pub const STATE_WORDS: usize = 3_073;
pub const SCRATCH_WORDS: usize = 64;

pub const FIRST_ENTRY: usize = 4;
pub const FIRST_POLICY: usize = entry_place(MOST_ENTRIES);
pub const FIRST_EFFECT: usize = FIRST_POLICY + MOST_EVENTS;
/// A word for each event, 1 where its denied requests are kept.
pub const FIRST_MARK: usize = FIRST_EFFECT + 3 * MOST_EFFECTS * MOST_EVENTS;
pub const FIRST_TABLE: usize = 1_024;
pub const EVENT_WORD: usize = 3_072;

/// The place of an entry among the words of terms.
pub const fn entry_place(entry: usize) -> usize {
    FIRST_ENTRY + 4 * entry
}

/// The place of an effect among the words of terms.
pub fn effect_place(event: usize, effect: usize) -> usize {
    FIRST_EFFECT + 3 * (MOST_EFFECTS * event + effect)
}

/// The 1,252 words of accepted terms.
pub fn terms_words(terms: &Terms) -> Vec<u16> {
    let mut words = vec![0; TERMS_WORDS];
    let mut put = |place: usize, value: usize| {
        words[place] = u16::try_from(value).expect("accepted terms fit their words");
    };
    put(0, terms.members);
    put(1, terms.relations);
    put(2, terms.events);
    put(3, terms.entries.len());
    for (index, entry) in terms.entries.iter().enumerate() {
        let (operator, fields) = entry.parts();
        put(entry_place(index), operator);
        for (offset, field) in fields.into_iter().enumerate() {
            put(entry_place(index) + 1 + offset, field);
        }
    }
    for (event, entry) in terms.policies.iter().enumerate() {
        put(FIRST_POLICY + event, *entry);
    }
    for (event, effects) in terms.effects.iter().enumerate() {
        for (index, effect) in effects.iter().enumerate() {
            let place = effect_place(event, index);
            put(place, if effect.add { 1 } else { 2 });
            put(place + 1, effect.relation);
            put(place + 2, usize::from(effect.back));
        }
    }
    for event in &terms.kept {
        put(FIRST_MARK + event, 1);
    }
    words
}

/// The terms, without edges, of which an accepted file yields these words;
/// none if no accepted file does (refusal 7).
///
/// The words are written out as a text, the text is read, and what reading
/// gives must be the same words.
pub fn terms_of_words(words: &[u16]) -> Option<Terms> {
    let guess = guess_terms(words)?;
    let terms = read(&write(&guess, &BTreeSet::new())).ok()?.terms;
    (terms_words(&terms) == words[..TERMS_WORDS]).then_some(terms)
}

/// Terms as the words seem to say; what does not fit is lost.
fn guess_terms(words: &[u16]) -> Option<Terms> {
    let word = |place: usize| usize::from(words[place]);
    let (events, count) = (word(2), word(3));
    if events > MOST_EVENTS || count > MOST_ENTRIES {
        return None;
    }
    let mut terms = Terms { members: word(0), relations: word(1), events, ..Terms::default() };
    for index in 0..count {
        let place = entry_place(index);
        let fields = [1, 2, 3].map(|offset| word(place + offset));
        terms.entries.push(Entry::of_parts(word(place), fields)?);
    }
    for event in 0..events {
        terms.policies.push(word(FIRST_POLICY + event));
        let mut effects = Vec::new();
        for index in 0..MOST_EFFECTS {
            let place = effect_place(event, index);
            let (relation, back) = (word(place + 1), word(place + 2) == 1);
            match word(place) {
                0 => {}
                1 => effects.push(Effect { add: true, relation, back }),
                2 => effects.push(Effect { add: false, relation, back }),
                _ => return None,
            }
        }
        terms.effects.push(effects);
        if word(FIRST_MARK + event) == 1 {
            terms.kept.insert(event);
        }
    }
    Some(terms)
}

/// What the state says of the present moment.
#[derive(Clone, Debug, Default, PartialEq, Eq)]
pub struct State {
    pub edges: BTreeSet<Edge>,
    pub past: Past,
}

/// The 3,073 words of a state.
pub fn state_words(state: &State) -> Vec<u64> {
    let mut words = vec![0; STATE_WORDS];
    for &(relation, from, to) in &state.edges {
        words[64 * relation + from] |= 1 << to;
    }
    for (t, table) in state.past.tables.iter().enumerate() {
        for (word, place) in table.iter().map(|bit| bit.place()) {
            words[FIRST_TABLE + 64 * t + word] |= 1 << place;
        }
    }
    if let Some(edge) = state.past.event {
        words[EVENT_WORD] = (1 + edge.number() * 4_096 + edge.from * 64 + edge.to) as u64;
    }
    words
}

/// The state that has these words under accepted terms; none if they break
/// the layout (refusal 8).
///
/// Only what the layout allows is picked up, so words that differ from those
/// of the state picked up have something more in them.
pub fn state_of_words(terms: &Terms, words: &[u64]) -> Option<State> {
    let bit = |place: usize, b: usize| words[place] >> b & 1 == 1;
    let members = terms.members;
    let mut state = State::default();
    for relation in 0..terms.relations {
        for (from, to) in pairs(members) {
            if bit(64 * relation + from, to) {
                state.edges.insert((relation, from, to));
            }
        }
    }
    let free = terms.free();
    for (t, entry) in terms.past().into_iter().enumerate() {
        let holds = |said: &Bit| {
            let (word, place) = said.place();
            // Without a free variable bit 0 speaks for all bits of its word.
            bit(FIRST_TABLE + 64 * t + word, if free[entry] == 0 { 0 } else { place })
        };
        let table = Bit::all(members, free[entry]).into_iter().filter(holds);
        state.past.tables.push(table.collect());
    }
    state.past.event = match words[EVENT_WORD] {
        0 => None,
        word => Some(event_of_word(terms, word - 1)?),
    };
    (state_words(&state) == words[..STATE_WORDS]).then_some(state)
}

fn event_of_word(terms: &Terms, code: u64) -> Option<EventEdge> {
    let number = usize::try_from(code / 4_096).ok()?;
    let (from, to) = ((code / 64 % 64) as usize, (code % 64) as usize);
    EventEdge::of_number(terms, number, from, to)
}

/// All pairs of members.
pub fn pairs(members: usize) -> impl Iterator<Item = (usize, usize)> {
    (0..members).flat_map(move |a| (0..members).map(move |b| (a, b)))
}
