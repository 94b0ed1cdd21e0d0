//! The words of terms and state, and the round trips between forms.

use crate::help::*;
use keeper::expect;
use keeper::generate;
use keeper::record::Call;
use keeper::terms::memory::*;
use keeper::terms::normal;

const SEEDS: std::ops::Range<u64> = 0..600;

#[test]
fn words_of_the_preset() {
    let mut record = preset();
    let words = terms_words(record.terms());
    assert_eq!(words.len(), 1_252);
    assert_eq!(words[..12], [3, 1, 3, 9, 1, 1, 0, 0, 4, 1, 0, 0]);
    assert_eq!(words[20..24], [7, 3, 1, 0]);
    assert_eq!(words[1_028..1_032], [8, 8, 7, 0]);
    assert!(words[1_032..].iter().all(|&word| word == 0));
    assert_eq!(record.state_words().iter().filter(|&&word| word != 0).count(), 1);
    assert_eq!(record.state_words()[0], 0b100);

    request(&mut record, 0, 0, 1);
    let state = record.state_words();
    assert_eq!(state.len(), 3_073);
    assert_eq!(state[1_024..1_027], [0b010, 0, 0]);
    assert_eq!(state[3_072], 1 + 1);
    request(&mut record, 2, 1, 2);
    assert_eq!(record.state_words()[3_072], 1 + 2 * 4_096 + 64 + 2);
}

#[test]
fn words_of_effects() {
    let text = "M 2/L 2 2/F 0 top 0 0/P 0 0/P 1 0/E 0 add 0 back/E 0 del 1 fwd/E 1 del 1 back";
    let words = terms_words(&accepted(&slashes(text)));
    assert_eq!(words[1_044..1_053], [1, 0, 1, 2, 1, 0, 0, 0, 0]);
    assert_eq!(words[1_056..1_062], [2, 1, 1, 0, 0, 0]);
}

#[test]
fn a_table_without_a_free_variable_has_equal_bits() {
    let mut record = record("M 3/L 0 1/F 0 top 0 0/F 1 out 0 0/F 2 since 0 1/P 0 0");
    request(&mut record, 0, 1, 2);
    let words = record.state_words();
    assert_eq!(words[1_024..1_027], [0, 0b111, 0]);
    assert!(state_of_words(record.terms(), &words).is_some());
    let mut uneven = words.clone();
    uneven[1_025] = 0b101;
    assert!(state_of_words(record.terms(), &uneven).is_none());
    uneven[1_025] = 0b1111;
    assert!(state_of_words(record.terms(), &uneven).is_none());
}

#[test]
fn terms_go_to_text_and_words_and_back() {
    for seed in SEEDS {
        let case = generate::case(seed, 99_999);
        let file = file(&case.text);
        assert_eq!(file.text(), normal(&case.text), "seed {seed}");
        let terms = file.terms;
        let mut bare = terms.clone();
        bare.edges.clear();
        assert_eq!(terms_of_words(&terms_words(&terms)), Some(bare), "seed {seed}");
    }
}

#[test]
fn state_goes_to_words_and_back() {
    for seed in 0..150 {
        let case = generate::case(seed, 99_999);
        let mut record = opened(&case.text);
        case.calls().for_each(|call| {
            record.answer(call);
        });
        let state = record.state();
        let words = state_words(&state);
        assert_eq!(state_of_words(record.terms(), &words), Some(state.clone()), "seed {seed}");
        let terms = terms_words(record.terms());
        let text = expect::storing(&terms, &words, usize::MAX).unwrap();
        assert_eq!(expect::reading(&text, TERMS_WORDS, STATE_WORDS), Ok((terms.clone(), words)));
        let words = expect::fresh(record.terms(), &state).state_words();
        let text = expect::writing(&terms, &words, usize::MAX).unwrap();
        assert_eq!(expect::reading(&text, TERMS_WORDS, STATE_WORDS), Ok((terms, words)));
    }
}

#[test]
fn terms_words_that_no_file_yields() {
    let sound = terms_words(preset().terms());
    assert!(terms_of_words(&sound).is_some());
    let broken = |place: usize, value: u16| {
        let mut words = sound.clone();
        words[place] = value;
        terms_of_words(&words).is_none()
    };
    assert!(broken(0, 0) && broken(0, 65) && broken(1, 17) && broken(2, 0) && broken(2, 17));
    assert!(broken(3, 0) && broken(3, 8) && broken(3, 257) && broken(3, 65_535));
    assert!(broken(4, 12), "an operator that does not exist");
    assert!(broken(6, 1) && broken(7, 1), "an unused field");
    assert!(broken(4 + 4 * 9, 1), "an unused entry");
    assert!(broken(1_031, 1), "an unused policy");
    assert!(broken(1_030, 6), "a policy with a free variable");
    assert!(broken(1_044, 3), "an action that does not exist");
    assert!(broken(1_045, 1), "a relation without an action");
    assert!(broken(1_047, 1), "effects with a gap");
    assert!(broken(1_235, 1), "the last effect");
    assert!(broken(1_236, 2) && broken(1_238, 65_535), "a mark that is neither 0 nor 1");
    assert!(broken(1_239, 1) && broken(1_251, 1), "a mark of no event");
    assert!(!broken(1_236, 1) && !broken(1_238, 1), "a kept event");
    assert!(!broken(1_044, 1), "an effect in the first place");
    assert!(!broken(0, 4), "a member more");
    assert!(!broken(3, 10), "one more entry, top");
}

#[test]
fn refusals_over_lent_memory_come_in_order() {
    let record = preset();
    let (terms, state) = (terms_words(record.terms()), record.state_words());
    let (mut bad_terms, mut bad_state) = (terms.clone(), state.clone());
    bad_terms[1_251] = 1;
    bad_state[3_072] = 1 + 3 * 4_096;
    let good = Call::request(0, 0, 0);
    let far = Call::request(3, 0, 0);
    let short = Call { scratch_words: 63, ..far };
    let number = |terms: &[u16], state: &[u64], call: &Call| {
        expect::calling(terms, state, call).map_or_else(|refusal| refusal.number, |_| 0)
    };
    assert_eq!(number(&bad_terms, &bad_state, &short), 6);
    assert_eq!(number(&bad_terms[..1_251], &bad_state, &far), 6);
    assert_eq!(number(&bad_terms, &bad_state[..3_072], &far), 6);
    assert_eq!(number(&bad_terms, &bad_state, &far), 7);
    assert_eq!(number(&terms, &bad_state, &far), 8);
    assert_eq!(number(&terms, &state, &far), 9);
    assert_eq!(number(&terms, &state, &Call::request(0, 3, 0)), 9);
    assert_eq!(number(&terms, &state, &Call::request(0, 0, 3)), 9);
    assert_eq!(number(&terms, &state, &good), 0);
    for write in [expect::writing, expect::storing] {
        let number = |terms: &[u16], state: &[u64]| write(terms, state, 0).unwrap_err().number;
        assert_eq!(number(&bad_terms[..1_251], &bad_state), 6);
        assert_eq!([number(&bad_terms, &bad_state), number(&terms, &bad_state)], [7, 8]);
        assert_eq!(number(&terms, &state), 6);
    }
}
