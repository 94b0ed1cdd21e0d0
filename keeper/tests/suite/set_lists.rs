//! Set lists by the record: each answer in order, the count, the state.

use crate::help::{preset, request};
use keeper::generate::{self, Rng};
use keeper::record::{Answer, Call, Record};
use keeper::set_list::{answer, number, Item};
use keeper::terms::{self, Refusal};

fn item(event: u32, from: u32, to: u32) -> Item {
    Item { event, from, to, answer: 77 }
}

fn answers(items: &[Item]) -> Vec<u32> {
    items.iter().map(|item| item.answer).collect()
}

#[test]
fn the_preset_in_one_go() {
    let mut record = preset();
    let mut items =
        [item(2, 1, 2), item(0, 0, 1), item(2, 1, 2), item(1, 0, 1), item(2, 1, 2), item(9, 0, 0)];
    assert_eq!(answer(&mut record, &mut items, 64), Ok(3));
    assert_eq!(answers(&items), [0, 1, 1, 1, 0, 9]);
    assert_eq!(record.graphs().len(), 4);
}

#[test]
fn a_refused_record_does_not_stop_the_list() {
    let mut record = preset();
    let mut items = [item(0, 3, 0), item(u32::MAX, 0, 0), item(0, 0, 1), item(2, 1, 2)];
    assert_eq!(answer(&mut record, &mut items, 3_000), Ok(2));
    assert_eq!(answers(&items), [9, 9, 1, 1]);
    assert_eq!((items[1].event, items[1].from), (u32::MAX, 0));
}

#[test]
fn short_scratch_writes_nothing() {
    let mut record = preset();
    let mut items = [item(0, 0, 1), item(9, 0, 0)];
    assert_eq!(answer(&mut record, &mut items, 63), Err(Refusal::plain(6)));
    assert_eq!(answers(&items), [77, 77]);
    assert_eq!(answer(&mut record, &mut [], 0), Err(Refusal::plain(6)));
    assert_eq!(answer(&mut record, &mut [], 64), Ok(0));
    assert_eq!(record.graphs().len(), 1);
}

#[test]
fn lists_are_single_requests_one_after_another() {
    for seed in 0..200 {
        let case = generate::case(seed, 99_999);
        let file = terms::read(&case.text).unwrap();
        let (mut listed, mut single) = (Record::of(file.clone()), Record::of(file));
        let mut rng = Rng::new(seed);
        let mut items: Vec<Item> =
            case.calls().map(|call| generate::item(&mut rng, call)).collect();
        let granted = answer(&mut listed, &mut items, 64);
        let mut grants = 0;
        for (call, item) in case.calls().zip(&items) {
            let Call { event, from, to, .. } = *call;
            let answer = request(&mut single, event, from, to);
            grants += usize::from(answer == Answer::Grant);
            assert_eq!(item.answer, number(answer), "{case}");
        }
        assert_eq!(granted, Ok(grants), "{case}");
        assert!(listed.graphs() == single.graphs(), "{case}");
    }
}

#[test]
fn lists_have_all_lengths_and_answers() {
    let mut rng = Rng::new(1);
    let lengths: Vec<usize> = (0..4_000).map(|_| generate::list_length(&mut rng)).collect();
    assert!((0..=40).all(|length| lengths.contains(&length)));
    let far = Call::request(usize::MAX, 1 << 32, u32::MAX as usize);
    let item = generate::item(&mut rng, &far);
    assert_eq!([item.event, item.from, item.to], [u32::MAX; 3]);
    let noise: Vec<u32> = (0..40).map(|_| generate::item(&mut rng, &far).answer).collect();
    assert!([0, 1, 9].iter().all(|number| noise.contains(number)));
    assert!(noise.iter().any(|&number| number > 9));
}
