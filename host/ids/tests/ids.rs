//! The families are what they say.

use rrezhbuta_ids::limits::{LARGEST_ID, THREAD_PLACES};
use rrezhbuta_ids::{slots, Family, HINTS};
use std::collections::HashSet;

/// More than a table holds.
const COUNT: usize = 2 * THREAD_PLACES;

/// How many values a slot has among the ids of a family: of the first slot, of the second, and of both together.
fn spread(family: Family) -> [usize; 3] {
    let pairs: Vec<[u32; 2]> = family.ids(COUNT).into_iter().map(slots).collect();
    let [first, second] = [0, 1].map(|n| pairs.iter().map(|p| p[n]).collect::<HashSet<_>>().len());
    [first, second, pairs.iter().collect::<HashSet<_>>().len()]
}

#[test]
fn slots_of_the_smallest_and_of_the_largest_id() {
    // times 2,654,435,769 and over 2^20 they are 2,531 and 5,436,284,452,380
    let [smallest, largest] = [2_531, 5_436_284_452_380_u64].map(|n| (n % HINTS as u64) as u32);
    assert_eq!(slots(1), [1, smallest]);
    assert_eq!(slots(LARGEST_ID), [HINTS - 1, largest]);
}

#[test]
fn a_family_has_as_many_ids_as_are_asked_for() {
    for family in Family::ALL {
        let ids = family.ids(COUNT);
        let distinct: HashSet<&u32> = ids.iter().collect();
        assert_eq!(distinct.len(), COUNT, "{family:?}");
        let mut valid = ids.iter().map(|id| (1..=LARGEST_ID).contains(id));
        assert!(valid.all(|valid| valid), "{family:?}");
    }
}

#[test]
fn families_meet_in_their_slots() {
    let many = THREAD_PLACES / 4;
    let [first, second, _] = spread(Family::First);
    assert!(first == 1 && second > many);
    let [first, second, _] = spread(Family::Second);
    assert!(first > many && second == 1);
    assert_eq!(spread(Family::Both), [1, 1, 1]);
    assert_eq!(spread(Family::Same), [1, 1, 1]);
    let [_, _, pairs] = spread(Family::Crossing);
    assert!(pairs > many);
    assert_eq!(Family::Places.ids(3), [1, 2, 3]);
    assert_eq!(Family::Largest.ids(2), [LARGEST_ID, LARGEST_ID - 1]);
}

#[test]
fn a_crossed_slot_is_the_first_of_some_and_the_second_of_others() {
    let ids = Family::Crossing.ids(COUNT);
    let slot = slots(ids[0]).into_iter().find(|&slot| {
        let mut all = ids.iter().map(|&id| slots(id));
        all.all(|pair| pair.contains(&slot))
    });
    let slot = slot.expect("one slot that all have");
    let [first, second] = [0, 1].map(|n| ids.iter().filter(|&&id| slots(id)[n] == slot).count());
    assert!(first > COUNT / 4 && second > COUNT / 4 && first + second == COUNT);
}
