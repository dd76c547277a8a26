//! The lowest member of a set is the same by the library and by a loop, and the library is the quicker.

use rrezhbuta_bench::lowest::{by_loop, proved, sets_of_one, time};
use rrezhbuta_compare::random::Random;

#[test]
fn the_empty_set_has_no_lowest_member() {
    assert_eq!([proved(0), by_loop(0)], [0, 0]);
}

#[test]
fn a_set_of_one_has_that_signal() {
    for s in 1..=64 {
        let set = 1 << (s - 1);
        assert_eq!([proved(set), by_loop(set)], [s, s]);
    }
}

#[test]
fn members_above_the_lowest_do_not_count() {
    let mut random = Random::new(3);
    for _ in 0..100_000 {
        let lowest = random.below(64) as u32 + 1;
        let set = (random.next_u64() | 1) << (lowest - 1);
        assert_eq!([proved(set), by_loop(set)], [lowest, lowest], "{set:#x}");
    }
}

#[test]
fn random_sets_have_one_signal_and_all_occur() {
    let sets = sets_of_one(10_000, 1);
    assert!(sets.iter().all(|set| set.is_power_of_two()));
    assert_eq!(sets.iter().fold(0, |all, set| all | set), u64::MAX);
}

/// Request Two: at most half the time of a loop up from 1.
#[test]
fn it_takes_at_most_half_the_time_of_the_loop() {
    let times = time(&sets_of_one(100_000, 1), 21);
    let ratio = times.proved / times.by_loop;
    assert!(ratio <= 0.5, "{ratio}");
}
