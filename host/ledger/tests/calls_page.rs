//! Every example of docs/CALLS.md, whose answers are proved of the rules, gets the same answer from the ledger.

mod common;

use common::make;
use rrezhbuta_ledger::ledger::Ledger;

const PAGE: &str = include_str!("../../../docs/CALLS.md");
/// The examples of the block after this sentence stand on a store of their own.
const ASIDE: &str = "Beside the story:";

/// The examples of a page, in order.
fn examples(page: &str) -> Vec<(&str, &str)> {
    page.split("```")
        .skip(1)
        .step_by(2)
        .flat_map(str::lines)
        .filter_map(|line| line.split_once(" → "))
        .collect()
}

fn compare(mut ledger: Ledger, examples: &[(&str, &str)]) {
    for (text, answer) in examples {
        assert_eq!(&make(&mut ledger, text), answer, "{text}");
    }
}

#[test]
fn the_story() {
    let (before, rest) = PAGE
        .split_once(ASIDE)
        .expect("the sentence before the aside");
    let after = rest
        .splitn(3, "```")
        .nth(2)
        .expect("the block of the aside");
    let story = [examples(before), examples(after)].concat();
    assert!(story.len() > 60, "{} examples", story.len());
    compare(Ledger::default(), &story);
}

#[test]
fn the_aside() {
    let (_, rest) = PAGE
        .split_once(ASIDE)
        .expect("the sentence before the aside");
    let mut ledger = Ledger::default();
    make(
        &mut ledger,
        "add_process id=100 real=1000 effective=1000 saved=1000 session=7 thread=200 mask=0",
    );
    for value in 0..32 {
        let text = format!("queue by=100 to=100 thread=0 signal=34 value={value}");
        assert_eq!(make(&mut ledger, &text), "kept");
    }
    compare(ledger, &examples(rest)[..4]);
}
