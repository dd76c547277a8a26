//! Calls in words, on a ledger.

use rrezhbuta_ledger::call::Call;
use rrezhbuta_ledger::ledger::Ledger;

pub fn call(text: &str) -> Call {
    Call::parse(text).unwrap_or_else(|why| panic!("{text}: {why}"))
}

/// Enters a call as the ledger itself would have it answered, and gives that answer.
pub fn make(ledger: &mut Ledger, text: &str) -> String {
    let call = call(text);
    let answer = ledger.answer(&call);
    ledger.enter(&call, answer.starts_with("refused "));
    answer
}
