//! One call of the port beside the answer that it must give.

use crate::compare::{difference, Differing};
use crate::document::{Answer, Encode, Outcome, ACCEPTED};
use crate::port::Loan;

/// What differs from the wanted answers.
#[derive(Default)]
pub struct Asked {
    pub differ: Differing,
    /// Calls that wrote beyond what was lent.
    pub guards: u64,
}

impl Asked {
    /// Asks the port, compares what it answers and leaves, and gives what it was
    /// lent. The kind is a call's in words.
    pub fn ask(&mut self, call: &Encode, wanted: &Outcome, kind: &str) -> Loan {
        let mut loan = Loan::new(&call.lines);
        let answer = loan.ask(call);
        self.guards += u64::from(!loan.guards_stand());
        let bits = answer.bits;
        let what = if answer == (Answer { bits, ..ACCEPTED }) {
            difference(wanted, &loan.outcome(bits))
        } else {
            Some(format!("{answer:?}"))
        };
        self.differ.take(what.is_some(), || {
            let (row, length) = (call.row.name(), call.lines.len());
            let (bits, near, what) = (call.bits, call.near_nyquist, what.unwrap_or_default());
            format!("encode: {row} with {length} lines, {kind}, bit number {bits}, near Nyquist {near}: wanted, given: {what}")
        });
        loan
    }
}
