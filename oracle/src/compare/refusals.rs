//! Calls that may be refused, against docs/RULES.md, "Refusal numbers": what the port
//! answers, and that a refused call changes nothing.

use crate::compare::same::Differing;
use crate::document::Answer;
use std::ops::RangeInclusive;

#[derive(Default)]
pub struct Tally {
    /// By the table's answer; the highest refusal is 17.
    by_number: [u64; 18],
    wrong: u64,
    changed: u64,
    guards: u64,
    differ: u64,
    bad: Differing,
}

impl Tally {
    /// One call: the table's answer and the port's; for a refused call whether
    /// anything was changed, for another whether the original gives another
    /// result; whether the guards stand; the call in words.
    pub fn take(
        &mut self,
        (wanted, given): (Answer, Answer),
        other: bool,
        guards_stand: bool,
        said: impl FnOnce() -> String,
    ) {
        let refused = wanted.refusal != 0;
        self.by_number[wanted.refusal as usize] += 1;
        self.guards += u64::from(!guards_stand);
        self.wrong += u64::from(given != wanted);
        self.changed += u64::from(refused && other);
        self.differ += u64::from(!refused && other);
        self.bad.take(other || given != wanted, || {
            format!("{}: table {wanted:?}, port {given:?}", said())
        });
    }

    /// For a word with these refusals: whose table it is, what a refused call
    /// could change, where a call could write, and which original was asked.
    pub fn print(
        &self,
        word: &str,
        refusals: &[RangeInclusive<usize>],
        [whose, what, beyond, original]: [&str; 4],
    ) -> bool {
        let Tally {
            wrong,
            changed,
            guards,
            differ,
            ..
        } = self;
        let calls: u64 = self.by_number.iter().sum();
        let accepted = self.by_number[0];
        let refused = refusals.iter().map(|numbers| {
            let (first, last) = (numbers.start(), numbers.end());
            format!("{first}..{last} {:?}", &self.by_number[numbers.clone()])
        });
        let refused = refused.collect::<Vec<_>>().join(", ");
        println!("{word}: refusals: {calls} calls; by {whose} table accepted {accepted}, refused {refused}; {wrong} wrong answers, {changed} refused calls changed {what}, {guards} wrote beyond {beyond}, {differ} accepted ones differ from {original}");
        wrong + changed + guards + differ == 0
    }
}
