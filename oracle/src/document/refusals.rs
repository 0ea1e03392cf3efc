//! What a call answers, and the table of refusals.

use crate::document::rows::Row;

/// An answer as it passes to C. Place and found are 0 but for refusals 6 and 7;
/// bits are 0 where refused and for the decoder.
#[repr(C)]
#[derive(Clone, Copy, Debug, PartialEq)]
pub struct Answer {
    pub refusal: u16,
    pub place: u16,
    pub found: u16,
    pub bits: u16,
}

pub const ACCEPTED: Answer = refused(0);

const fn refused(refusal: u16) -> Answer {
    Answer {
        refusal,
        place: 0,
        found: 0,
        bits: 0,
    }
}

/// The answer of an accepted call that has bits.
pub fn accepted(bits: usize) -> Answer {
    Answer {
        bits: bits as u16,
        ..ACCEPTED
    }
}

/// Refusals 1 to 3.
pub fn spectrum(duration: u8, bandwidth: u8, length: usize) -> Option<Answer> {
    if duration > 1 {
        return Some(refused(1));
    }
    let Some(row) = Row::of(duration, bandwidth) else {
        return Some(refused(2));
    };
    let good = (row.last_stop()..=row.longest()).contains(&length);
    (!good).then_some(refused(3))
}

/// The lowest place that holds more than `most`.
fn lowest_over(refusal: u16, list: &[u8], most: u8) -> Option<Answer> {
    let place = list.iter().position(|n| *n > most)?;
    Some(Answer {
        place: place as u16,
        found: list[place] as u16,
        ..refused(refusal)
    })
}

/// Refusals 4 to 7.
pub fn side(filters: u8, orders: &[u8], indices: &[u8]) -> Option<Answer> {
    if orders.len() != 2 || indices.len() != 16 {
        return Some(refused(4));
    }
    if filters > 2 {
        return Some(refused(5));
    }
    lowest_over(6, orders, 8).or_else(|| lowest_over(7, indices, 16))
}

/// Refusals 4 to 8, of a cost call.
pub fn cost(weighting: u8, filters: u8, orders: &[u8], indices: &[u8]) -> Option<Answer> {
    let last = (weighting > 1).then_some(refused(8));
    side(filters, orders, indices).or(last)
}

/// Refusals 16 and 17 (docs/RULES.md, "Refusal numbers"), which come after 7: the
/// line before which a frame is saved or from which it is decoded again, and an
/// output of another length than the spectrum.
pub fn restart(row: &Row, line: usize, length: usize, output: usize) -> Option<Answer> {
    if !(row.first_start()..=row.last_stop()).contains(&line) {
        return Some(refused(16));
    }
    (output != length).then_some(refused(17))
}
