//! Drawing decoder calls.

use crate::document::{Decode, Mended, Row, Side};
use crate::draw::numbers::{any_side, length};
use crate::draw::random::Random;
use crate::draw::spectra::{fill, KINDS};

/// A call with lines of a kind.
pub fn of_kind(
    random: &mut Random,
    row: &'static Row,
    side: Side,
    kind: usize,
    length: usize,
) -> Decode {
    let mut lines = vec![0.0; length];
    fill(kind, random, &mut lines);
    Decode {
        row,
        side,
        kind,
        lines,
    }
}

/// Any call of a row; the ends of the index table, and its middle, more often.
pub fn any(random: &mut Random, row: &'static Row) -> Decode {
    let filters = random.one_of(&[0, 1, 1, 2, 2, 2, 2, 2]);
    let mut side = any_side(random, filters);
    match random.below(16) {
        0 => side.indices = [16; 16],
        1 => side.indices = [0; 16],
        2 | 3 => side.indices.fill_with(|| random.one_of(&[0, 16])),
        4..=6 => side.indices.fill_with(|| 6 + random.below(5)),
        _ => {}
    }
    let which = random.below(4);
    let length = length(random, row, which);
    let kind = random.below(KINDS.len());
    of_kind(random, row, side, kind, length)
}

/// The same, with index 0 at one more place of every fourth call.
pub fn any_with_0(random: &mut Random, row: &'static Row) -> Decode {
    let mut call = any(random, row);
    if random.once_in(4) {
        call.side.indices[random.below(16)] = 0;
    }
    call
}

/// A line that a row's frames can be saved before: the start of a band, the last
/// stop, inside a band, or any. The second band's start more often.
pub fn any_line(random: &mut Random, row: &Row) -> usize {
    let (first, last) = (row.first_start(), row.last_stop());
    let (start, stop) = random.one_of(row.bands);
    match random.below(8) {
        0 => first,
        1 => last,
        2..=4 if row.bands.len() == 2 => row.bands[1].0,
        2..=5 => start + 1 + random.below(stop - start - 1),
        _ => first + random.below(last - first + 1),
    }
}

/// Any frame, and the same frame mended from a line on: in its lines, in the
/// filters that may differ there (docs/RULES.md, "Restart at a line (C-22)"), or in
/// both.
pub fn mended(random: &mut Random, row: &'static Row) -> Mended {
    let old = any_with_0(random, row);
    let line = any_line(random, row);
    let mut new = old.clone();
    let what = random.below(4);
    if what != 0 {
        mend_lines(random, &mut new, line);
    }
    if what != 1 {
        let bands = (0..2).map(|filter| row.bands.get(filter));
        let free = bands.map(|band| band.is_none_or(|(start, _)| *start >= line));
        for (filter, _) in free.enumerate().filter(|(_, free)| *free) {
            mend_filter(random, &mut new.side, filter);
        }
    }
    Mended { old, new, line }
}

/// Other lines from a line on: all of them, one of them, or the first. None is
/// left to mend where the spectrum ends at the line.
fn mend_lines(random: &mut Random, call: &mut Decode, line: usize) {
    let length = call.lines.len();
    if line == length {
        return;
    }
    let pattern = f32::from_bits(random.pattern());
    match random.below(6) {
        0 => call.lines[line] = pattern,
        1 => call.lines[line + random.below(length - line)] = pattern,
        _ => {
            call.kind = random.below(KINDS.len());
            let mut drawn = vec![0.0; length];
            fill(call.kind, random, &mut drawn);
            call.lines[line..].copy_from_slice(&drawn[line..]);
        }
    }
}

/// Another order, another index at one place, or all of it anew.
fn mend_filter(random: &mut Random, side: &mut Side, filter: usize) {
    let other = any_side(random, side.filters);
    let (first, one) = (8 * filter, 8 * filter + random.below(8));
    let which = random.below(6);
    if which != 0 {
        side.orders[filter] = other.orders[filter];
    }
    let places = match which {
        0 => one..one + 1,
        1 => first..first,
        _ => first..first + 8,
    };
    side.indices[places.clone()].copy_from_slice(&other.indices[places]);
}
