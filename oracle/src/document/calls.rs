//! The calls that the rules accept (docs/RULES.md), and an encoder's answer. A call's
//! kind is its place in a list of kinds in `draw`.

use crate::document::rows::Row;
use crate::document::rules::Filters;
use crate::document::side::Side;

/// A call of the decoder; the weighting is not used.
#[derive(Clone)]
pub struct Decode {
    pub row: &'static Row,
    pub side: Side,
    pub kind: usize,
    pub lines: Vec<f32>,
}

impl Decode {
    /// Whether a filter is counted, has a band and has an order.
    pub fn acts(&self, filter: usize) -> bool {
        filter < self.side.filters && filter < self.row.bands.len() && self.side.orders[filter] > 0
    }

    /// A filter's indices below its order; none where it does not act.
    pub fn acting(&self, filter: usize) -> &[usize] {
        let (order, indices) = self.side.of(filter);
        if self.acts(filter) {
            &indices[..order]
        } else {
            &[]
        }
    }

    /// The places whose indices are used: those below the order of a filter that
    /// acts.
    pub fn used(&self) -> impl Iterator<Item = usize> + '_ {
        let of = |filter| 8 * filter..8 * filter + self.side.orders[filter];
        (0..2).filter(|f| self.acts(*f)).flat_map(of)
    }

    /// Whether a used place holds index 0.
    pub fn uses_0(&self) -> bool {
        self.used().any(|place| self.side.indices[place] == 0)
    }
}

/// A frame that was saved before a line, and the frame that is to be decoded again
/// from that line on.
pub struct Mended {
    pub old: Decode,
    pub new: Decode,
    pub line: usize,
}

impl Mended {
    /// Whether the frames agree as they must (docs/RULES.md, "Restart at a line
    /// (C-22)"): on the row, the length, the filter count, all lines below the line,
    /// and order and indices of each filter that has such a line in its band.
    pub fn agree(&self) -> bool {
        let Mended { old, new, line } = self;
        let bits = |call: &Decode| -> Vec<u32> {
            let below = call.lines[..*line].iter();
            below.map(|x| x.to_bits()).collect()
        };
        let starts = old.row.bands.iter().map(|(start, _)| start);
        let mut held = starts.enumerate().filter(|(_, start)| *start < line);
        (old.row.place(), old.lines.len(), old.side.filters)
            == (new.row.place(), new.lines.len(), new.side.filters)
            && bits(old) == bits(new)
            && held.all(|(filter, _)| old.side.of(filter) == new.side.of(filter))
    }

    /// Whether the line is the start of the second band.
    pub fn at_second(&self) -> bool {
        let second = self.old.row.bands.get(1);
        second.is_some_and(|(start, _)| *start == self.line)
    }
}

/// A call of the encoder.
#[derive(Clone)]
pub struct Encode {
    pub row: &'static Row,
    pub bits: u64,
    pub near_nyquist: bool,
    pub kind: usize,
    pub lines: Vec<f32>,
}

impl Encode {
    pub fn weighting(&self) -> u8 {
        u8::from(self.bits < self.row.limit())
    }

    pub fn with_lines(&self, lines: Vec<f32>) -> Encode {
        Encode {
            lines,
            ..self.clone()
        }
    }
}

/// What an encoder answers besides the lines.
pub struct Encoded {
    pub bits: usize,
    pub side: Side,
    pub coefficients: [f32; 16],
}

impl Encoded {
    pub fn active(&self) -> bool {
        self.side.orders != [0, 0]
    }

    pub fn filters(&self, row: &Row) -> Filters<'static> {
        Filters {
            bands: row.bands,
            orders: self.side.orders,
            coefficients: self.coefficients,
        }
    }
}

/// An encoder's answer with its lines.
pub struct Outcome {
    pub said: Encoded,
    pub lines: Vec<f32>,
}
