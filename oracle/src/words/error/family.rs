//! The frames of one family, and how far their filtered lines lie from the exact
//! lattice.

use crate::compare::{first_change, first_difference};
use crate::document::exact::{self, LEAST, MOST};
use crate::document::{Encode, Filters, Outcome};
use crate::port::Loan;
use crate::words::error::climb::keep_best;

/// How many m there are.
pub const SPAN: usize = (MOST - LEAST + 1) as usize;

/// What was measured at one m.
#[derive(Clone, Copy, Default)]
struct At {
    frames: u64,
    active: u64,
    part: f64,
}

/// A measured frame: the largest part of the bound and where it is.
#[derive(Clone)]
pub struct Measured {
    pub part: f64,
    pub m: i32,
    pub orders: [usize; 2],
    pub line: usize,
}

pub struct Family {
    name: &'static str,
    pub frames: u64,
    not_finite: u64,
    too_large: u64,
    refused: u64,
    /// Frames in which the port's lines are not those of the f32 lattice, and
    /// frames that were compared.
    differ: u64,
    compared: u64,
    /// Frames with a line outside the bands that did not keep its bits.
    outside: u64,
    pub broken: u64,
    at: [At; SPAN],
    best: Option<(f64, (Measured, String))>,
    loan: Loan,
}

impl Family {
    pub fn new(name: &'static str) -> Self {
        Family {
            name,
            frames: 0,
            not_finite: 0,
            too_large: 0,
            refused: 0,
            differ: 0,
            compared: 0,
            outside: 0,
            broken: 0,
            at: [At::default(); SPAN],
            best: None,
            loan: Loan::new(&[]),
        }
    }

    /// m of a frame that is to be measured; the others are counted.
    fn admitted(&mut self, lines: &[f32]) -> Option<i32> {
        self.frames += 1;
        match exact::least_m(lines) {
            None => self.not_finite += 1,
            Some(m) if m > MOST => self.too_large += 1,
            found => return found,
        }
        None
    }

    /// One frame through the port. Nothing if it is left out or no filter is on.
    pub fn encoded(&mut self, call: &Encode, what: &str) -> Option<Measured> {
        let (row, before) = (call.row, &call.lines);
        let (first, end) = (row.first_start(), row.last_stop());
        let m = self.admitted(&before[first..end])?;
        self.loan.refill(before);
        let answer = self.loan.ask(call);
        if answer.refusal != 0 {
            self.refused += 1;
            return None;
        }
        let Outcome { said, lines: after } = self.loan.outcome(answer.bits);
        let filters = said.filters(row);
        self.compared += 1;
        let copy = filters.filtered(before);
        let differs = first_difference(&copy[first..end], &after[first..end]);
        self.differ += u64::from(differs.is_some());
        let outside = first_change(&before[..first], &after[..first])
            .or(first_change(&before[end..], &after[end..]));
        self.outside += u64::from(outside.is_some());
        self.measured(&filters, before, &after, m, || {
            format!("{what}, {}", row.name())
        })
    }

    /// One frame through the harness's f32 lattice, with any coefficients.
    pub fn direct(
        &mut self,
        filters: &Filters,
        before: &[f32],
        what: impl FnOnce() -> String,
    ) -> Option<Measured> {
        let bands = filters.bands;
        let m = self.admitted(&before[bands[0].0..bands[bands.len() - 1].1])?;
        self.measured(filters, before, &filters.filtered(before), m, what)
    }

    fn measured(
        &mut self,
        filters: &Filters,
        before: &[f32],
        after: &[f32],
        m: i32,
        what: impl FnOnce() -> String,
    ) -> Option<Measured> {
        let at = &mut self.at[(m - LEAST) as usize];
        at.frames += 1;
        if filters.orders == [0, 0] {
            return None;
        }
        at.active += 1;
        let found = exact::distance(filters, before, after, m);
        self.broken += u64::from(found.broken);
        let measured = Measured {
            part: found.part,
            m,
            orders: filters.orders,
            line: found.line,
        };
        at.part = at.part.max(found.part);
        keep_best(&mut self.best, found.part, || (measured.clone(), what()));
        Some(measured)
    }

    /// The largest part of the bound.
    pub fn part(&self) -> f64 {
        self.best.as_ref().map_or(0.0, |(part, _)| *part)
    }

    pub fn active(&self) -> u64 {
        self.at.iter().map(|at| at.active).sum()
    }

    pub fn print(&self) -> bool {
        let Family {
            name,
            frames,
            not_finite,
            too_large,
            refused,
            differ,
            compared,
            outside,
            broken,
            at,
            ..
        } = self;
        let active = self.active();
        println!("error: {name}: {frames} frames, {active} with a filter on; left out: {not_finite} with a line in the bands that is not finite, {too_large} with one beyond 2^{MOST}, {refused} refused; {broken} break the bound");
        if *compared > 0 {
            println!("error: {name}: the harness's f32 lattice against tns_encode, bit by bit: {compared} frames compared, {differ} differ, {outside} changed a line outside the bands");
        }
        if let Some((part, (best, what))) = &self.best {
            let ([first, second], m, line) = (best.orders, best.m, best.line);
            println!("error: {name}: largest part {part:.4}: {what}, m {m}, orders {first} {second}, line {line}");
        }
        let on = |at: &At| at.active > 0;
        if let (Some(low), Some(high)) = (at.iter().position(on), at.iter().rposition(on)) {
            let (low, high) = (low as i32 + LEAST, high as i32 + LEAST);
            let said = |at: &At, frames: &str| format!("{} of {}{frames}", at.active, at.frames);
            let (least, most) = (said(&at[0], " frames"), said(&at[SPAN - 1], ""));
            println!("error: {name}: least m with a filter on {low}, largest {high}; filters on at m {LEAST}: {least}, at m {MOST}: {most}");
        }
        broken + differ + outside + refused == 0 && active > 0
    }

    /// The family's cell of the table.
    pub fn cell(&self, n: usize) -> String {
        let At { active, part, .. } = self.at[n];
        match active {
            0 => format!("{} -", self.name),
            _ => format!("{} {part:.3e} of {active}", self.name),
        }
    }
}
