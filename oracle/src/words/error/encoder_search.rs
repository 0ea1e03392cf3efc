//! The family `encoder search`: whole frames climb towards the bound through the
//! port's encoder, which chooses the coefficients, first on the largest filtered
//! line, then on the part. The numbers of steps are fixed. Steps of the first
//! sort are not measured and not counted; all others are. What is found at m = 0
//! is then carried to every m by a power of two.

use crate::document::exact::{LEAST, MOST};
use crate::document::{Encode, Row, ROWS};
use crate::draw::encoder::{draw, ONE};
use crate::draw::hard::{self, scaled, COARSE};
use crate::draw::{two, Random, SEED};
use crate::original::Build;
use crate::port::Loan;
use crate::words::error::climb::{climb, keep_best, moved};
use crate::words::error::family::Family;

/// Hard frames tried for each row before the best is climbed from, and draws of
/// steered ones.
const TRIED: usize = 400;
const STEERED: usize = 20;
/// Steps towards a large filtered line, and towards a large part.
const GROWING: usize = 10_000;
const CLIMBING: usize = 12_000;

/// What a climb starts from: a name, and whether the energies are coarse.
type Start = (&'static str, bool);

/// Hard frames whose energies are plain; or frames with a subband of lines near
/// 2^-75, hard ones and such as are steered to a coefficient of 1. The energy of
/// such a subband is so coarse that a lag may outgrow it.
const STARTS: [Start; 2] = [
    ("plain energies", false),
    ("a subband of coarse energy", true),
];

/// The best start for a row at m = 0, with its part.
fn best(
    random: &mut Random,
    build: &Build,
    family: &mut Family,
    row: &'static Row,
    (name, coarse): Start,
) -> Option<(f64, Encode)> {
    let mut best = None;
    let mut take = |call: &Encode| {
        if let Some(found) = family.encoded(call, name) {
            keep_best(&mut best, found.part, || call.clone());
        }
    };
    for n in 0..TRIED {
        let kind = if coarse { COARSE } else { n % COARSE };
        take(&hard::frame(random, row, kind, 0));
    }
    if coarse {
        for _ in 0..STEERED {
            draw(random, build, row, ONE, row.last_stop(), |call| {
                take(&carried(call, 0));
            });
        }
    }
    best
}

/// A frame carried to another m by a power of two. The lines of a coarse subband,
/// and smaller ones, stay as they are: they are what they are by their size.
fn carried(call: &Encode, m: i32) -> Encode {
    let mut there = scaled(call.row, &call.lines, m);
    for (new, old) in there.iter_mut().zip(&call.lines) {
        if old.abs() < two(-70) {
            *new = *old;
        }
    }
    call.with_lines(there)
}

/// A frame with one or two lines changed, mostly among the nine that decide a
/// filtered line.
fn changed(random: &mut Random, call: &Encode, at: usize) -> Encode {
    let (first, end) = (call.row.first_start(), call.row.last_stop());
    let mut next = call.clone();
    for _ in 0..1 + random.below(2) {
        let n = match random.below(2) {
            0 => first + random.below(end - first),
            _ => at.saturating_sub(random.below(9)).max(first),
        };
        let line = next.lines[n];
        next.lines[n] = match random.below(8) {
            0 => -line,
            _ => moved(random, line, 0),
        };
    }
    next
}

/// The largest filtered line, and where it is. The error grows with it and
/// follows small changes less well, so the search climbs on this first.
fn largest(call: &Encode, loan: &mut Loan) -> (f64, usize) {
    loan.refill(&call.lines);
    loan.ask(call);
    let first = call.row.first_start();
    let mut most = (0.0, first);
    for n in first..call.row.last_stop() {
        let size = f64::from(loan.lines()[n].abs());
        if size > most.0 {
            most = (size, n);
        }
    }
    most
}

/// One climb through the encoder, and what it found at every m.
fn search(
    random: &mut Random,
    family: &mut Family,
    name: &str,
    (first, call): (f64, Encode),
) -> Option<()> {
    let row = call.row;
    let loan = &mut Loan::new(&call.lines);
    let most = largest(&call, loan);
    let (call, _) = climb(
        (call, most),
        GROWING,
        |call, (_, at)| changed(random, call, *at),
        |call| Some(largest(call, loan)),
        |(size, _)| *size,
    );
    let grown = family.encoded(&call, name)?;
    let part = grown.part;
    let (call, most) = climb(
        (call, grown),
        CLIMBING,
        |call, most| changed(random, call, most.line),
        |call| family.encoded(call, name).filter(|found| found.m == 0),
        |found| found.part,
    );
    let (size, _) = largest(&call, loan);
    println!(
        "error: encoder search: {}, {name}, m 0: best of {TRIED} or more starts {first:.4}; after {GROWING} steps towards a large filtered line {part:.4}; after {CLIMBING} steps towards a large part {:.4}, with orders {:?}, indices {:?}, line {}, largest filtered line {size:.1}",
        row.name(),
        most.part,
        most.orders,
        &loan.side()[4..],
        most.line
    );
    for m in LEAST..=MOST {
        family.encoded(&carried(&call, m), name);
    }
    Some(())
}

pub fn run(build: &Build) -> Family {
    let mut family = Family::new("encoder search");
    let random = &mut Random(SEED);
    for start in STARTS {
        for row in &ROWS {
            let found = best(random, build, &mut family, row, start)
                .and_then(|best| search(random, &mut family, start.0, best));
            if found.is_none() {
                println!("error: encoder search: {}: no filter on", row.name());
            }
        }
    }
    family
}
