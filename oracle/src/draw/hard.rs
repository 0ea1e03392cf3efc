//! Frames that are made to be filtered badly. The encoder chooses its own
//! coefficients, so a frame can only lean towards large ones.

use crate::document::{exact::least_m, whole, Encode, Row};
use crate::draw::random::{two, Random};
use crate::draw::spectra::{leaning, scale};

/// The kinds by name; a kind is a place in this list.
pub const KINDS: [&str; 8] = [
    "leaning lines cut off at 2^m",
    "level or alternating lines with turns",
    "a loud stretch among quiet leaning lines",
    "leaning lines between subnormals",
    "a loud band beside a leaning one",
    "a lone loud line",
    "lines of 2^m and its half",
    "a subband of coarse energy",
];

/// The kind that has a subband of coarse energy, after all the others.
pub const COARSE: usize = 7;

/// Signs of eight reflection coefficients: all of one sign, alternating from
/// either, or any. The sizes are near 1, where the indices are 16 and 0.
fn reflection(random: &mut Random) -> [f32; 8] {
    let signs = random.below(5);
    let near = two(random.between(-9, -2));
    std::array::from_fn(|k| {
        let negative = match signs {
            0 => false,
            1 => true,
            2 => k % 2 == 0,
            3 => k % 2 == 1,
            _ => random.once_in(2),
        };
        let size = 1.0 - near * (0.5 + 0.5 * random.unit().abs());
        [size, -size][usize::from(negative)]
    })
}

/// Lines that lean on such coefficients. The largest is 1.
fn lean(random: &mut Random, band: &mut [f32]) {
    let reflection = reflection(random).map(f64::from);
    let order = 1 + random.below(8);
    let lines = leaning(random, &reflection[..order], band.len());
    let sizes = lines.iter().map(|x| x.abs());
    let largest = sizes.fold(f64::MIN_POSITIVE, f64::max);
    for (line, x) in band.iter_mut().zip(lines) {
        *line = (x / largest) as f32;
    }
}

/// Lines of size 1 or little less: of one sign, alternating, or any.
fn loud(random: &mut Random, lines: &mut [f32]) {
    let signs = random.below(3);
    let rough = two(random.between(-24, -3)) * random.below(2) as f32;
    for (n, line) in lines.iter_mut().enumerate() {
        let negative = match signs {
            0 => false,
            1 => n % 2 == 1,
            _ => random.once_in(2),
        };
        let size = 1.0 - rough * random.unit().abs();
        *line = [size, -size][usize::from(negative)];
    }
}

fn subnormal(random: &mut Random) -> f32 {
    f32::from_bits(random.next() as u32 & 0x807F_FFFF)
}

/// Nine loud lines somewhere in a band.
fn loud_stretch(random: &mut Random, band: &mut [f32]) {
    let at = random.below(band.len() - 9);
    loud(random, &mut band[at..at + 9]);
}

/// Lines made larger, and cut off at 1.
fn cut_off(random: &mut Random, band: &mut [f32]) {
    scale(band, two(random.between(0, 5)));
    for line in band {
        *line = line.clamp(-1.0, 1.0);
    }
}

/// Lines of size 1 for a frame of a kind that is to be scaled to m.
fn fill(random: &mut Random, row: &Row, kind: usize, m: i32, lines: &mut [f32]) {
    let spared = random.below(row.bands.len());
    for (f, (start, stop)) in row.bands.iter().enumerate() {
        let band = &mut lines[*start..*stop];
        lean(random, band);
        match KINDS[kind] {
            "leaning lines cut off at 2^m" => cut_off(random, band),
            "level or alternating lines with turns" => {
                loud(random, band);
                for _ in 0..random.below(4) {
                    let from = random.below(band.len());
                    for line in &mut band[from..] {
                        *line = -*line;
                    }
                }
            }
            "a loud stretch among quiet leaning lines" => {
                scale(band, two(random.between(-12, -1)));
                loud_stretch(random, band);
            }
            "leaning lines between subnormals" => {
                let step = 2 + random.below(3);
                for (n, line) in band.iter_mut().enumerate() {
                    if n % step != 0 {
                        *line = subnormal(random);
                    }
                }
            }
            // The loud band turns its own filter off where its energies
            // overflow; its lines still say what m is. The other band is as
            // large as its energies allow, or less.
            "a loud band beside a leaning one" => {
                if f == spared {
                    loud(random, band);
                } else {
                    let most = (62 - m).min(0);
                    scale(band, two(random.between(most - 8, most)));
                }
            }
            "a lone loud line" => {
                scale(band, two(random.between(-30, -1)));
                let (start, stop) = row.subbands(f)[random.below(3)];
                let alone = &mut lines[start..stop];
                if random.once_in(2) {
                    alone.fill(0.0);
                }
                alone[random.below(stop - start)] = 1.0 - two(-24) * random.below(2) as f32;
            }
            "lines of 2^m and its half" => {
                for line in band {
                    *line = if line.abs() < 0.25 { 0.5 } else { 1.0 } * line.signum();
                }
            }
            // Coarse lines are put in after scaling.
            _ => {
                cut_off(random, band);
                loud_stretch(random, band);
            }
        }
    }
}

/// A subband whose squares round to 0 or to 2^-149 and whose products of lines
/// up to eight apart round to 2^-149, so that a lag may be up to twice the
/// energy, with a sign of its own.
fn coarse(random: &mut Random, lines: &mut [f32]) {
    let (nought, one) = (two(-75), f32::from_bits(two(-75).to_bits() + 1));
    let lean = random.below(3);
    let signs: [f32; 9] = std::array::from_fn(|k| match lean {
        0 => 1.0,
        1 => [1.0, -1.0][k % 2],
        _ => random.one_of(&[1.0, -1.0]),
    });
    for (n, line) in lines.iter_mut().enumerate() {
        let away = (n + 8) % 17;
        *line = match away.abs_diff(8) {
            0 => one,
            k if random.below(4) > 0 => nought * signs[k],
            _ => 0.0,
        };
    }
}

/// A line times 2^e, rounded once.
pub fn times_two(line: f32, e: i32) -> f32 {
    (f64::from(line) * whole::two(e)) as f32
}

/// The lines times a power of two, so that the least m of those in the bands is
/// the given one. Silence stays silence, and lines that are not finite keep their
/// size.
pub fn scaled(row: &Row, lines: &[f32], m: i32) -> Vec<f32> {
    let now = least_m(&lines[row.first_start()..row.last_stop()]);
    let e = now.map_or(0, |now| m - now);
    lines.iter().map(|line| times_two(*line, e)).collect()
}

/// A frame of a kind for a row and an m.
pub fn frame(random: &mut Random, row: &'static Row, kind: usize, m: i32) -> Encode {
    let mut lines = vec![0.0; row.last_stop()];
    fill(random, row, kind, m, &mut lines);
    let mut lines = scaled(row, &lines, m);
    // What has a size of its own comes after scaling.
    if KINDS[kind] == "leaning lines between subnormals" {
        for line in &mut lines {
            if line.abs() < two(-126) || f64::from(line.abs()) < f64::from(two(m)) * 1e-18 {
                *line = subnormal(random);
            }
        }
    }
    if KINDS[kind] == "a subband of coarse energy" {
        for f in 0..row.bands.len() {
            let (start, stop) = row.subbands(f)[random.below(3)];
            coarse(random, &mut lines[start..stop]);
        }
    }
    Encode {
        row,
        bits: random.one_of(&[0, u64::MAX]),
        near_nyquist: false,
        kind,
        lines,
    }
}
