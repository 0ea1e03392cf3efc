//! How both searches climb towards the bound.

use crate::draw::{two, Random};

/// Keeps what has the larger part, the earlier of two that are as large.
pub fn keep_best<T>(best: &mut Option<(f64, T)>, part: f64, found: impl FnOnce() -> T) {
    if best.as_ref().is_none_or(|(most, _)| part > *most) {
        *best = Some((part, found()));
    }
}

/// Takes so many random changes of what was found. A change is kept if what is
/// climbed on is not less.
pub fn climb<T, M>(
    mut found: (T, M),
    steps: usize,
    mut changed: impl FnMut(&T, &M) -> T,
    mut measure: impl FnMut(&T) -> Option<M>,
    height: impl Fn(&M) -> f64,
) -> (T, M) {
    for _ in 0..steps {
        let next = changed(&found.0, &found.1);
        if let Some(measured) = measure(&next) {
            if height(&measured) >= height(&found.1) {
                found = (next, measured);
            }
        }
    }
    found
}

/// Another line of about the size of 2^m: any, or one a few patterns away.
pub fn moved(random: &mut Random, line: f32, m: i32) -> f32 {
    let top = two(m).to_bits();
    let pattern = match random.below(3) {
        0 => top - random.below(1 << 21) as u32,
        _ => {
            let reach = 2 << random.below(20);
            let near = (line.abs().to_bits() + random.below(reach) as u32)
                .saturating_sub(reach as u32 / 2);
            near.min(top)
        }
    };
    f32::from_bits(pattern).copysign(line)
}
