//! Decoder calls that may be refused (docs/RULES.md, "Refusal numbers"): each fault
//! alone, faults together, and any numbers.

use crate::document::{refusals, Answer, Decode, Row, Side, ACCEPTED, ROWS};
use crate::draw::numbers::{any_length, over};
use crate::draw::random::Random;

/// The numbers of a call, and how many lines it has.
#[derive(Clone)]
pub struct Input {
    pub duration: u8,
    pub bandwidth: u8,
    pub filters: u8,
    pub orders: Vec<u8>,
    pub indices: Vec<u8>,
    pub length: usize,
}

/// A byte list of random length, but not `but`.
fn other_length(random: &mut Random, but: usize) -> Vec<u8> {
    let length = random.below(2 * but + 2);
    let length = if length == but { 0 } else { length };
    (0..length).map(|_| random.below(256) as u8).collect()
}

/// One place, or any places, over the limit.
fn spoil_places(random: &mut Random, list: &mut [u8], most: usize) {
    if list.is_empty() {
        return;
    }
    let at = random.below(list.len());
    list[at] = over(random, most);
    if random.once_in(2) {
        for place in list.iter_mut() {
            if random.once_in(4) {
                *place = over(random, most);
            }
        }
    }
}

impl Input {
    /// A call that the rules accept.
    pub fn good(random: &mut Random, row: &Row) -> Self {
        Input {
            duration: row.duration,
            bandwidth: row.bandwidth,
            filters: random.below(3) as u8,
            orders: (0..2).map(|_| random.below(9) as u8).collect(),
            indices: (0..16).map(|_| random.below(17) as u8).collect(),
            length: any_length(random, row),
        }
    }

    /// Makes the call bad in the way of one refusal, where what was done
    /// before leaves room for it.
    pub fn spoil(&mut self, random: &mut Random, row: &Row, refusal: usize) {
        match refusal {
            1 => self.duration = over(random, 1),
            2 => self.bandwidth = over(random, 4),
            3 => {
                self.length = match random.below(5) {
                    0 => row.last_stop() - 1,
                    1 => row.longest() + 1,
                    2 => random.below(row.last_stop()),
                    3 => 0,
                    _ => row.longest() + 1 + random.below(600),
                }
            }
            4 => {
                let which = random.below(3);
                if which != 0 {
                    self.orders = other_length(random, 2);
                }
                if which != 1 {
                    self.indices = other_length(random, 16);
                }
            }
            5 => self.filters = over(random, 2),
            6 => spoil_places(random, &mut self.orders, 8),
            _ => spoil_places(random, &mut self.indices, 16),
        }
    }

    /// The side data of an input that the rules accept, with a weighting.
    pub fn side(&self, weighting: u8) -> Option<Side> {
        let head = [weighting, self.filters];
        let numbers = [&head, &self.orders[..], &self.indices].concat();
        Some(Side::of_record(numbers[..].try_into().ok()?))
    }

    /// The call of an input that the rules accept.
    pub fn call(&self, lines: Vec<f32>) -> Option<Decode> {
        Some(Decode {
            row: Row::of(self.duration, self.bandwidth)?,
            side: self.side(0)?,
            kind: 0,
            lines,
        })
    }

    /// The answer by docs/RULES.md, "Refusal numbers".
    pub fn by_table(&self) -> Answer {
        refusals::spectrum(self.duration, self.bandwidth, self.length)
            .or_else(|| refusals::side(self.filters, &self.orders, &self.indices))
            .unwrap_or(ACCEPTED)
    }
}

/// Every value of every number alone, every length, every pair of list lengths.
pub fn each_alone(random: &mut Random, mut take: impl FnMut(&Input)) {
    for row in &ROWS {
        let good = Input::good(random, row);
        let mut with = |change: &dyn Fn(&mut Input)| {
            let mut input = good.clone();
            change(&mut input);
            take(&input);
        };
        for n in 0..=255u8 {
            with(&|input| input.duration = n);
            with(&|input| input.bandwidth = n);
            for place in 0..2 {
                for filters in 0..=2 {
                    with(&|input| (input.filters, input.orders[place]) = (filters, n));
                }
            }
            with(&|input| input.orders = vec![n, 255 - n]);
            for place in 0..16 {
                with(&|input| input.indices[place] = n);
                with(&|input| (input.indices[place], input.indices[15 - place]) = (n, 255 - n));
            }
            with(&|input| input.filters = n);
            with(&|input| (input.filters, input.orders[0], input.indices[15]) = (n, 9, 17));
        }
        for length in 0..=row.longest() + 8 {
            with(&|input| input.length = length);
        }
        for orders in 0..=5 {
            for indices in 0..=33 {
                with(&|input| {
                    input.orders = vec![1; orders];
                    input.indices = vec![9; indices];
                });
            }
        }
        with(&|input| {
            (input.orders, input.indices) = (Vec::new(), Vec::new());
            input.length = 0;
        });
    }
}

/// Every set of the seven faults, on every row, so many times.
pub fn together(random: &mut Random, draws: usize, mut take: impl FnMut(&Input)) {
    for faults in 0..128 {
        for row in &ROWS {
            for _ in 0..draws {
                let mut input = Input::good(random, row);
                for refusal in (1..=7).filter(|r| faults >> (r - 1) & 1 == 1) {
                    input.spoil(random, row, refusal);
                }
                take(&input);
            }
        }
    }
}

/// Numbers mostly inside their limits or one beyond.
pub fn any(random: &mut Random) -> Input {
    let near = |random: &mut Random, most: usize| {
        let beyond = usize::from(random.once_in(40));
        (random.below(most + 1) + beyond) as u8
    };
    Input {
        duration: near(random, 1),
        bandwidth: near(random, 4),
        filters: near(random, 2),
        orders: vec![near(random, 8), near(random, 8)],
        indices: (0..16).map(|_| near(random, 16)).collect(),
        length: random.below(410),
    }
}
