//! The band rows.

pub struct Row {
    /// The duration's code: 0 is 10 ms, 1 is 7.5 ms.
    pub duration: u8,
    pub bandwidth: u8,
    /// Start and stop of each band, stop not included.
    pub bands: &'static [(usize, usize)],
    /// The two cuts that make three subbands of each band.
    cuts: &'static [[usize; 2]],
}

impl Row {
    pub fn of(duration: u8, bandwidth: u8) -> Option<&'static Row> {
        ROWS.iter()
            .find(|row| (row.duration, row.bandwidth) == (duration, bandwidth))
    }

    /// The row's place in the list of rows.
    pub fn place(&self) -> usize {
        5 * self.duration as usize + self.bandwidth as usize
    }

    pub fn first_start(&self) -> usize {
        self.bands[0].0
    }

    pub fn last_stop(&self) -> usize {
        self.bands[self.bands.len() - 1].1
    }

    /// The longest spectrum of the row's duration.
    pub fn longest(&self) -> usize {
        [400, 300][self.duration as usize]
    }

    /// The numbers of lines that E's configuration offers.
    pub fn offered(&self) -> Vec<usize> {
        let steps = self.longest() / 5;
        let lengths = (1..=5).map(|n| n * steps);
        lengths.filter(|ne| *ne >= self.last_stop()).collect()
    }

    /// Below this bit number the weighting is 1.
    pub fn limit(&self) -> u64 {
        [480, 360][self.duration as usize]
    }

    /// Start and stop of a band's three subbands.
    pub fn subbands(&self, band: usize) -> [(usize, usize); 3] {
        let ((start, stop), [a, b]) = (self.bands[band], self.cuts[band]);
        [(start, a), (a, b), (b, stop)]
    }

    pub fn name(&self) -> String {
        let duration = ["10", "7.5"][self.duration as usize];
        format!("{duration} ms bandwidth {}", self.bandwidth)
    }
}

#[rustfmt::skip]
pub static ROWS: [Row; 10] = [
    Row { duration: 0, bandwidth: 0, bands: &[(12, 80)], cuts: &[[34, 57]] },
    Row { duration: 0, bandwidth: 1, bands: &[(12, 160)], cuts: &[[61, 110]] },
    Row { duration: 0, bandwidth: 2, bands: &[(12, 240)], cuts: &[[88, 164]] },
    Row { duration: 0, bandwidth: 3, bands: &[(12, 160), (160, 320)], cuts: &[[61, 110], [213, 266]] },
    Row { duration: 0, bandwidth: 4, bands: &[(12, 200), (200, 400)], cuts: &[[74, 137], [266, 333]] },
    Row { duration: 1, bandwidth: 0, bands: &[(9, 60)], cuts: &[[26, 43]] },
    Row { duration: 1, bandwidth: 1, bands: &[(9, 120)], cuts: &[[46, 83]] },
    Row { duration: 1, bandwidth: 2, bands: &[(9, 180)], cuts: &[[66, 123]] },
    Row { duration: 1, bandwidth: 3, bands: &[(9, 120), (120, 240)], cuts: &[[46, 82], [159, 200]] },
    Row { duration: 1, bandwidth: 4, bands: &[(9, 150), (150, 300)], cuts: &[[56, 103], [200, 250]] },
];
