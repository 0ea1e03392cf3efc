//! Stand-in for the original's `common`: `Scaler` is f32, and of the
//! configuration there are only the two fields that E reads.

pub mod complex {
    pub type Scaler = f32;
}

pub mod config {
    #[derive(Clone, Copy)]
    pub enum FrameDuration {
        SevenPointFiveMs,
        TenMs,
    }

    #[derive(Clone, Copy)]
    pub struct Lc3Config {
        pub n_ms: FrameDuration,
        pub ne: usize,
    }
}
