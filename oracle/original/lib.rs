//! The crate around the original files. It is compiled twice from this one
//! text: with the standard library, and without it (feature "bare").
//! Assumes that the script `run` has put E, D, T and side_info.rs in place.
#![cfg_attr(feature = "bare", no_std)]

pub mod common;

#[allow(dead_code, unused_imports)]
pub mod encoder {
    pub mod temporal_noise_shaping;
}

#[allow(dead_code, unused_imports)]
pub mod decoder {
    pub mod side_info;
    pub mod temporal_noise_shaping;
}

#[allow(dead_code)]
pub mod tables {
    pub mod temporal_noise_shaping_tables;
}

/// Does not compile unless `f32` has its own float methods exactly in the build
/// with the standard library: a method of the type wins over a trait's.
mod whose_methods {
    pub struct OfTrait;

    #[allow(dead_code)]
    pub trait Shadow: Sized {
        fn asin(self) -> OfTrait {
            OfTrait
        }
        fn sin(self) -> OfTrait {
            OfTrait
        }
        fn powi(self, _: i32) -> OfTrait {
            OfTrait
        }
        fn ceil(self) -> OfTrait {
            OfTrait
        }
    }

    impl Shadow for f32 {}

    #[cfg(feature = "bare")]
    type Found = OfTrait;
    #[cfg(not(feature = "bare"))]
    type Found = f32;

    #[allow(dead_code)]
    fn check(x: f32) -> [Found; 4] {
        [x.asin(), x.sin(), x.powi(2), x.ceil()]
    }
}
