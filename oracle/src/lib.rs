//! The published unscented filter of minikalman 0.8.1 over support code of our own, with the calls of documents 01 and 02 around it.
//!
//! The published files think that this crate is minikalman: the modules `kalman`, `matrix`, `observations`, `prelude`
//! and `angles` stand where they look for them. Everything else is ours.

// The published files say `num_traits::FromPrimitive`; it stands in this crate.
extern crate self as num_traits;

pub mod kalman;
pub mod matrix;
pub use matrix::FromPrimitive;

/// Where the published files look for the observations.
pub mod observations {
    include!(concat!(env!("OUT_DIR"), "/observations.rs"));
}

/// Where the published files look for common names.
pub mod prelude {
    pub use crate::matrix::AsMatrix;
}

include!(concat!(env!("OUT_DIR"), "/angles.rs"));

pub mod buffers;
pub mod coverage;
pub mod filter;
pub mod float;
pub mod kinds;
pub mod pair;
pub mod places;
pub mod published;
pub mod record;
pub mod refusal;
pub mod script;
pub mod stages;
pub mod stepped;
pub mod steps;
