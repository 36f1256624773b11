//! Robijan beside the second implementation.

pub mod compare;
pub mod large;
pub mod measures;
pub mod plain;
pub mod tables;
pub mod timing;

/// Robijan's calls, by the vendor's bindings.
pub use ::robijan::raw as robijan;
