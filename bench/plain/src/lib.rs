//! Plans, flanks and stations in plain Rust, without proofs: what the proved kernel is measured against.

pub mod checking;
pub mod fault;
pub mod field;
pub mod flanks;
pub mod layout;
pub mod numbers;
pub mod paths;
pub mod plan;
pub mod reading;
pub mod sheet;
pub mod station;
